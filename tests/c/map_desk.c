#include "map_desk.h"

#include <string.h>

map_desk fresh_map_desk(void)
{
    map_desk m = {lend(sizeof(uint64_t), 0xff),
                  lend(DOORCLOVER_MAP_WORDS * sizeof(uint64_t), 0xff),
                  lend(DOORCLOVER_MAP_ADDRESSES, 0xff), lend(DOORCLOVER_MAP_ADDRESSES, 0),
                  lend(DOORCLOVER_TRANSFER, 0xee), lend(0, 0)};
    for (size_t i = 0; i < m.window->size; i++)
        m.window->bytes[i] = host_byte(i);
    doorclover_map_fresh(open_of(&m), bits_of(&m), m.values->bytes);
    return m;
}

uint64_t *open_of(const map_desk *m)
{
    return (uint64_t *)(void *)m->open->bytes;
}

uint64_t *bits_of(const map_desk *m)
{
    return (uint64_t *)(void *)m->words->bytes;
}

int is_held(const map_desk *m, size_t address)
{
    return (bits_of(m)[address / 64] >> address % 64 & 1) != 0;
}

void set_held(const map_desk *m, size_t address)
{
    bits_of(m)[address / 64] |= (uint64_t)1 << address % 64;
}

size_t run_start(const map_desk *m, size_t from)
{
    while (from < DOORCLOVER_MAP_ADDRESSES && !is_held(m, from))
        from++;
    return from;
}

size_t run_end(const map_desk *m, size_t from)
{
    from = run_start(m, from);
    while (from < DOORCLOVER_MAP_ADDRESSES && is_held(m, from))
        from++;
    return from;
}

void change_window(const map_desk *m)
{
    for (size_t i = 0; i < m->window->size; i++)
        m->window->bytes[i] ^= 0x55;
}

/* The whole map may change. */
static void allow_map(const map_desk *m)
{
    allow(m->open, 0, m->open->size);
    allow(m->words, 0, m->words->size);
    allow(m->values, 0, m->values->size);
}

/* Is the map its flag, and nothing held? */
static int map_is_clear(const map_desk *m, uint64_t open)
{
    for (size_t i = 0; i < DOORCLOVER_MAP_WORDS; i++)
        if (bits_of(m)[i] != 0)
            return 0;
    for (size_t i = 0; i < DOORCLOVER_MAP_ADDRESSES; i++)
        if (m->values->bytes[i] != 0)
            return 0;
    return *open_of(m) == open;
}

static doorclover_begun call_begin(const map_desk *m)
{
    keep_all();
    return doorclover_map_begin(open_of(m), bits_of(m), m->values->bytes);
}

void map_begin_refused(const map_desk *m, doorclover_status want)
{
    turned_away("map begin", want, call_begin(m).status, 0);
}

void map_begin(const map_desk *m)
{
    CHECK(call_begin(m).status == DOORCLOVER_OK);
    CHECK(map_is_clear(m, 1));
    allow_map(m);
    CHECK(all_kept());
}

static doorclover_ended call_end(const map_desk *m)
{
    keep_all();
    return doorclover_map_end(open_of(m), bits_of(m), m->values->bytes);
}

void map_end_refused(const map_desk *m, doorclover_status want)
{
    doorclover_ended r = call_end(m);
    turned_away("map end", want, r.status, r.records | r.bytes);
}

void map_end(const map_desk *m, size_t records, size_t bytes)
{
    doorclover_ended r = call_end(m);
    CHECK(r.status == DOORCLOVER_OK && r.records == records && r.bytes == bytes);
    CHECK(map_is_clear(m, 0));
    allow_map(m);
    CHECK(all_kept());
}

static doorclover_fetched call_fetch(const map_desk *m, size_t address, size_t length)
{
    keep_all();
    return doorclover_map_fetch(open_of(m), bits_of(m), m->values->bytes, m->window->bytes,
                                m->window->size, m->destination->bytes, m->destination->size,
                                address, length);
}

void map_fetch_refused(const map_desk *m, doorclover_status want, size_t address, size_t length)
{
    doorclover_fetched r = call_fetch(m, address, length);
    turned_away("map fetch", want, r.status, r.fresh | r.replayed | r.looked_at);
}

/* What is to be delivered is not there before the call. */
void map_fetch(const map_desk *m, size_t address, size_t length, size_t fresh, size_t replayed)
{
    uint64_t words[DOORCLOVER_MAP_WORDS];
    uint8_t values[DOORCLOVER_MAP_ADDRESSES];
    memcpy(words, bits_of(m), sizeof words);
    memcpy(values, m->values->bytes, sizeof values);
    for (size_t i = 0; i < length; i++) {
        size_t x = address + i;
        if (!is_held(m, x))
            values[x] = m->window->bytes[x];
        words[x / 64] |= (uint64_t)1 << x % 64;
        m->destination->bytes[i] = (uint8_t)~values[x];
    }
    doorclover_fetched r = call_fetch(m, address, length);
    CHECK(r.status == DOORCLOVER_OK && r.fresh == fresh && r.replayed == replayed);
    CHECK(r.looked_at == 0); /* there are no records */
    CHECK(memcmp(bits_of(m), words, sizeof words) == 0);
    CHECK(memcmp(m->values->bytes, values, sizeof values) == 0);
    CHECK(length == 0 || memcmp(m->destination->bytes, values + address, length) == 0);
    allow(m->words, 0, m->words->size);
    allow(m->values, 0, m->values->size);
    allow(m->destination, 0, length);
    CHECK(all_kept());
}

static doorclover_written call_own(const map_desk *m, size_t address)
{
    keep_all();
    return doorclover_map_own_write(open_of(m), bits_of(m), m->values->bytes, m->window->bytes,
                                    m->window->size, address, m->bytes->bytes, m->bytes->size);
}

void map_own_refused(const map_desk *m, doorclover_status want, size_t address)
{
    doorclover_written r = call_own(m, address);
    turned_away("map own write", want, r.status, r.bytes | r.fresh);
}

/* The bytes are the values of their addresses, whatever these had before, and are in the window. */
void map_own_write(const map_desk *m, size_t address, size_t fresh)
{
    uint64_t words[DOORCLOVER_MAP_WORDS];
    uint8_t values[DOORCLOVER_MAP_ADDRESSES];
    size_t size = m->bytes->size;
    memcpy(words, bits_of(m), sizeof words);
    memcpy(values, m->values->bytes, sizeof values);
    for (size_t i = 0; i < size; i++) {
        words[(address + i) / 64] |= (uint64_t)1 << (address + i) % 64;
        values[address + i] = m->bytes->bytes[i];
    }
    doorclover_written r = call_own(m, address);
    CHECK(r.status == DOORCLOVER_OK && r.bytes == size && r.fresh == fresh);
    CHECK(memcmp(bits_of(m), words, sizeof words) == 0);
    CHECK(memcmp(m->values->bytes, values, sizeof values) == 0);
    CHECK(size == 0 || memcmp(m->window->bytes + address, m->bytes->bytes, size) == 0);
    allow(m->words, 0, m->words->size);
    allow(m->values, 0, m->values->size);
    allow(m->window, address, size);
    CHECK(all_kept());
}
