/* Maps that no call has left, where a map may stand, and a map beside a command of a state. */
#include "map_desk.h"
#include "tests.h"

#include <stdio.h>
#include <string.h>

/* A map: its flag, as many runs as are said, the value of their bytes, and one value more. */
typedef struct {
    const char *name;
    uint64_t open;
    size_t runs, start, length, step;
    uint8_t value;
    size_t at;
    uint8_t value_at;
} shape;

static const shape broken[] = {
    {"a bit in a closed map, the first", 0, 1, 0, 1, 1, 0, 0, 0},
    {"one at the end of a word", 0, 1, 63, 1, 1, 0, 0, 0},
    {"one at the start of a word", 0, 1, 64, 1, 1, 0, 0, 0},
    {"the last one", 0, 1, 4095, 1, 1, 0, 0, 0},
    {"a byte in a closed map", 0, 1, 100, 1, 1, 7, 0, 0},
    {"all of them", 0, 1, 0, 4096, 1, 7, 0, 0},
    {"a value in a closed map, the first", 0, 0, 0, 0, 0, 0, 0, 1},
    {"one of the second word", 0, 0, 0, 0, 0, 0, 64, 255},
    {"the last value", 0, 0, 0, 0, 0, 0, 4095, 128},
    {"a value in an open map, the first", 1, 0, 0, 0, 0, 0, 0, 1},
    {"one of the second word, open", 1, 0, 0, 0, 0, 0, 64, 255},
    {"the last value, open", 1, 0, 0, 0, 0, 0, 4095, 128},
    {"a value below held ones", 1, 1, 10, 5, 1, 7, 9, 1},
    {"a value above held ones", 1, 1, 10, 5, 1, 7, 15, 1},
    {"a value between held ones", 1, 2, 10, 5, 6, 7, 15, 16},
    {"a value below a whole word", 1, 1, 64, 64, 1, 7, 63, 1},
    {"a value above a whole word", 1, 1, 64, 64, 1, 7, 128, 1},
    {"all held but the first", 1, 1, 1, 4095, 1, 7, 0, 1},
    {"all held but the last", 1, 1, 0, 4095, 1, 7, 4095, 1},
    {"65 runs", 1, 65, 0, 1, 2, 7, 0, 0},
    {"65 runs, any flag", UINT64_MAX, 65, 1, 1, 2, 7, 0, 0},
    {"65 runs up to the last address", 1, 65, 3967, 1, 2, 7, 0, 0},
    {"65 runs, wide", 1, 65, 0, 62, 63, 0, 0, 0},
    {"2,048 runs", 1, 2048, 1, 1, 2, 7, 0, 0},
};

static const shape whole[] = {
    {"64 runs", 1, 64, 0, 1, 2, 7, 0, 0},
    {"64 runs up to the last address", 1, 64, 3969, 1, 2, 7, 0, 0},
    {"64 runs, one address apart", 1, 64, 1, 63, 64, 7, 0, 0},
    {"64 runs, each over the edge of a word but the last", 1, 64, 40, 50, 64, 7, 0, 0},
    {"held bytes that are zero", 1, 3, 100, 50, 70, 0, 0, 0},
    {"held bytes of another value", 1, 3, 100, 50, 70, 7, 101, 8},
    {"all held", 1, 1, 0, 4096, 1, 255, 0, 0},
    {"open, and nothing held", (uint64_t)1 << 40, 0, 0, 0, 0, 0, 0, 0},
};

/* Bytes past the last address are left out. */
static size_t lay(const map_desk *m, const shape *s)
{
    size_t bytes = 0;
    doorclover_map_fresh(open_of(m), bits_of(m), m->values->bytes);
    *open_of(m) = s->open;
    for (size_t i = 0; i < s->runs; i++) {
        size_t start = s->start + s->step * i;
        for (size_t x = start; x < start + s->length && x < DOORCLOVER_MAP_ADDRESSES; x++) {
            set_held(m, x);
            m->values->bytes[x] = s->value;
            bytes++;
        }
    }
    if (s->value_at != 0)
        m->values->bytes[s->at] = s->value_at;
    return bytes;
}

/* Says which map it was if a check has failed. */
static void name_if(unsigned long before, const shape *s)
{
    if (failures != before)
        printf("  with %s\n", s->name);
}

void test_broken_maps(void)
{
    map_desk m = fresh_map_desk(), short_of = m, all = m;
    short_of.window = lend(3, 1);
    short_of.bytes = lend(3, 0x99);
    all.bytes = lend(4096, 0x99);
    for (size_t i = 0; i < sizeof broken / sizeof broken[0]; i++) {
        unsigned long before = failures;
        (void)lay(&m, &broken[i]);
        map_begin_refused(&m, DOORCLOVER_STATE_BROKEN);
        map_fetch_refused(&m, DOORCLOVER_STATE_BROKEN, 9, 3);
        map_fetch_refused(&m, DOORCLOVER_STATE_BROKEN, 0, 0);
        map_fetch_refused(&m, DOORCLOVER_STATE_BROKEN, 0, 4096);
        map_fetch_refused(&short_of, DOORCLOVER_STATE_BROKEN, 0, 3);
        map_end_refused(&m, DOORCLOVER_STATE_BROKEN);
        map_own_refused(&m, DOORCLOVER_STATE_BROKEN, 0);
        map_own_refused(&all, DOORCLOVER_STATE_BROKEN, 0);
        map_own_refused(&short_of, DOORCLOVER_STATE_BROKEN, 0);
        name_if(before, &broken[i]);
    }
}

void test_maps_at_their_limits(void)
{
    map_desk m = fresh_map_desk(), all = m;
    all.bytes = lend(4096, 0x99);
    for (size_t i = 0; i < sizeof whole / sizeof whole[0]; i++) {
        unsigned long before = failures;
        size_t bytes = lay(&m, &whole[i]);
        map_begin_refused(&m, DOORCLOVER_COMMAND_ALREADY_OPEN);
        map_fetch(&m, 0, 0, 0, 0);
        map_end(&m, whole[i].runs, bytes);
        (void)lay(&m, &whole[i]);
        map_fetch(&m, 0, 4096, 4096 - bytes, bytes);
        map_end(&m, 1, 4096);
        (void)lay(&m, &whole[i]);
        map_own_write(&m, 0, 0);
        map_own_write(&all, 0, 4096 - bytes);
        map_end(&m, 1, 4096);
        name_if(before, &whole[i]);
    }
}

/* A map among other things, as firmware has it. */
typedef struct {
    uint64_t before;
    doorclover_map maps[2];
    uint64_t behind;
} device;

/* The parts of a map that lies in a piece from a place on. */
static map_desk inside(map_desk m, const lent *piece, size_t from, lent parts[3])
{
    static const size_t at[] = {offsetof(doorclover_map, open), offsetof(doorclover_map, words),
                                offsetof(doorclover_map, values), sizeof(doorclover_map)};
    for (size_t i = 0; i < 3; i++) {
        parts[i] = *piece;
        parts[i].bytes += from + at[i];
        parts[i].size = at[i + 1] - at[i];
    }
    m.open = &parts[0];
    m.words = &parts[1];
    m.values = &parts[2];
    return m;
}

/* The same calls on two maps that lie side by side, taking turns. Each leaves the other alone. */
void test_maps_side_by_side(void)
{
    map_desk m = fresh_map_desk(), pair[2];
    lent *piece = lend(sizeof(device), 0x77), parts[2][3];
    device *d = (device *)(void *)piece->bytes;
    CHECK(sizeof(device) == 8 + 2 * 4616 + 8);
    for (size_t i = 0; i < 2; i++) {
        pair[i] = inside(m, piece, offsetof(device, maps) + i * sizeof(doorclover_map), parts[i]);
        keep_all();
        doorclover_map_fresh(&d->maps[i].open, d->maps[i].words, d->maps[i].values);
        allow(piece, offsetof(device, maps) + i * sizeof(doorclover_map), sizeof(doorclover_map));
        CHECK(all_kept());
    }
    for (size_t i = 0; i < 2; i++)
        map_begin(&pair[i]);
    pair[0].bytes = pair[1].bytes = lend(2, 0x99);
    for (size_t k = 0; k < DOORCLOVER_RECORDS; k++)
        for (size_t i = 0; i < 2; i++) {
            map_fetch(&pair[i], 64 * k, k, k, 0);
            map_own_write(&pair[i], 64 * k, k < 2 ? 2 - k : 0);
        }
    CHECK(memcmp(&d->maps[0], &d->maps[1], sizeof(doorclover_map)) == 0);
    map_end(&pair[0], 64, 2019);
    map_fetch(&pair[1], 0, 4096, 2077, 2019);
    map_end(&pair[1], 1, 4096);
}

static uint64_t seed;

/* A number below a limit. */
static size_t made(size_t limit)
{
    seed = seed * 6364136223846793005u + 1442695040888963407u;
    return (size_t)((seed >> 33) % limit);
}

/* Are the runs of the map the records of the command? */
static int runs_are_records(const map_desk *m, const desk *d, size_t command)
{
    size_t index = 0, from = run_start(m, 0);
    for (; from < DOORCLOVER_MAP_ADDRESSES; from = run_start(m, from)) {
        doorclover_shown r = doorclover_show(state_of(d), command, index++);
        if (r.status != DOORCLOVER_OK || r.start != from || r.length != run_end(m, from) - from)
            return 0;
        from = run_end(m, from);
    }
    return doorclover_show(state_of(d), command, index).status == DOORCLOVER_NO_SUCH_RECORD;
}

/*
 * The calls of a map and of a command, with the same numbers and equal windows. Each returns the status.
 * Replies are compared without the records that a fetch looks at, which a map has none of.
 */
static doorclover_status made_begin(const map_desk *m, const desk *d, size_t command)
{
    doorclover_status status = doorclover_map_begin(open_of(m), bits_of(m), m->values->bytes).status;
    CHECK(status == doorclover_begin(state_of(d), d->store->bytes, d->store->size, command).status);
    return status;
}

static doorclover_status made_end(const map_desk *m, const desk *d, size_t command)
{
    doorclover_ended r = doorclover_map_end(open_of(m), bits_of(m), m->values->bytes);
    doorclover_ended s = doorclover_end(state_of(d), d->store->bytes, d->store->size, command);
    CHECK(r.status == s.status && r.records == s.records && r.bytes == s.bytes);
    return r.status;
}

static doorclover_status made_fetch(const map_desk *m, const desk *d, size_t command, size_t address,
                                    size_t length)
{
    size_t room = made(40) == 0 ? made(4) : m->destination->size;
    doorclover_fetched r = doorclover_map_fetch(open_of(m), bits_of(m), m->values->bytes,
                                                m->window->bytes, m->window->size,
                                                m->destination->bytes, room, address, length);
    doorclover_fetched s = doorclover_fetch(state_of(d), d->store->bytes, d->store->size,
                                            d->window->bytes, d->window->size,
                                            d->destination->bytes, room, command, address, length);
    CHECK(r.status == s.status && r.fresh == s.fresh && r.replayed == s.replayed);
    CHECK(r.looked_at == 0);
    return r.status;
}

static doorclover_status made_own(const map_desk *m, const desk *d, size_t command, size_t address,
                                  size_t length)
{
    for (size_t i = 0; i < length; i++)
        m->bytes->bytes[i] = (uint8_t)made(256);
    doorclover_written r = doorclover_map_own_write(open_of(m), bits_of(m), m->values->bytes,
                                                    m->window->bytes, m->window->size, address,
                                                    m->bytes->bytes, length);
    doorclover_written s = doorclover_own_write(state_of(d), d->store->bytes, d->store->size,
                                                d->window->bytes, d->window->size, command, address,
                                                m->bytes->bytes, length);
    CHECK(r.status == s.status && r.bytes == s.bytes && r.fresh == s.fresh);
    return r.status;
}

/* One of them; most are fetches and own writes. */
static doorclover_status made_call(const map_desk *m, const desk *d, size_t command)
{
    size_t kind = made(200);
    if (kind < 9)
        return made_begin(m, d, command);
    if (kind == 9)
        return made_end(m, d, command);
    size_t address = made(30) == 0 ? SIZE_MAX - made(9) : made(4097);
    size_t length = made(60) == 0 ? 4090 + made(9) : made(8) == 0 ? made(150) : made(4);
    return kind % 3 == 0 ? made_own(m, d, command, address, length)
                         : made_fetch(m, d, command, address, length);
}

/* What a fetch has delivered and a write has written is the same, and so is what is held. */
static void check_alike(const map_desk *m, const desk *d, size_t command)
{
    CHECK(memcmp(m->destination->bytes, d->destination->bytes, m->destination->size) == 0);
    CHECK(memcmp(m->window->bytes, d->window->bytes, DOORCLOVER_MAP_ADDRESSES) == 0);
    CHECK(*open_of(m) == 0 || runs_are_records(m, d, command));
}

/* From fresh, a map and each command get the same replies and the same bytes. */
void test_map_as_a_command(void)
{
    static const doorclover_status wanted[] = {0, 4, 9, 10, 21, 22, 24};
    desk d = fresh_desk();
    map_desk m = fresh_map_desk();
    lent windows[2] = {*m.window, *d.window};
    m.window = &windows[0];
    d.window = &windows[1];
    m.bytes = lend(DOORCLOVER_TRANSFER + 2, 0);
    for (size_t command = 0; command < DOORCLOVER_COMMANDS; command++) {
        unsigned long seen[32] = {0};
        seed = command;
        for (size_t n = 0; n < 1000; n++) {
            size_t changed = made(4096);
            windows[0].size = windows[1].size = made(3) == 0 ? made(4097) : 4096;
            windows[0].bytes[changed] ^= (uint8_t)(1 + made(255));
            windows[1].bytes[changed] = windows[0].bytes[changed];
            seen[made_call(&m, &d, command)]++;
            check_alike(&m, &d, command);
        }
        for (size_t i = 0; i < sizeof wanted / sizeof wanted[0]; i++)
            CHECK(seen[wanted[i]] > 0);
        if (*open_of(&m) != 0)
            CHECK(made_end(&m, &d, command) == DOORCLOVER_OK);
    }
}
