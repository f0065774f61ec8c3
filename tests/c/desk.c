#include "desk.h"

#include <stdio.h>
#include <string.h>

unsigned long checks, failures;

void check(int good, const char *what, const char *file, int line)
{
    checks++;
    if (good)
        return;
    failures++;
    printf("  %s:%d: not so: %s\n", file, line, what);
}

/* The refusals that were seen, of each call. */
enum { CALLS = 13, NUMBERS = 33 };
static const char *const names[CALLS] = {"begin",     "fetch",     "end",     "host write",
                                         "own write", "show",      "read",    "write",
                                         "map begin", "map fetch", "map end", "map own write",
                                         "walk"};
static int seen[CALLS][NUMBERS];

static int *seen_of(const char *call)
{
    for (size_t i = 0; i < CALLS; i++)
        if (strcmp(names[i], call) == 0)
            return seen[i];
    return NULL;
}

int seen_just(const char *call, const doorclover_status *numbers)
{
    const int *have = seen_of(call);
    int want[NUMBERS] = {0};
    while (*numbers != 0)
        want[*numbers++] = 1;
    for (size_t i = 0; i < NUMBERS; i++)
        if (have[i] != want[i])
            return 0;
    return 1;
}

void turned_away(const char *call, doorclover_status want, doorclover_status status, size_t others)
{
    checks++;
    if (status > 0 && status < NUMBERS)
        seen_of(call)[status] = 1;
    if (status == want && others == 0 && all_kept())
        return;
    failures++;
    printf("  %s: status %u wanted, %u given, other members %s 0, memory %s\n", call,
           (unsigned)want, (unsigned)status, others == 0 ? "are" : "are not",
           all_kept() ? "kept" : "changed");
}

uint8_t host_byte(size_t address)
{
    return (uint8_t)(address * 7 + address / 256 + 1);
}

desk fresh_desk(void)
{
    desk d = {lend(sizeof(doorclover_state), 0xff), lend(DOORCLOVER_STORE, 0x5a), lend(16384, 0),
              lend(DOORCLOVER_TRANSFER, 0xee), lend(0, 0), lend(8192, 0xdd),
              lend(DOORCLOVER_WALK_SCRATCH, 0), lend(DOORCLOVER_WALK_SPANS * sizeof(uint64_t), 0),
              lend(DOORCLOVER_WALK_SPANS * sizeof(uint32_t), 0)};
    for (size_t i = 0; i < d.window->size; i++)
        d.window->bytes[i] = host_byte(i);
    doorclover_fresh(state_of(&d));
    return d;
}

lent *lend_bytes(const void *bytes, size_t size)
{
    lent *l = lend(size, 0);
    if (size > 0)
        memcpy(l->bytes, bytes, size);
    return l;
}

doorclover_state *state_of(const desk *d)
{
    return (doorclover_state *)(void *)d->state->bytes;
}

uint16_t *words_of(const desk *d, size_t command)
{
    return state_of(d)->words + DOORCLOVER_COMMAND_WORDS * command;
}

void break_words(const desk *d)
{
    words_of(d, 7)[128] = 1;
}

void mend_words(const desk *d)
{
    words_of(d, 7)[128] = 0;
}

const size_t too_high[TOO_HIGH] = {8, 9, 129, 65536, (size_t)1 << 32, SIZE_MAX};

/* The words and the part of the store of a command may change. */
static void allow_command(const desk *d, size_t command)
{
    size_t size = DOORCLOVER_COMMAND_WORDS * sizeof(uint16_t);
    allow(d->state, size * command, size);
    allow(d->store, DOORCLOVER_HELD * command, DOORCLOVER_HELD);
}

static int part_is_zero(const desk *d, size_t command)
{
    for (size_t i = 0; i < DOORCLOVER_HELD; i++)
        if (d->store->bytes[DOORCLOVER_HELD * command + i] != 0)
            return 0;
    return 1;
}

/* Are the words of a command its first one, and then zeros? */
static int holds_nothing(const desk *d, size_t command, uint16_t first)
{
    const uint16_t *words = words_of(d, command);
    for (size_t i = 1; i < DOORCLOVER_COMMAND_WORDS; i++)
        if (words[i] != 0)
            return 0;
    return words[0] == first;
}

static doorclover_begun call_begin(const desk *d, size_t command)
{
    keep_all();
    return doorclover_begin(state_of(d), d->store->bytes, d->store->size, command);
}

void begin_refused(const desk *d, doorclover_status want, size_t command)
{
    turned_away("begin", want, call_begin(d, command).status, 0);
}

void begin(const desk *d, size_t command)
{
    CHECK(call_begin(d, command).status == DOORCLOVER_OK);
    allow_command(d, command);
    CHECK(all_kept());
    CHECK(part_is_zero(d, command));
    CHECK(holds_nothing(d, command, 1));
}

static doorclover_ended call_end(const desk *d, size_t command)
{
    keep_all();
    return doorclover_end(state_of(d), d->store->bytes, d->store->size, command);
}

void end_refused(const desk *d, doorclover_status want, size_t command)
{
    doorclover_ended r = call_end(d, command);
    turned_away("end", want, r.status, r.records | r.bytes);
}

void end(const desk *d, size_t command, size_t records, size_t bytes)
{
    doorclover_ended r = call_end(d, command);
    CHECK(r.status == DOORCLOVER_OK && r.records == records && r.bytes == bytes);
    allow_command(d, command);
    CHECK(all_kept());
    CHECK(part_is_zero(d, command));
    CHECK(holds_nothing(d, command, 0));
}

static doorclover_fetched call_fetch(const desk *d, size_t command, size_t address, size_t length)
{
    keep_all();
    return doorclover_fetch(state_of(d), d->store->bytes, d->store->size, d->window->bytes,
                            d->window->size, d->destination->bytes, d->destination->size, command,
                            address, length);
}

void fetch_refused(const desk *d, doorclover_status want, size_t command, size_t address,
                   size_t length)
{
    doorclover_fetched r = call_fetch(d, command, address, length);
    turned_away("fetch", want, r.status, r.fresh | r.replayed | r.looked_at);
}

/* How many records a fetch looks at: up to the first that starts above its end, that one included. */
static size_t looks_at(const desk *d, size_t command, size_t address, size_t length)
{
    const uint16_t *words = words_of(d, command);
    size_t n = 0;
    for (size_t i = 0; length > 0 && i + 1 < words[0]; i++) {
        n++;
        if (words[1 + 2 * i] > address + length)
            break;
    }
    return n;
}

size_t fetch(const desk *d, size_t command, size_t address, size_t length, size_t fresh,
             size_t replayed)
{
    size_t looked_at = looks_at(d, command, address, length);
    doorclover_fetched r = call_fetch(d, command, address, length);
    CHECK(r.status == DOORCLOVER_OK && r.fresh == fresh && r.replayed == replayed);
    CHECK(r.looked_at == looked_at);
    if (length > 0)
        allow_command(d, command);
    allow(d->destination, 0, length);
    CHECK(all_kept());
    return r.looked_at;
}

static doorclover_written call_host(const desk *d, size_t address)
{
    keep_all();
    return doorclover_host_write(d->window->bytes, d->window->size, address, d->bytes->bytes,
                                 d->bytes->size);
}

void host_refused(const desk *d, doorclover_status want, size_t address)
{
    doorclover_written r = call_host(d, address);
    turned_away("host write", want, r.status, r.bytes | r.fresh);
}

/* The reply is the one wanted, the bytes are in the window, and nothing else has changed. */
static void written(const desk *d, doorclover_written r, size_t address, size_t fresh)
{
    size_t size = d->bytes->size;
    CHECK(r.status == DOORCLOVER_OK && r.bytes == size && r.fresh == fresh);
    CHECK(size == 0 || memcmp(d->window->bytes + address, d->bytes->bytes, size) == 0);
    allow(d->window, address, size);
    CHECK(all_kept());
}

void host_write(const desk *d, size_t address)
{
    written(d, call_host(d, address), address, 0);
}

/* The value of each address that a command holds, by its records and its part of the store, or else -1. */
typedef int16_t holding[DOORCLOVER_WINDOW];

static void look(const desk *d, size_t command, holding held)
{
    const uint16_t *words = words_of(d, command);
    const uint8_t *part = d->store->bytes + DOORCLOVER_HELD * command;
    memset(held, 0xff, sizeof(holding));
    for (size_t i = 0; i + 1 < words[0]; i++)
        for (size_t k = 0; k < words[2 + 2 * i]; k++)
            held[words[1 + 2 * i] + k] = *part++;
}

static doorclover_written call_own(const desk *d, size_t command, size_t address)
{
    keep_all();
    return doorclover_own_write(state_of(d), d->store->bytes, d->store->size, d->window->bytes,
                                d->window->size, command, address, d->bytes->bytes,
                                d->bytes->size);
}

void own_refused(const desk *d, doorclover_status want, size_t command, size_t address)
{
    doorclover_written r = call_own(d, command, address);
    turned_away("own write", want, r.status, r.bytes | r.fresh);
}

/* The command holds the bytes, and all else that it held before. */
void own_write(const desk *d, size_t command, size_t address, size_t fresh)
{
    static holding want, have;
    look(d, command, want);
    for (size_t i = 0; i < d->bytes->size; i++)
        want[address + i] = d->bytes->bytes[i];
    doorclover_written r = call_own(d, command, address);
    look(d, command, have);
    CHECK(memcmp(have, want, sizeof have) == 0);
    if (d->bytes->size > 0)
        allow_command(d, command);
    written(d, r, address, fresh);
}

/* Bytes that a walk does not put there itself, so that a change is seen. */
static void dirty(const lent *l)
{
    if (l->size > 0)
        memset(l->bytes, 0xcc, l->size);
}

static int is_zero(const lent *l)
{
    for (size_t i = 0; i < l->size; i++)
        if (l->bytes[i] != 0)
            return 0;
    return 1;
}

static doorclover_walked call_walk(const desk *d, const walking *w)
{
    dirty(d->scratch);
    dirty(d->addresses);
    dirty(d->lengths);
    keep_all();
    return doorclover_walk(state_of(d), d->store->bytes, d->store->size, d->window->bytes,
                           d->window->size, d->scratch->bytes, d->scratch->size,
                           (uint64_t *)(void *)d->addresses->bytes,
                           d->addresses->size / sizeof(uint64_t),
                           (uint32_t *)(void *)d->lengths->bytes, d->lengths->size / sizeof(uint32_t),
                           w->command, w->prp1, w->prp2, w->transfer);
}

void walk_refused(const desk *d, doorclover_status want, const walking *w)
{
    doorclover_walked r = call_walk(d, w);
    turned_away("walk", want, r.status, r.spans | r.looked_at);
}

/*
 * Makes a walk. It leaves what its first fetches would, made one by one, and zeros in its scratch; if it is
 * done it has looked at as many records.
 */
static doorclover_walked walk_as_fetches(const desk *d, const walking *w, size_t count)
{
    static doorclover_state state;
    static uint8_t store[DOORCLOVER_STORE], entries[DOORCLOVER_WALK_SCRATCH];
    size_t looked_at = 0;
    state = *state_of(d);
    memcpy(store, d->store->bytes, sizeof store);
    for (size_t i = 0; i < count; i++) {
        doorclover_fetched f = doorclover_fetch(&state, store, sizeof store, d->window->bytes,
                                                d->window->size, entries, sizeof entries, w->command,
                                                w->lists[i].address, w->lists[i].length);
        CHECK(f.status == DOORCLOVER_OK);
        looked_at += f.looked_at;
    }
    doorclover_walked r = call_walk(d, w);
    CHECK(r.status != DOORCLOVER_OK || r.looked_at == looked_at);
    CHECK(memcmp(d->state->bytes, &state, sizeof state) == 0);
    CHECK(memcmp(d->store->bytes, store, sizeof store) == 0);
    CHECK(is_zero(d->scratch));
    allow_command(d, w->command);
    allow(d->scratch, 0, d->scratch->size);
    return r;
}

void walk_stopped(const desk *d, doorclover_status want, const walking *w, size_t accepted)
{
    doorclover_walked r = walk_as_fetches(d, w, accepted);
    turned_away("walk", want, r.status, r.spans | r.looked_at);
}

/* Each byte of the transfer counts in its page. */
static int lengths_are(const desk *d, const walking *w)
{
    uint32_t lengths[DOORCLOVER_WALK_SPANS] = {0};
    for (size_t i = 0; i < w->transfer; i++)
        lengths[(w->prp1 % DOORCLOVER_PAGE + i) / DOORCLOVER_PAGE]++;
    return memcmp(d->lengths->bytes, lengths, w->spans * sizeof lengths[0]) == 0;
}

size_t walk(const desk *d, const walking *w)
{
    doorclover_walked r = walk_as_fetches(d, w, 2);
    CHECK(r.status == DOORCLOVER_OK && r.spans == w->spans);
    CHECK(memcmp(d->addresses->bytes, w->pages, w->spans * sizeof w->pages[0]) == 0);
    CHECK(lengths_are(d, w));
    allow(d->addresses, 0, w->spans * sizeof(uint64_t));
    allow(d->lengths, 0, w->spans * sizeof(uint32_t));
    CHECK(all_kept());
    return r.looked_at;
}

void show_refused(const desk *d, doorclover_status want, size_t command, size_t index)
{
    keep_all();
    doorclover_shown r = doorclover_show(state_of(d), command, index);
    turned_away("show", want, r.status, (size_t)r.start | r.length);
}

void show(const desk *d, size_t command, size_t index, size_t start, size_t length)
{
    keep_all();
    doorclover_shown r = doorclover_show(state_of(d), command, index);
    CHECK(r.status == DOORCLOVER_OK && r.start == start && r.length == length);
    CHECK(all_kept());
}

void read_refused(const desk *d, doorclover_status want)
{
    keep_all();
    doorclover_step r = doorclover_frame_read(d->bytes->bytes, d->bytes->size);
    turned_away("read", want, r.status, r.kind | r.command | r.address | r.length | r.taken);
}

void write_refused(const desk *d, doorclover_status want, size_t kind, size_t command,
                   size_t address, size_t length)
{
    keep_all();
    doorclover_framed r =
        doorclover_frame_write(d->output->bytes, d->output->size, kind, command, address, length,
                               d->bytes->bytes, d->bytes->size);
    turned_away("write", want, r.status, r.length);
}
