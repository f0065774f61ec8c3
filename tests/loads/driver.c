/*
 * Makes calls of the library and writes down what each has to do to memory, for count.c to hold against the trace.
 *
 * What it prints, one line each:
 *   room NAME START SIZE    where a buffer stands: what is lent of it, with EDGE bytes before and behind
 *   marker START            this word is stored to before a call and behind it, and at no other time
 *   call TEXT               a call, in the order of the trace; a text that begins with '-' is a row of the table only if it fails
 *     part C                the command whose part of the store it may touch
 *     map                   it is a call of the byte map: it may touch the values and no part of the store
 *     none                  from here on this command holds nothing
 *     load A N              the window's bytes that it loads, each of them once; the command holds them from here on
 *     deliver A N           it loads the places of the store, or of the values, that have these bytes, and stores to the front of
 *                           the destination
 *     write A N             the window's bytes that it stores, each of them once
 *     hold A N              the command holds these bytes from here on, which it was given: it stores their places of the store, or
 *                           of the values
 *     entries A N           these bytes are page entries: it loads the places of the store that have them
 *     scratch N             it stores all N bytes of the scratch, which it may load too
 *     spans N               it stores the first N places of the addresses and of the lengths
 *     reply OK FRESH REPLAYED STATUS    what it replied, or, of a walk, how many bytes of its entries are to be fresh and replayed; OK
 *                                       is 1 if reply, delivered bytes and spans are those of the model
 */
#include <stdbool.h>
#include <stdint.h>
#include <stdio.h>
#include <string.h>

#include "doorclover.h"

#define EDGE 64
#define DESTINATION 4200
#define SCRATCH 200
#define PLACES 20
#define PAGE ((size_t)DOORCLOVER_PAGE)
#define ENTRY sizeof(uint64_t)

static _Alignas(64) uint8_t window_room[EDGE + DOORCLOVER_WINDOW + EDGE];
static _Alignas(64) uint8_t store_room[EDGE + DOORCLOVER_STORE + EDGE];
static _Alignas(64) uint8_t values_room[EDGE + DOORCLOVER_MAP_ADDRESSES + EDGE];
static _Alignas(64) uint8_t destination_room[EDGE + DESTINATION + EDGE];
static _Alignas(64) uint8_t scratch_room[EDGE + SCRATCH + EDGE];
static _Alignas(64) uint64_t addresses_room[EDGE / sizeof(uint64_t) + PLACES + EDGE / sizeof(uint64_t)];
static _Alignas(64) uint32_t lengths_room[EDGE / sizeof(uint32_t) + PLACES + EDGE / sizeof(uint32_t)];
static uint8_t *const window = window_room + EDGE;
static uint8_t *const store = store_room + EDGE;
static uint8_t *const values = values_room + EDGE;
static uint8_t *const destination = destination_room + EDGE;
static uint8_t *const scratch = scratch_room + EDGE;
static uint64_t *const addresses = addresses_room + EDGE / sizeof(uint64_t);
static uint32_t *const lengths = lengths_room + EDGE / sizeof(uint32_t);
static volatile uint32_t marker;

/* What the next calls are lent. */
static doorclover_state whole, broken;
static doorclover_state *state = &whole;
static size_t store_size = DOORCLOVER_STORE;
static size_t window_size = DOORCLOVER_WINDOW;
static size_t destination_size = DESTINATION;
static size_t scratch_size = SCRATCH;
static size_t places = PLACES;
static uint8_t given[DOORCLOVER_TRANSFER + 1];

/* The byte map, whose values stand in a room of their own, and what its next calls are lent. */
static uint64_t map_open, map_words[DOORCLOVER_MAP_WORDS];
static size_t map_window_size = DOORCLOVER_MAP_ADDRESSES;

/*
 * The model: in which turn of a command a byte was fetched or written by it, what it wrote there last in this turn or else what the
 * first fetch met, and how many such bytes there are; and its records, in no order. The byte map's command stands behind the others.
 */
enum { MAP = DOORCLOVER_COMMANDS, COMMANDS };
static uint32_t turn[COMMANDS];
static size_t bytes[COMMANDS];
static uint32_t held_in[COMMANDS][DOORCLOVER_WINDOW];
static uint8_t value[COMMANDS][DOORCLOVER_WINDOW];
static struct record {
    size_t start, end;
} records[COMMANDS][DOORCLOVER_RECORDS];
static size_t record_count[COMMANDS];

/* The span and the records that share a byte with it or touch it become one. */
static void join(size_t command, size_t start, size_t end) {
    size_t kept = 0;
    if (start == end) return;
    for (size_t i = 0; i < record_count[command]; i++) {
        struct record r = records[command][i];
        if (r.start > end || r.end < start) {
            records[command][kept++] = r;
        } else {
            if (r.start < start) start = r.start;
            if (r.end > end) end = r.end;
        }
    }
    records[command][kept] = (struct record){start, end};
    record_count[command] = kept + 1;
}

/* How many records a fetch looks at: those that start at its end or below, and one more if there is one. */
static size_t looks_at(size_t command, size_t address, size_t length) {
    size_t passed = 0;
    if (length == 0) return 0;
    for (size_t i = 0; i < record_count[command]; i++) passed += records[command][i].start <= address + length;
    return passed < record_count[command] ? passed + 1 : passed;
}

/* Has the command hold the span, says which of its bytes are to be loaded, and returns their number. */
static size_t hold(size_t command, size_t address, size_t length) {
    size_t fresh = 0, run = 0;
    for (size_t i = address; i < address + length; i++) {
        bool held = held_in[command][i] == turn[command];
        if (!held) {
            held_in[command][i] = turn[command];
            value[command][i] = window[i];
            run++;
        }
        if (run > 0 && (held || i + 1 == address + length)) {
            printf("load %zu %zu\n", held ? i - run : i + 1 - run, run);
            fresh += run;
            run = 0;
        }
    }
    bytes[command] += fresh;
    join(command, address, address + length);
    return fresh;
}

/* Has the command hold the given bytes, and returns how many of their addresses it had not held. */
static size_t hold_given(size_t command, size_t address, size_t size) {
    size_t fresh = 0;
    printf("hold %zu %zu\n", address, size);
    for (size_t i = 0; i < size; i++) {
        fresh += held_in[command][address + i] != turn[command];
        held_in[command][address + i] = turn[command];
        value[command][address + i] = given[i];
    }
    bytes[command] += fresh;
    join(command, address, address + size);
    return fresh;
}

static bool delivered(size_t command, size_t address, size_t length) {
    for (size_t i = 0; i < length; i++)
        if (destination[i] != value[command][address + i]) return false;
    return true;
}

static void reply(bool ok, size_t fresh, size_t replayed, uint32_t status) {
    printf("reply %d %zu %zu %u\n", ok, fresh, replayed, status);
}

static void begin(const char *text, size_t command) {
    printf("call %s\npart %zu\nnone\n", text, command);
    turn[command]++;
    bytes[command] = 0;
    record_count[command] = 0;
    marker = 1;
    doorclover_begun r = doorclover_begin(state, store, store_size, command);
    marker = 0;
    reply(r.status == 0, 0, 0, r.status);
}

static void end(const char *text, size_t command) {
    printf("call %s\npart %zu\nnone\n", text, command);
    marker = 1;
    doorclover_ended r = doorclover_end(state, store, store_size, command);
    marker = 0;
    reply(r.status == 0 && r.bytes == bytes[command], 0, 0, r.status);
}

static doorclover_fetched call_fetch(size_t command, size_t address, size_t length) {
    marker = 1;
    doorclover_fetched r = doorclover_fetch(
        state, store, store_size, window, window_size, destination, destination_size, command, address, length);
    marker = 0;
    return r;
}

static void fetch(const char *text, size_t command, size_t address, size_t length) {
    printf("call %s\npart %zu\n", text, command);
    size_t looked_at = looks_at(command, address, length), fresh = hold(command, address, length);
    printf("deliver %zu %zu\n", address, length);
    for (size_t i = 0; i < length; i++) destination[i] = (uint8_t)~value[command][address + i];
    doorclover_fetched r = call_fetch(command, address, length);
    bool counts = r.status == 0 && r.fresh == fresh && r.replayed == length - fresh && r.looked_at == looked_at;
    reply(counts && delivered(command, address, length), r.fresh, r.replayed, r.status);
}

static void refused_fetch(const char *text, uint32_t status, size_t command, size_t address, size_t length) {
    printf("call %s\n", text);
    doorclover_fetched r = call_fetch(command, address, length);
    reply(r.status == status && r.fresh == 0 && r.replayed == 0 && r.looked_at == 0, r.fresh, r.replayed, r.status);
}

/* A page entry, least byte first. */
static uint64_t entry_in(const uint8_t *from) {
    uint64_t entry = 0;
    for (size_t i = 0; i < ENTRY; i++) entry |= (uint64_t)from[i] << 8 * i;
    return entry;
}

static void put_entry(size_t address, uint64_t entry) {
    for (size_t i = 0; i < ENTRY; i++) window[address + i] = (uint8_t)(entry >> 8 * i);
}

/* The host has entries of pages in its window. */
static void put_entries(size_t address, size_t count) {
    for (size_t i = 0; i < count; i++) put_entry(address + ENTRY * i, (1000003 * (address + i) + 7) * PAGE);
}

/* A walk as it is asked for, and what the model makes of it. */
struct walk {
    size_t command;
    uint64_t prp1, prp2;
    size_t transfer;
    size_t spans, fresh, listed, looked_at;
    uint64_t pages[DOORCLOVER_WALK_SPANS];
};

/* Has the command hold the entries of a list, which are pages of the walk from a span on. */
static void hold_entries(struct walk *w, size_t address, size_t count, size_t span) {
    w->looked_at += looks_at(w->command, address, ENTRY * count);
    w->fresh += hold(w->command, address, ENTRY * count);
    w->listed += ENTRY * count;
    printf("entries %zu %zu\n", address, ENTRY * count);
    for (size_t i = 0; i < count; i++) w->pages[span + i] = entry_in(value[w->command] + address + ENTRY * i);
}

/* So many of the walk's lists are fetched. The last entry of the first one, if there is a second, is where that starts. */
static void hold_lists(struct walk *w, size_t lists) {
    size_t needed = (w->prp1 % PAGE + w->transfer - 1) / PAGE, fit = (PAGE - w->prp2 % PAGE) / ENTRY;
    w->spans = 1 + needed;
    w->pages[0] = w->prp1;
    w->pages[1] = w->prp2;
    if (needed > 1 && lists > 0) hold_entries(w, w->prp2, needed < fit ? needed : fit, 1);
    if (needed > fit && lists > 1) hold_entries(w, w->pages[fit], needed - fit + 1, fit);
}

static doorclover_walked call_walk(const struct walk *w) {
    marker = 1;
    doorclover_walked r = doorclover_walk(state, store, store_size, window, window_size, scratch, scratch_size, addresses, places,
                                          lengths, places, w->command, w->prp1, w->prp2, w->transfer);
    marker = 0;
    return r;
}

static bool given_spans(const struct walk *w) {
    size_t sum = 0;
    for (size_t i = 0; i < w->spans; i++) sum += lengths[i];
    return sum == w->transfer && memcmp(addresses, w->pages, w->spans * sizeof *addresses) == 0;
}

static void walk(const char *text, struct walk w) {
    printf("call %s\npart %zu\n", text, w.command);
    hold_lists(&w, 2);
    printf("scratch %d\nspans %zu\n", SCRATCH, w.spans);
    doorclover_walked r = call_walk(&w);
    bool counts = r.status == 0 && r.spans == w.spans && r.looked_at == w.looked_at;
    reply(counts && given_spans(&w), w.fresh, w.listed - w.fresh, r.status);
}

/* A walk that is refused from PRP1 on, when so many of its lists are fetched. */
static void stopped_walk(const char *text, uint32_t status, size_t lists, struct walk w) {
    printf("call %s\npart %zu\n", text, w.command);
    hold_lists(&w, lists);
    printf("scratch %d\n", SCRATCH);
    doorclover_walked r = call_walk(&w);
    reply(r.status == status && r.spans == 0 && r.looked_at == 0, w.fresh, w.listed - w.fresh, r.status);
}

static void refused_walk(const char *text, uint32_t status, struct walk w) {
    printf("call %s\n", text);
    doorclover_walked r = call_walk(&w);
    reply(r.status == status && r.spans == 0 && r.looked_at == 0, 0, 0, r.status);
}

/* A walk of so many pages, whose list starts at an address of the window. */
static struct walk by_list(size_t command, size_t list, size_t pages) {
    return (struct walk){.command = command, .prp1 = 5 * PAGE - 4, .prp2 = list, .transfer = 4 + (pages - 2) * PAGE + 1};
}

/* The host has two lists: 16 entries up to the end of a page, and 16 at the front of another. */
static void put_lists(void) {
    put_entries(4 * PAGE - 16 * ENTRY, 16);
    put_entries(8 * PAGE, 16);
}

/* The same, with the last entry of the first one leading onward to the second. */
static void put_onward(void) {
    put_lists();
    put_entry(4 * PAGE - ENTRY, 8 * PAGE);
}

/* The host writes other bytes over both. */
static void hide_lists(void) {
    memset(window + 4 * PAGE - 16 * ENTRY, 0xff, 16 * ENTRY);
    memset(window + 8 * PAGE, 0xff, 16 * ENTRY);
}

static void map_begin(const char *text) {
    printf("call %s\nmap\nnone\n", text);
    turn[MAP]++;
    bytes[MAP] = 0;
    record_count[MAP] = 0;
    marker = 1;
    doorclover_begun r = doorclover_map_begin(&map_open, map_words, values);
    marker = 0;
    reply(r.status == 0, 0, 0, r.status);
}

static void map_end(const char *text) {
    printf("call %s\nmap\nnone\n", text);
    marker = 1;
    doorclover_ended r = doorclover_map_end(&map_open, map_words, values);
    marker = 0;
    reply(r.status == 0 && r.bytes == bytes[MAP], 0, 0, r.status);
}

static doorclover_fetched call_map_fetch(size_t address, size_t length) {
    marker = 1;
    doorclover_fetched r = doorclover_map_fetch(
        &map_open, map_words, values, window, map_window_size, destination, destination_size, address, length);
    marker = 0;
    return r;
}

static void map_fetch(const char *text, size_t address, size_t length) {
    printf("call %s\nmap\n", text);
    size_t fresh = hold(MAP, address, length);
    printf("deliver %zu %zu\n", address, length);
    for (size_t i = 0; i < length; i++) destination[i] = (uint8_t)~value[MAP][address + i];
    doorclover_fetched r = call_map_fetch(address, length);
    bool counts = r.status == 0 && r.fresh == fresh && r.replayed == length - fresh && r.looked_at == 0;
    reply(counts && delivered(MAP, address, length), r.fresh, r.replayed, r.status);
}

static void refused_map_fetch(const char *text, uint32_t status, size_t address, size_t length) {
    printf("call %s\nmap\n", text);
    doorclover_fetched r = call_map_fetch(address, length);
    reply(r.status == status && r.fresh == 0 && r.replayed == 0 && r.looked_at == 0, r.fresh, r.replayed, r.status);
}

/* What the next write is given: other bytes than the one before it. */
static void change_given(void) {
    static uint8_t step;
    step++;
    for (size_t i = 0; i < sizeof given; i++) given[i] = (uint8_t)(7 * i + 11 * step);
}

/* A write by the host. It is refused if a status is given. */
static void host_write(const char *text, uint32_t status, size_t address, size_t size) {
    printf("call %s\n", text);
    change_given();
    if (status == 0) printf("write %zu %zu\n", address, size);
    marker = 1;
    doorclover_written r = doorclover_host_write(window, window_size, address, given, size);
    marker = 0;
    reply(r.status == status && r.bytes == (status == 0 ? size : 0) && r.fresh == 0, r.fresh, 0, r.status);
}

static doorclover_written call_own_write(size_t command, size_t address, size_t size) {
    marker = 1;
    doorclover_written r =
        doorclover_own_write(state, store, store_size, window, window_size, command, address, given, size);
    marker = 0;
    return r;
}

static void own_write(const char *text, size_t command, size_t address, size_t size) {
    printf("call %s\npart %zu\nwrite %zu %zu\n", text, command, address, size);
    change_given();
    size_t fresh = hold_given(command, address, size);
    doorclover_written r = call_own_write(command, address, size);
    reply(r.status == 0 && r.bytes == size && r.fresh == fresh, r.fresh, 0, r.status);
}

static void refused_own_write(const char *text, uint32_t status, size_t command, size_t address, size_t size) {
    printf("call %s\n", text);
    doorclover_written r = call_own_write(command, address, size);
    reply(r.status == status && r.bytes == 0 && r.fresh == 0, r.fresh, 0, r.status);
}

static doorclover_written call_map_own_write(size_t address, size_t size) {
    marker = 1;
    doorclover_written r =
        doorclover_map_own_write(&map_open, map_words, values, window, map_window_size, address, given, size);
    marker = 0;
    return r;
}

static void map_own_write(const char *text, size_t address, size_t size) {
    printf("call %s\nmap\nwrite %zu %zu\n", text, address, size);
    change_given();
    size_t fresh = hold_given(MAP, address, size);
    doorclover_written r = call_map_own_write(address, size);
    reply(r.status == 0 && r.bytes == size && r.fresh == fresh, r.fresh, 0, r.status);
}

static void refused_map_own_write(const char *text, uint32_t status, size_t address, size_t size) {
    printf("call %s\nmap\n", text);
    doorclover_written r = call_map_own_write(address, size);
    reply(r.status == status && r.bytes == 0 && r.fresh == 0, r.fresh, 0, r.status);
}

/* The window gets other bytes everywhere, as between two calls it may. */
static void change_window(uint64_t seed) {
    for (size_t i = 0; i < DOORCLOVER_WINDOW; i += sizeof seed) {
        seed = seed * 6364136223846793005u + 1442695040888963407u;
        memcpy(window + i, &seed, sizeof seed);
    }
}

static void of_every_length(void) {
    begin("begin 3", 3);
    fetch("fetch 3 1001+1", 3, 1001, 1);
    fetch("fetch 3 2003+3", 3, 2003, 3);
    fetch("fetch 3 3005+16", 3, 3005, 16);
    fetch("fetch 3 4007+17", 3, 4007, 17);
    fetch("fetch 3 5009+64", 3, 5009, 64);
    fetch("fetch 3 6011+100", 3, 6011, 100);
    begin("begin 5", 5);
    fetch("fetch 5 16385+4096", 5, 16385, 4096);
    change_window(2);
    fetch("fetch 3 1001+1 again", 3, 1001, 1);
    fetch("fetch 3 2003+3 again", 3, 2003, 3);
    fetch("fetch 3 3005+16 again", 3, 3005, 16);
    fetch("fetch 3 4007+17 again", 3, 4007, 17);
    fetch("fetch 3 5009+64 again", 3, 5009, 64);
    fetch("fetch 3 6011+100 again", 3, 6011, 100);
    fetch("fetch 5 16385+4096 again", 5, 16385, 4096);
}

static void overlapping(void) {
    fetch("fetch 3 3001+8, end held", 3, 3001, 8);
    fetch("fetch 3 3017+8, front held", 3, 3017, 8);
    fetch("fetch 3 4001+33, middle held", 3, 4001, 33);
    begin("begin 1", 1);
    fetch("-fetch 1 101+5", 1, 101, 5);
    fetch("-fetch 1 111+7", 1, 111, 7);
    fetch("-fetch 1 131+1", 1, 131, 1);
    fetch("-fetch 1 140+20", 1, 140, 20);
    fetch("-fetch 1 301+50", 1, 301, 50);
    change_window(3);
    fetch("fetch 1 95+80, over 4 records", 1, 95, 80);
    begin("begin 2", 2);
    fetch("-fetch 2 201+9", 2, 201, 9);
    fetch("-fetch 2 221+9", 2, 221, 9);
    fetch("-fetch 2 241+9", 2, 241, 9);
    change_window(4);
    fetch("fetch 2 205+40, from record to record", 2, 205, 40);
    fetch("fetch 2 207+30, inside a record", 2, 207, 30);
    fetch("fetch 2 250+3, touching a record below", 2, 250, 3);
    fetch("fetch 2 247+6, inside a record", 2, 247, 6);
    fetch("fetch 2 198+3, touching a record above", 2, 198, 3);
    fetch("fetch 2 260+9, touching none", 2, 260, 9);
    change_window(5);
    fetch("fetch 2 253+7, touching 2 records", 2, 253, 7);
    fetch("fetch 2 262+8, front held", 2, 262, 8);
    fetch("fetch 2 270+0, touching a record", 2, 270, 0);
    fetch("fetch 2 0+1, the first byte", 2, 0, 1);
    fetch("fetch 2 65519+17, up to the last", 2, 65519, 17);
    fetch("fetch 2 300+0", 2, 300, 0);
    fetch("fetch 2 65536+0", 2, 65536, 0);
}

/* Of every second byte a record, until there is room for no more; then all of them and the gaps at once. */
static void many_records(void) {
    begin("begin 4", 4);
    for (size_t i = 0; i < DOORCLOVER_RECORDS; i++) fetch("-fetch 4, a single byte", 4, 2 * i + 1, 1);
    refused_fetch("fetch 4 129+1, too many records", 24, 4, 129, 1);
    change_window(6);
    put_onward();
    stopped_walk("walk 4, too many records", 24, 0, by_list(4, 4 * PAGE - 5 * ENTRY, 17));
    fetch("fetch 4 128+1, touching the last of 64", 4, 128, 1);
    fetch("fetch 4 1+3, over 2 records", 4, 1, 3);
    stopped_walk("walk 4, onward to a record too many", 24, 1, by_list(4, 4 * PAGE - 5 * ENTRY, 17));
    fetch("fetch 4 1+127, over 63 records", 4, 1, 127);
    end("end 4", 4);
}

static void refused(void) {
    refused_fetch("fetch 3 0+4097, too long", 4, 3, 0, 4097);
    refused_fetch("fetch 8 0+1, command too high", 6, 8, 0, 1);
    window_size = DOORCLOVER_WINDOW + 1;
    refused_fetch("fetch 3 0+1, window too long", 7, 3, 0, 1);
    window_size = DOORCLOVER_WINDOW;
    store_size = DOORCLOVER_STORE - 1;
    refused_fetch("fetch 3 0+1, store too short", 8, 3, 0, 1);
    store_size = DOORCLOVER_STORE;
    refused_fetch("fetch 3 65530+7, outside", 9, 3, 65530, 7);
    refused_fetch("fetch 3 2^64-1+2, outside", 9, 3, SIZE_MAX, 2);
    window_size = 1000;
    refused_fetch("fetch 3 1001+1, held and outside", 9, 3, 1001, 1);
    window_size = DOORCLOVER_WINDOW;
    destination_size = 7;
    refused_fetch("fetch 3 0+8, no room for it", 10, 3, 0, 8);
    destination_size = DESTINATION;
    state = &broken;
    refused_fetch("fetch 3 0+8, broken state", 20, 3, 0, 8);
    state = &whole;
    refused_fetch("fetch 6 0+8, not open", 21, 6, 0, 8);
    refused_fetch("fetch 5 16384+2, too many bytes", 23, 5, 16384, 2);
}

static void host_writes(void) {
    host_write("host write 2001+64", 0, 2001, 64);
    host_write("host write 8191+4096", 0, 8191, 4096);
    host_write("host write 100+0", 0, 100, 0);
    host_write("host write 65530+7, outside", 9, 65530, 7);
    host_write("host write 0+4097, too long", 4, 0, 4097);
}

/* Own writes of bytes that are held, that are not, and of both; the fetches behind them load nothing that was written. */
static void own_writes(void) {
    own_write("own write 3 1001+1, held", 3, 1001, 1);
    own_write("own write 3 5015+30, inside a record", 3, 5015, 30);
    own_write("own write 3 5003+99, middle held", 3, 5003, 99);
    own_write("own write 3 7013+1, touching none", 3, 7013, 1);
    own_write("own write 3 7014+16, touching below", 3, 7014, 16);
    own_write("own write 3 7009+4, touching above", 3, 7009, 4);
    own_write("own write 3 6100+30, front held", 3, 6100, 30);
    own_write("own write 3 6000+20, end held", 3, 6000, 20);
    own_write("own write 3 9000+0", 3, 9000, 0);
    own_write("own write 3 65536+0", 3, 65536, 0);
    own_write("own write 5 16385+4096, all held", 5, 16385, 4096);
    change_window(10);
    fetch("fetch 3 1001+1 after the writes", 3, 1001, 1);
    fetch("fetch 3 5003+99 after the writes", 3, 5003, 99);
    fetch("fetch 3 7000+40, middle written", 3, 7000, 40);
    fetch("fetch 3 6000+130 after the writes", 3, 6000, 130);
    fetch("fetch 5 16385+4096 after the writes", 5, 16385, 4096);
    begin("begin 7", 7);
    own_write("own write 7 40961+4096, none held", 7, 40961, 4096);
    change_window(11);
    fetch("fetch 7 40961+4096 after the write", 7, 40961, 4096);
    end("end 7", 7);
}

/* Own writes over many records, and none where there is room for no more. */
static void own_writes_of_many(void) {
    begin("begin 4", 4);
    for (size_t i = 0; i < DOORCLOVER_RECORDS; i++) own_write("-own write 4, a single byte", 4, 2 * i + 1, 1);
    refused_own_write("own write 4 129+1, too many records", 24, 4, 129, 1);
    own_write("own write 4 129+0", 4, 129, 0);
    own_write("own write 4 128+1, touching the last", 4, 128, 1);
    own_write("own write 4 1+3, over 2 records", 4, 1, 3);
    own_write("own write 4 1+127, over 63 records", 4, 1, 127);
    change_window(12);
    fetch("fetch 4 1+128 after the writes", 4, 1, 128);
    end("end 4", 4);
}

static void refused_own_writes(void) {
    refused_own_write("own write 3 0+4097, too long", 4, 3, 0, 4097);
    refused_own_write("own write 8 0+1, command too high", 6, 8, 0, 1);
    window_size = DOORCLOVER_WINDOW + 1;
    refused_own_write("own write 3 0+1, window too long", 7, 3, 0, 1);
    window_size = DOORCLOVER_WINDOW;
    store_size = DOORCLOVER_STORE - 1;
    refused_own_write("own write 3 1001+1, store too short", 8, 3, 1001, 1);
    refused_own_write("own write 3 1001+0, store too short", 8, 3, 1001, 0);
    store_size = DOORCLOVER_STORE;
    refused_own_write("own write 3 65530+7, outside", 9, 3, 65530, 7);
    refused_own_write("own write 3 2^64-1+2, outside", 9, 3, SIZE_MAX, 2);
    state = &broken;
    refused_own_write("own write 3 0+8, broken state", 20, 3, 0, 8);
    state = &whole;
    refused_own_write("own write 6 0+8, not open", 21, 6, 0, 8);
    refused_own_write("own write 5 16384+2, too many bytes", 23, 5, 16384, 2);
}

/* A walk of 17 pages that goes on in the second list when so many entries are fetched, and the same again. */
static void onward(const char *text, size_t fit) {
    begin("begin 6", 6);
    put_onward();
    walk(text, by_list(6, 4 * PAGE - fit * ENTRY, 17));
    hide_lists();
    walk("walk 6 again", by_list(6, 4 * PAGE - fit * ENTRY, 17));
    fetch("fetch 6 of the second list", 6, 8 * PAGE, 12 * ENTRY);
    end("end 6", 6);
}

static void walks(void) {
    begin("begin 6", 6);
    put_onward();
    walk("walk 6, 1 page", (struct walk){.command = 6, .prp1 = PAGE + 4, .prp2 = 1, .transfer = PAGE - 4});
    walk("walk 6, 2 pages", (struct walk){.command = 6, .prp1 = PAGE + 4, .prp2 = 2 * PAGE, .transfer = PAGE});
    walk("walk 6, 3 pages", by_list(6, 8 * PAGE, 3));
    walk("walk 6, 17 pages, front held", by_list(6, 8 * PAGE, 17));
    hide_lists();
    walk("walk 6, 17 pages again", by_list(6, 8 * PAGE, 17));
    put_onward();
    walk("walk 6, onward to a held list", by_list(6, 4 * PAGE - 2 * ENTRY, 17));
    end("end 6", 6);
    onward("walk 6, 17 pages, onward at once", 1);
    onward("walk 6, onward from the second entry", 2);
    onward("walk 6, onward from the last but one", 15);
    begin("begin 6", 6);
    put_lists();
    walk("walk 6, as many as fit", by_list(6, 4 * PAGE - 16 * ENTRY, 17));
    put_entries(DOORCLOVER_WINDOW - 16 * ENTRY, 16);
    walk("walk 6, up to the window's last byte", by_list(6, DOORCLOVER_WINDOW - 16 * ENTRY, 17));
    fetch("fetch 6, the list, the entry before", 6, 4 * PAGE - 17 * ENTRY, 17 * ENTRY);
    end("end 6", 6);
    begin("begin 6", 6);
    put_onward();
    fetch("-fetch 6, part of an entry", 6, 4 * PAGE - 4 * ENTRY + 3, 7);
    fetch("-fetch 6, the end of the onward entry", 6, 4 * PAGE - 3, 3);
    fetch("-fetch 6, inside the second list", 6, 8 * PAGE + 20, 50);
    walk("walk 6, held by parts", by_list(6, 4 * PAGE - 5 * ENTRY, 17));
    end("end 6", 6);
}

/* Walks that are refused before PRP1 is judged: they touch neither the window nor what they are lent. */
static void refused_walks(void) {
    struct walk w = by_list(6, 4 * PAGE - 5 * ENTRY, 17), none = w, higher = w;
    none.transfer = 0;
    higher.command = 8;
    put_onward();
    refused_walk("walk 6, not open", 21, w);
    begin("begin 6", 6);
    refused_walk("walk 6 of no bytes", 31, none);
    scratch_size = DOORCLOVER_WALK_SCRATCH - 1;
    refused_walk("walk 6, scratch too short", 10, w);
    scratch_size = SCRATCH;
    places = DOORCLOVER_WALK_SPANS - 1;
    refused_walk("walk 6, too few places", 10, w);
    places = PLACES;
    refused_walk("walk 8, command too high", 6, higher);
    window_size = DOORCLOVER_WINDOW + 1;
    refused_walk("walk 6, window too long", 7, w);
    window_size = DOORCLOVER_WINDOW;
    store_size = DOORCLOVER_STORE - 1;
    refused_walk("walk 6, store too short", 8, w);
    store_size = DOORCLOVER_STORE;
    state = &broken;
    refused_walk("walk 6, broken state", 20, w);
    state = &whole;
    end("end 6", 6);
}

/* And from PRP1 on: they load the lists that are fetched by then, and a fetch of these loads nothing. */
static void stopped_walks(void) {
    struct walk w = by_list(6, 4 * PAGE - 5 * ENTRY, 17), first = w, list = w, far = w;
    first.prp1++;
    list.prp2++;
    far.prp2 = DOORCLOVER_WINDOW;
    begin("begin 6", 6);
    put_onward();
    stopped_walk("walk 6, wrong PRP1", 32, 0, first);
    stopped_walk("walk 6, wrong PRP2", 32, 0, list);
    stopped_walk("walk 6, list outside", 9, 0, far);
    put_entry(4 * PAGE - 4 * ENTRY, PAGE + 8);
    stopped_walk("walk 6, wrong entry", 32, 1, w);
    put_onward();
    stopped_walk("walk 6, wrong entry held", 32, 1, w);
    end("end 6", 6);
    begin("begin 6", 6);
    put_entry(4 * PAGE - ENTRY, DOORCLOVER_WINDOW);
    stopped_walk("walk 6, onward outside", 9, 1, w);
    fetch("fetch 6 of the list", 6, 4 * PAGE - 5 * ENTRY, 5 * ENTRY);
    end("end 6", 6);
    begin("begin 6", 6);
    put_onward();
    put_entry(8 * PAGE + 11 * ENTRY, PAGE + 8);
    stopped_walk("walk 6, wrong entry behind onward", 32, 2, w);
    fetch("fetch 6 of the second list", 6, 8 * PAGE, 12 * ENTRY);
    end("end 6", 6);
    begin("begin 6", 6);
    put_onward();
    fetch("-fetch 6 0+4056", 6, 0, 4096 - 5 * ENTRY);
    stopped_walk("walk 6, too many bytes", 23, 1, w);
    end("end 6", 6);
}

static void ends(void) {
    end("end 3", 3);
    refused_fetch("fetch 3 1001+1, ended", 21, 3, 1001, 1);
    begin("begin 3 again", 3);
    fetch("fetch 3 1001+17, a new command", 3, 1001, 17);
    end("end 3", 3);
    end("end 5", 5);
    end("end 1", 1);
    end("end 2", 2);
}

/* Spans of every length, within words of the map and over their edges, fresh and then replayed. */
static void of_the_map(void) {
    map_begin("map begin");
    map_fetch("map fetch 1001+1", 1001, 1);
    map_fetch("map fetch 1983+3", 1983, 3);
    map_fetch("map fetch 2005+16", 2005, 16);
    map_fetch("map fetch 2047+17", 2047, 17);
    map_fetch("map fetch 2112+64, a whole word", 2112, 64);
    map_fetch("map fetch 3011+300", 3011, 300);
    map_fetch("map fetch 0+1, the first byte", 0, 1);
    map_fetch("map fetch 4079+17, up to the last", 4079, 17);
    map_fetch("map fetch 500+0", 500, 0);
    map_fetch("map fetch 4096+0", 4096, 0);
    change_window(7);
    map_fetch("map fetch 1001+1 again", 1001, 1);
    map_fetch("map fetch 1983+3 again", 1983, 3);
    map_fetch("map fetch 2005+16 again", 2005, 16);
    map_fetch("map fetch 2047+17 again", 2047, 17);
    map_fetch("map fetch 2112+64 again", 2112, 64);
    map_fetch("map fetch 3011+300 again", 3011, 300);
    map_fetch("map fetch 1975+20, middle held", 1975, 20);
    map_fetch("map fetch 2000+8, end held", 2000, 8);
    map_fetch("map fetch 2020+9, front held", 2020, 9);
    map_fetch("map fetch 2990+400, middle held", 2990, 400);
    map_fetch("map fetch 0+4096, all", 0, 4096);
    change_window(8);
    map_fetch("map fetch 0+4096 again", 0, 4096);
    map_end("map end");
    map_begin("map begin");
    map_fetch("map fetch 0+4096, none held", 0, 4096);
    map_end("map end");
}

/* Held and fresh bytes by turns: runs of some bytes with gaps of some bytes, until there is room for no more; then all at once. */
static void many_runs(const char *text, size_t length, size_t step) {
    size_t last = 70 + (DOORCLOVER_RECORDS - 1) * step;
    map_begin("-map begin");
    for (size_t i = 0; i < DOORCLOVER_RECORDS; i++) map_fetch("-map fetch, a run", 70 + i * step, length);
    refused_map_fetch("-map fetch 4095+1, too many runs", 24, 4095, 1);
    change_window(9 + step);
    map_fetch(text, 70, last + length - 70);
    map_fetch("map fetch, front and end fresh", 60, last + length - 40);
    map_end("-map end");
}

static void refused_by_the_map(void) {
    refused_map_fetch("map fetch 0+1, not open", 21, 0, 1);
    map_begin("map begin");
    map_fetch("map fetch 1001+8", 1001, 8);
    refused_map_fetch("map fetch 0+4097, too long", 4, 0, 4097);
    map_window_size = DOORCLOVER_MAP_ADDRESSES + 1;
    refused_map_fetch("map fetch 0+1, window too long", 30, 0, 1);
    map_window_size = DOORCLOVER_MAP_ADDRESSES;
    refused_map_fetch("map fetch 4090+7, outside", 9, 4090, 7);
    refused_map_fetch("map fetch 2^64-1+2, outside", 9, SIZE_MAX, 2);
    map_window_size = 1000;
    refused_map_fetch("map fetch 1001+1, held and outside", 9, 1001, 1);
    map_window_size = DOORCLOVER_MAP_ADDRESSES;
    destination_size = 7;
    refused_map_fetch("map fetch 0+8, no room for it", 10, 0, 8);
    destination_size = DESTINATION;
    values[500] = 1;
    refused_map_fetch("map fetch 0+8, broken map", 20, 0, 8);
    values[500] = 0;
    map_end("map end");
}

/* The same of the map's own writes. */
static void own_writes_of_the_map(void) {
    map_begin("map begin");
    map_fetch("map fetch 1001+8", 1001, 8);
    map_own_write("map own write 1003+1, held", 1003, 1);
    map_own_write("map own write 1001+8, all held", 1001, 8);
    map_own_write("map own write 995+8, end held", 995, 8);
    map_own_write("map own write 1005+16, front held", 1005, 16);
    map_own_write("map own write 990+100, middle held", 990, 100);
    map_own_write("map own write 2047+17, none held", 2047, 17);
    map_own_write("map own write 2112+64, a whole word", 2112, 64);
    map_own_write("map own write 0+1, the first byte", 0, 1);
    map_own_write("map own write 4079+17, up to the last", 4079, 17);
    map_own_write("map own write 500+0", 500, 0);
    map_own_write("map own write 4096+0", 4096, 0);
    change_window(13);
    map_fetch("map fetch 990+100 after the writes", 990, 100);
    map_fetch("map fetch 2040+200, written in two places", 2040, 200);
    map_own_write("map own write 0+4096, all", 0, 4096);
    change_window(14);
    map_fetch("map fetch 0+4096 after the write", 0, 4096);
    map_end("map end");
}

/* Own writes over many runs, and none where there is room for no more. */
static void own_writes_of_many_runs(const char *text, size_t length, size_t step) {
    size_t last = 70 + (DOORCLOVER_RECORDS - 1) * step;
    map_begin("-map begin");
    for (size_t i = 0; i < DOORCLOVER_RECORDS; i++) map_own_write("-map own write, a run", 70 + i * step, length);
    refused_map_own_write("map own write 4095+1, too many runs", 24, 4095, 1);
    map_own_write("map own write 4095+0", 4095, 0);
    map_own_write(text, 70, last + length - 70);
    change_window(15 + step);
    map_fetch("map fetch, front and end fresh", 60, last + length - 40);
    map_end("-map end");
}

static void own_writes_refused_by_the_map(void) {
    refused_map_own_write("map own write 0+1, not open", 21, 0, 1);
    map_begin("map begin");
    refused_map_own_write("map own write 0+4097, too long", 4, 0, 4097);
    map_window_size = DOORCLOVER_MAP_ADDRESSES + 1;
    refused_map_own_write("map own write 0+1, window too long", 30, 0, 1);
    map_window_size = DOORCLOVER_MAP_ADDRESSES;
    refused_map_own_write("map own write 4090+7, outside", 9, 4090, 7);
    refused_map_own_write("map own write 2^64-1+2, outside", 9, SIZE_MAX, 2);
    values[500] = 1;
    refused_map_own_write("map own write 0+8, broken map", 20, 0, 8);
    values[500] = 0;
    map_end("map end");
}

/* Some walks: enough to tell a wrong one. */
static void few_walks(void) {
    begin("begin 6", 6);
    put_onward();
    walk("walk 6, onward", by_list(6, 4 * PAGE - 5 * ENTRY, 17));
    walk("walk 6 again", by_list(6, 4 * PAGE - 5 * ENTRY, 17));
    stopped_walk("walk 6, wrong PRP2", 32, 0, by_list(6, 4 * PAGE - 1, 17));
    end("end 6", 6);
    refused_walk("walk 6, not open", 21, by_list(6, 4 * PAGE - 5 * ENTRY, 17));
}

/* Some calls of each kind of fetch and own write, for the same. */
static void few(void) {
    begin("begin 3", 3);
    fetch("fetch 3 1001+17", 3, 1001, 17);
    fetch("fetch 3 1001+17 again", 3, 1001, 17);
    fetch("fetch 3 1010+17, front held", 3, 1010, 17);
    refused_fetch("fetch 6 1001+17, not open", 21, 6, 1001, 17);
    own_write("own write 3 2001+17, none held", 3, 2001, 17);
    own_write("own write 3 1001+17, all held", 3, 1001, 17);
    own_write("own write 3 2010+17, front held", 3, 2010, 17);
    refused_own_write("own write 6 1001+17, not open", 21, 6, 1001, 17);
    end("end 3", 3);
    map_begin("map begin");
    map_fetch("map fetch 1001+17", 1001, 17);
    map_fetch("map fetch 1001+17 again", 1001, 17);
    map_fetch("map fetch 1010+17, front held", 1010, 17);
    refused_map_fetch("map fetch 1001+4097, too long", 4, 1001, 4097);
    map_own_write("map own write 2001+17, none held", 2001, 17);
    map_own_write("map own write 1001+17, all held", 1001, 17);
    map_own_write("map own write 2010+17, front held", 2010, 17);
    refused_map_own_write("map own write 1001+4097, too long", 4, 1001, 4097);
    map_end("map end");
}

static void room(const char *name, const void *start, size_t size) {
    printf("room %s %zu %zu\n", name, (size_t)start, size);
}

/* driver [few | few-walks] */
int main(int argc, char **argv) {
    room("window", window_room, sizeof window_room);
    room("store", store_room, sizeof store_room);
    room("values", values_room, sizeof values_room);
    room("destination", destination_room, sizeof destination_room);
    room("scratch", scratch_room, sizeof scratch_room);
    room("addresses", addresses_room, sizeof addresses_room);
    room("lengths", lengths_room, sizeof lengths_room);
    printf("marker %zu\n", (size_t)&marker);
    for (size_t i = 0; i < DOORCLOVER_STATE_WORDS; i++) broken.words[i] = 65535;
    doorclover_fresh(&whole);
    doorclover_map_fresh(&map_open, map_words, values);
    change_window(1);
    if (argc > 1) {
        if (strcmp(argv[1], "few-walks") == 0) few_walks();
        else few();
        return 0;
    }
    of_every_length();
    overlapping();
    many_records();
    refused();
    host_writes();
    own_writes();
    own_writes_of_many();
    refused_own_writes();
    ends();
    walks();
    refused_walks();
    stopped_walks();
    of_the_map();
    many_runs("map fetch, 1 held and 1 not by turns", 1, 2);
    many_runs("map fetch, 1 held and 2 not by turns", 1, 3);
    many_runs("map fetch, 5 held and 2 not by turns", 5, 7);
    many_runs("map fetch, 37 held and 24 not by turns", 37, 61);
    many_runs("map fetch, 60 held and 2 not by turns", 60, 62);
    refused_by_the_map();
    own_writes_of_the_map();
    own_writes_of_many_runs("map own write, 1 held and 1 not by turns", 1, 2);
    own_writes_of_many_runs("map own write, 37 held and 24 not", 37, 61);
    own_writes_refused_by_the_map();
    return 0;
}
