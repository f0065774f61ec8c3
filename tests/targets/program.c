/*
 * A program without a C library that links the archive: a retire list whose count the host changes after it was checked, a status
 * word that a command writes and reads back, the same two with the byte map, a page list that the host changes after it was walked, and
 * then calls of all kinds with made numbers, of which every answer and every buffer goes into a sum. The sums are the same on every
 * target. Its status is 0 if the bytes and the replies of the first part are right.
 */
#include "doorclover.h"
#include "machine.h"

#define MADE_CALLS 20000

static doorclover_state state;
static doorclover_map map;
static uint8_t store[DOORCLOVER_STORE], window[16384], destination[DOORCLOVER_TRANSFER], output[32768], bytes[DOORCLOVER_TRANSFER];
static uint8_t scratch[DOORCLOVER_WALK_SCRATCH + 40];
static uint64_t addresses[20];
static uint32_t lengths[20];
static unsigned wrong;

static void check(int right, const char *what) {
    if (right) return;
    put("wrong: ");
    put(what);
    put("\n");
    wrong++;
}

static void retire_list(void) {
    static const uint8_t four[] = {4, 0, 0, 0}, forty[] = {40, 0, 0, 0};
    doorclover_fresh(&state);
    check(doorclover_release() == DOORCLOVER_RELEASE, "release");
    check(doorclover_begin(&state, store, sizeof store, 3).status == 0, "begin");
    check(doorclover_host_write(window, sizeof window, 101, four, sizeof four).bytes == 4, "host write");
    doorclover_fetched r =
        doorclover_fetch(&state, store, sizeof store, window, sizeof window, destination, sizeof destination, 3, 101, 4);
    check(r.status == 0 && r.fresh == 4 && r.replayed == 0 && r.looked_at == 0 && destination[0] == 4, "first fetch");
    check(doorclover_host_write(window, sizeof window, 101, forty, sizeof forty).bytes == 4, "second host write");
    r = doorclover_fetch(&state, store, sizeof store, window, sizeof window, destination, sizeof destination, 3, 99, 8);
    check(r.status == 0 && r.fresh == 4 && r.replayed == 4 && r.looked_at == 1 && destination[2] == 4, "second fetch");
    check(doorclover_own_write(&state, store, sizeof store, window, sizeof window, 3, 101, four, 1).bytes == 1, "own write");
    doorclover_shown s = doorclover_show(&state, 3, 0);
    check(s.status == 0 && s.start == 99 && s.length == 8, "show");
    doorclover_ended e = doorclover_end(&state, store, sizeof store, 3);
    check(e.status == 0 && e.records == 1 && e.bytes == 8, "end");
    r = doorclover_fetch(&state, store, sizeof store, window, sizeof window, destination, sizeof destination, 3, 101, 4);
    check(r.status == DOORCLOVER_COMMAND_NOT_OPEN && r.fresh == 0 && r.replayed == 0 && r.looked_at == 0, "fetch after the end");
}

/* The host changes the bytes between two fetches of the byte map, over the edge of a word. */
static void byte_map(void) {
    doorclover_map_fresh(&map.open, map.words, map.values);
    check(doorclover_map_begin(&map.open, map.words, map.values).status == 0 && map.open == 1, "begin of the map");
    window[62] = 4;
    doorclover_fetched r =
        doorclover_map_fetch(&map.open, map.words, map.values, window, 4096, destination, sizeof destination, 62, 4);
    check(r.status == 0 && r.fresh == 4 && r.replayed == 0 && destination[0] == 4, "first fetch of the map");
    window[62] = 40;
    r = doorclover_map_fetch(&map.open, map.words, map.values, window, 4096, destination, sizeof destination, 60, 8);
    check(r.status == 0 && r.fresh == 4 && r.replayed == 4 && r.looked_at == 0 && destination[2] == 4, "second fetch of the map");
    check(map.words[0] == (uint64_t)15 << 60 && map.words[1] == 15 && map.values[62] == 4, "the map");
    r = doorclover_map_fetch(&map.open, map.words, map.values, window, 4097, destination, sizeof destination, 4097, 1);
    check(r.status == DOORCLOVER_WINDOW_BEYOND_MAP && r.fresh == 0 && r.replayed == 0, "fetch of the map with a longer window");
    doorclover_ended e = doorclover_map_end(&map.open, map.words, map.values);
    check(e.status == 0 && e.records == 1 && e.bytes == 8, "end of the map");
    check(map.open == 0 && map.words[0] == 0 && map.words[1] == 0 && map.values[62] == 0, "the map after its end");
}

static const uint8_t status_word[] = {0xa1, 0xa2, 0xa3, 0xa4};

/* Is the status word delivered, behind a byte that the host had? */
static int read_back(doorclover_fetched r) {
    int same = r.status == 0 && r.fresh == 0 && r.replayed == 5 && destination[0] == 7;
    for (size_t i = 0; i < sizeof status_word; i++) same &= destination[1 + i] == status_word[i];
    return same;
}

/* A command writes a status word, two bytes of which it has fetched, and reads it back, though the host puts other bytes there. */
static void own_write(void) {
    memset(window, 7, 256);
    check(doorclover_begin(&state, store, sizeof store, 3).status == 0, "begin of the status word");
    doorclover_fetched r =
        doorclover_fetch(&state, store, sizeof store, window, sizeof window, destination, sizeof destination, 3, 62, 3);
    check(r.status == 0 && r.fresh == 3, "fetch before the status word");
    doorclover_written w = doorclover_own_write(&state, store, sizeof store, window, sizeof window, 3, 63, status_word, 4);
    check(w.status == 0 && w.bytes == 4 && w.fresh == 2 && window[63] == 0xa1 && window[66] == 0xa4, "status word");
    memset(window, 9, 256);
    r = doorclover_fetch(&state, store, sizeof store, window, sizeof window, destination, sizeof destination, 3, 62, 5);
    check(read_back(r), "fetch of the status word");
    w = doorclover_own_write(&state, store, sizeof store - 1, window, sizeof window, 3, 63, status_word, 4);
    check(w.status == DOORCLOVER_STORE_WRONG_SIZE && w.bytes == 0 && w.fresh == 0 && window[63] == 9, "own write with a shorter store");
    doorclover_ended e = doorclover_end(&state, store, sizeof store, 3);
    check(e.status == 0 && e.records == 1 && e.bytes == 5, "end of the status word");
}

/* The same with the byte map, over the edge of a word. */
static void map_own_write(void) {
    memset(window, 7, 256);
    check(doorclover_map_begin(&map.open, map.words, map.values).status == 0, "begin of the map's status word");
    doorclover_fetched r =
        doorclover_map_fetch(&map.open, map.words, map.values, window, 4096, destination, sizeof destination, 62, 3);
    check(r.status == 0 && r.fresh == 3, "fetch before the map's status word");
    doorclover_written w = doorclover_map_own_write(&map.open, map.words, map.values, window, 4096, 63, status_word, 4);
    check(w.status == 0 && w.bytes == 4 && w.fresh == 2 && window[63] == 0xa1 && window[66] == 0xa4, "the map's status word");
    memset(window, 9, 256);
    r = doorclover_map_fetch(&map.open, map.words, map.values, window, 4096, destination, sizeof destination, 62, 5);
    check(read_back(r), "fetch of the map's status word");
    w = doorclover_map_own_write(&map.open, map.words, map.values, window, 4097, 4097, status_word, 4);
    check(w.status == DOORCLOVER_WINDOW_BEYOND_MAP && w.bytes == 0 && w.fresh == 0, "own write of the map with a longer window");
    doorclover_ended e = doorclover_map_end(&map.open, map.words, map.values);
    check(e.status == 0 && e.records == 1 && e.bytes == 5, "end of the map's status word");
}

static void put_entry(size_t address, uint64_t entry) {
    for (size_t i = 0; i < 8; i++) window[address + i] = (uint8_t)(entry >> 8 * i);
}

/* A walk by command 3 of five pages: the entries of the first list's page are one of a page and one that leads onward. */
static doorclover_walked walk_pages(void) {
    memset(scratch, 7, sizeof scratch);
    return doorclover_walk(&state, store, sizeof store, window, sizeof window, scratch, sizeof scratch, addresses, 20,
                           lengths, 20, 3, 0x123456789abcdff8, 8192 - 16, 8 + 3 * 4096 + 1);
}

/* Are these the spans, were so many records looked at, and is the scratch zero? */
static int walked(doorclover_walked r, size_t looked_at) {
    static const uint64_t pages[] = {0x123456789abcdff8, 0xfedcba9876543000, 0, 4096, 0xfffffffffffff000};
    int right = r.status == 0 && r.spans == 5 && r.looked_at == looked_at && lengths[0] == 8 && lengths[4] == 1;
    for (size_t i = 0; i < 5; i++) right &= addresses[i] == pages[i] && (i % 4 == 0 || lengths[i] == 4096);
    for (size_t i = 0; i < sizeof scratch; i++) right &= scratch[i] == 0;
    return right;
}

/* The host changes an entry of each list between two walks, and the second one gives the same spans. */
static void page_list(void) {
    put_entry(8192 - 16, 0xfedcba9876543000);
    put_entry(8192 - 8, 12288);
    put_entry(12288, 0);
    put_entry(12288 + 8, 4096);
    put_entry(12288 + 16, 0xfffffffffffff000);
    check(doorclover_begin(&state, store, sizeof store, 3).status == 0, "begin of the page list");
    check(walked(walk_pages(), 0 + 1), "walk");
    put_entry(8192 - 16, 1);
    put_entry(12288 + 8, 1);
    check(walked(walk_pages(), 2 + 2), "walk again");
    doorclover_ended e = doorclover_end(&state, store, sizeof store, 3);
    check(e.status == 0 && e.records == 2 && e.bytes == 40, "end of the page list");
    check(doorclover_begin(&state, store, sizeof store, 3).status == 0, "second begin of the page list");
    doorclover_walked r = walk_pages();
    check(r.status == DOORCLOVER_ENTRY_MISALIGNED && r.spans == 0 && r.looked_at == 0 && scratch[0] == 0, "walk of a wrong entry");
    e = doorclover_end(&state, store, sizeof store, 3);
    check(e.status == 0 && e.records == 1 && e.bytes == 16, "second end of the page list");
}

/* The worked example of the log. */
static void journal(void) {
    static const uint8_t frames[] = {0x08, 0, 0, 0, 0, 0x60, 0, 0x40, 0, 0x80, 0x61, 0x62, 0x63, 0x64, 0x28, 0, 0x40, 0, 0x80,
                                     0x60, 0, 0x48, 0, 0x40, 0x7a, 0x7a, 0x28, 0, 0x38, 1, 0, 0x48, 0, 0, 0, 0, 0x28, 0, 0x40, 0, 0x80};
    memset(window, 0, sizeof window);
    doorclover_replayed r = doorclover_journal_replay(frames, sizeof frames, store, sizeof store, window, sizeof window,
                                                      destination, sizeof destination, output, sizeof output - 1);
    check(r.carried == 6 && r.refused == 1 && r.early == 0, "journal");
    output[r.written] = 0;
    put((const char *)output);
}

static uint64_t sum = 14695981039346656037u;

static void add(const void *from, size_t size) {
    for (size_t i = 0; i < size; i++) sum = (sum ^ ((const uint8_t *)from)[i]) * 1099511628211u;
}

static void add_number(uint64_t number) {
    add(&number, sizeof number);
}

static uint64_t seed = 1;

/* A number below a limit. */
static size_t made(size_t limit) {
    seed = seed * 6364136223846793005u + 1442695040888963407u;
    return (size_t)((seed >> 33) % limit);
}

/* Most numbers are small, so that spans meet; some are out of range. */
static size_t made_address(void) {
    return made(50) == 0 ? SIZE_MAX - made(3) : made(20) == 0 ? 16384 - made(40) : made(700);
}

static size_t made_length(void) {
    return made(60) == 0 ? 4090 + made(8) : made(4) == 0 ? made(300) : made(9);
}

static void add_fetched(doorclover_fetched r) {
    add_number(r.status);
    add_number(r.fresh);
    add_number(r.replayed);
    add_number(r.looked_at);
}

static void fetch(size_t command, size_t address, size_t length) {
    size_t room = made(30) == 0 ? made(sizeof destination) : sizeof destination;
    add_fetched(doorclover_fetch(&state, store, sizeof store, window, sizeof window, destination, room, command, address, length));
}

/* Makes the bytes of a write, no more than there is room for, and returns how many. */
static size_t make_bytes(size_t length) {
    if (length > sizeof bytes) length = sizeof bytes;
    for (size_t i = 0; i < length; i++) bytes[i] = (uint8_t)made(256);
    return length;
}

static void add_written(doorclover_written r) {
    add_number(r.status);
    add_number(r.bytes);
    add_number(r.fresh);
}

static void write(size_t command, size_t address, size_t length) {
    size_t size = make_bytes(length);
    if (made(2) == 0) add_written(doorclover_host_write(window, sizeof window, address, bytes, size));
    else add_written(doorclover_own_write(&state, store, sizeof store, window, sizeof window, command, address, bytes, size));
}

static void frame(size_t command, size_t address, size_t length) {
    doorclover_framed r = doorclover_frame_write(output, sizeof output, made(6), command, made(2) * address, made(2) * length, bytes,
                                                 made(3) == 0 ? length % sizeof bytes : 0);
    add_number(r.status);
    add_number(r.length);
    output[made(5)] ^= (uint8_t)(1u << made(8));
    doorclover_step s = doorclover_frame_read(output, made(20) == 0 ? made(6) : made(5000));
    add_number(s.status);
    add_number(s.kind);
    add_number(s.command);
    add_number(s.address);
    add_number(s.length);
    add_number(s.taken);
}

static void map_fetch(size_t address, size_t length) {
    size_t room = made(30) == 0 ? made(sizeof destination) : sizeof destination;
    size_t size = made(20) == 0 ? 4090 + made(9) : 4096;
    add_fetched(doorclover_map_fetch(&map.open, map.words, map.values, window, size, destination, room, address, length));
}

static void map_write(size_t address, size_t length) {
    size_t size = make_bytes(length), window_size = made(20) == 0 ? 4090 + made(9) : 4096;
    add_written(doorclover_map_own_write(&map.open, map.words, map.values, window, window_size, address, bytes, size));
}

/* The host's entries from an address on: mostly pages, low and high ones, and some that are none. */
static void make_entries(size_t address) {
    for (; address + 8 <= sizeof window && made(20) != 0; address += 8) {
        uint64_t entry = (uint64_t)made(1 << 20) << 12;
        if (made(2) == 0) entry <<= 32;
        put_entry(address, made(100) == 0 ? entry + 8 : entry);
    }
}

/* Lists stand at the ends of pages, and most lead onward to the front of one, so that there are walks of all kinds. */
static void walk(size_t command) {
    size_t fit = 1 + made(20), prp2 = 4096 * (1 + made(4)) - 8 * fit, next = 4096 * made(4);
    make_entries(prp2);
    make_entries(next);
    if (made(8) != 0) put_entry(prp2 + 8 * (fit - 1), made(30) == 0 ? 16384 : next);
    size_t prp1 = made(30) == 0 ? SIZE_MAX - made(5000) : 4 * made(5000);
    if (made(8) == 0) prp2 = next;
    if (made(30) == 0) prp2 = made(2) == 0 ? SIZE_MAX - 7 : prp2 + 4;
    size_t transfer = made(40) == 0 ? 65537 * made(2) : 1 + made(made(4) == 0 ? 8192 : 65536);
    size_t scratch_size = made(30) == 0 ? 120 + made(16) : sizeof scratch, places = made(30) == 0 ? 15 + made(4) : 20;
    memset(scratch, (int)made(256), sizeof scratch);
    doorclover_walked r = doorclover_walk(&state, store, sizeof store, window, sizeof window, scratch, scratch_size, addresses, places,
                                          lengths, places, command, prp1, prp2, transfer);
    add_number(r.status);
    add_number(r.spans);
    add_number(r.looked_at);
    add(scratch, sizeof scratch);
    add(addresses, sizeof addresses);
    add(lengths, sizeof lengths);
}

/* Half of the fetches are of few bytes anywhere, so that there come to be many runs. */
static void map_call(size_t address, size_t length) {
    size_t kind = made(120);
    if (kind < 6) {
        add_number(doorclover_map_begin(&map.open, map.words, map.values).status);
    } else if (kind == 6) {
        doorclover_ended r = doorclover_map_end(&map.open, map.words, map.values);
        add_number(r.status);
        add_number(r.records);
        add_number(r.bytes);
    } else if (kind % 5 == 0) {
        map_write(address, length);
    } else if (kind % 2 == 0) {
        map_fetch(made(4096), made(3));
    } else {
        map_fetch(address, length);
    }
    add(&map, sizeof map);
}

static void made_call(void) {
    size_t command = made(40) == 0 ? 8 + made(3) : made(3), address = made_address(), length = made_length();
    switch (made(17)) {
    case 0: {
        add_number(doorclover_begin(&state, store, sizeof store - (made(30) == 0), command).status);
        break;
    }
    case 1: {
        if (made(4) != 0) break;
        doorclover_ended r = doorclover_end(&state, store, sizeof store, command);
        add_number(r.status);
        add_number(r.records);
        add_number(r.bytes);
        break;
    }
    case 2: {
        doorclover_shown r = doorclover_show(&state, command, made(20));
        add_number(r.status);
        add_number(r.start);
        add_number(r.length);
        break;
    }
    case 3: frame(command, address, length); break;
    case 4: write(command, address, length); break;
    case 5:
    case 6:
    case 7: map_call(address, length); break;
    case 8:
    case 9: walk(command); break;
    default: fetch(command, address, length);
    }
}

/* A state that does not hold together, now and then: a word is changed, all calls see it, and it is put back. */
static void broken_call(void) {
    uint16_t *word = &state.words[made(DOORCLOVER_STATE_WORDS)], was = *word;
    *word = (uint16_t)made(65536);
    doorclover_state kept = state;
    fetch(made(3), made_address(), 0);
    doorclover_shown r = doorclover_show(&state, made(3), 0);
    add_number(r.status);
    add_number(r.start);
    add_number(r.length);
    for (size_t i = 0; i < DOORCLOVER_STATE_WORDS; i++) check(kept.words[i] == state.words[i], "a state that was not to change");
    *word = was;
}

/* The same of the byte map: a value is changed, and a bit. */
static void broken_map_call(void) {
    size_t address = made(DOORCLOVER_MAP_ADDRESSES);
    doorclover_map was = map;
    map.values[address] = (uint8_t)made(256);
    map.words[made(DOORCLOVER_MAP_WORDS)] ^= (uint64_t)made(2) << made(64);
    doorclover_map kept = map;
    map_fetch(made_address(), 0);
    for (size_t i = 0; i < sizeof kept; i++)
        check(((const uint8_t *)&kept)[i] == ((const uint8_t *)&map)[i], "a map that was not to change");
    map = was;
}

static void made_calls(void) {
    doorclover_fresh(&state);
    for (size_t n = 1; n <= MADE_CALLS; n++) {
        if (made(25) == 0) broken_call();
        else if (made(25) == 0) broken_map_call();
        else made_call();
        add(&state, sizeof state);
        add(destination, 64);
        if (n % 100 != 0) continue;
        add(store, sizeof store);
        add(window, sizeof window);
        add(destination, sizeof destination);
        add(output, sizeof output);
        if (n % 2000 != 0) continue;
        put_number(n);
        put(" calls, sum ");
        put_number(sum);
        put("\n");
    }
}

int run(void) {
    retire_list();
    own_write();
    byte_map();
    map_own_write();
    page_list();
    journal();
    made_calls();
    put(wrong == 0 ? "right\n" : "WRONG\n");
    return wrong != 0;
}
