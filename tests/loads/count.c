/*
 * count REPORT TRACE: holds the loads and stores of a trace (of valgrind's lackey) against what the driver's report asks of each
 * call. It prints a table and, for the calls, 'N passed, M failed'; the status is 0 if none failed.
 */
#include <stdbool.h>
#include <stdint.h>
#include <stdio.h>
#include <stdlib.h>
#include <string.h>

#define EDGE 64
#define COMMANDS 8
#define MAP COMMANDS /* the byte map's one command */
#define PART 4096
#define ADDRESSES_OF_WINDOW 65536

/*
 * A buffer of the driver: how often each byte was loaded and stored during the call, which were to be, and which the call may touch
 * as it likes.
 */
struct room {
    size_t start, size;
    uint32_t *loads, *stores;
    bool *to_load, *to_store, *own;
};

enum { WINDOW, STORE, VALUES, DESTINATION, SCRATCH, ADDRESSES, LENGTHS, ROOMS };
static const char *const names[ROOMS] = {"window", "store", "values", "destination", "scratch", "addresses", "lengths"};
static struct room rooms[ROOMS];
static bool held[COMMANDS + 1][ADDRESSES_OF_WINDOW];
static size_t marker;
static unsigned passed, failed;

static void stop(const char *what) {
    printf("%s\n0 passed, 1 failed\n", what);
    exit(1);
}

static FILE *opened(const char *path) {
    FILE *f = fopen(path, "r");
    if (!f) stop("a file cannot be opened");
    return f;
}

static void *zeros(size_t count, size_t size) {
    void *p = calloc(count, size);
    if (!p) stop("no memory");
    return p;
}

/* A new call, of which nothing is asked as yet. */
static void forget(void) {
    for (struct room *r = rooms; r < rooms + ROOMS; r++) {
        memset(r->loads, 0, r->size * sizeof *r->loads);
        memset(r->stores, 0, r->size * sizeof *r->stores);
        memset(r->to_load, 0, r->size);
        memset(r->to_store, 0, r->size);
        memset(r->own, 0, r->size);
    }
}

/* The room of a name. */
static struct room *named(const char *name) {
    for (size_t i = 0; i < ROOMS; i++)
        if (strcmp(name, names[i]) == 0) return &rooms[i];
    stop("there is no such room");
    return NULL;
}

static void furnish(struct room *r, size_t start, size_t size) {
    r->start = start;
    r->size = size;
    r->loads = zeros(size, sizeof *r->loads);
    r->stores = zeros(size, sizeof *r->stores);
    r->to_load = zeros(size, 1);
    r->to_store = zeros(size, 1);
    r->own = zeros(size, 1);
}

/* Marks what is lent from a byte on; the edges before and behind are never asked for. */
static void ask(bool *bytes, size_t from, size_t count) {
    memset(bytes + EDGE + from, true, count);
}

/* Where the store has a held byte: packed, by ascending address, in the command's part. */
static size_t place(size_t command, size_t address) {
    size_t below = 0;
    for (size_t i = 0; i < address; i++) below += held[command][i];
    return command * PART + below;
}

static void count(struct room *r, size_t start, size_t size, char kind) {
    for (size_t a = start; a < start + size; a++) {
        if (a < r->start || a - r->start >= r->size) continue;
        if (kind != 'S') r->loads[a - r->start]++;
        if (kind != 'L') r->stores[a - r->start]++;
    }
}

/* Reads the trace past the next store to the marker. What it counts on the way is a call's if the marker was stored to before. */
static void up_to_marker(FILE *trace, bool counted) {
    char line[256], kind;
    size_t start, size;
    while (fgets(line, sizeof line, trace)) {
        /* an instruction's line has no blank in front */
        if (line[0] != ' ' || sscanf(line, " %c %zx,%zu", &kind, &start, &size) != 3) continue;
        if (start == marker && kind == 'S') return;
        if (!counted) continue;
        for (struct room *r = rooms; r < rooms + ROOMS; r++) count(r, start, size, kind);
    }
    stop("the trace ends before the calls do");
}

/* Of the bytes that were asked for, how many were touched never, once, and more often; and how many others were touched. */
struct tally {
    size_t never, once, more, other;
};

static struct tally tally(const uint32_t *counts, const bool *asked, size_t size) {
    struct tally t = {0};
    for (size_t i = 0; i < size; i++) {
        if (!asked[i]) t.other += counts[i] != 0;
        else if (counts[i] == 0) t.never++;
        else if (counts[i] == 1) t.once++;
        else t.more++;
    }
    return t;
}

static bool each_once(struct tally t) {
    return t.never == 0 && t.more == 0 && t.other == 0;
}

/* How many bytes were touched that were not asked for and are not the call's own. */
static size_t stray(const uint32_t *counts, const bool *asked, const bool *own, size_t size) {
    size_t n = 0;
    for (size_t i = 0; i < size; i++) n += counts[i] != 0 && !asked[i] && !own[i];
    return n;
}

static void judge(const char *text, bool right, size_t fresh, size_t replayed, unsigned status) {
    const struct room *window = &rooms[WINDOW];
    struct tally loaded = tally(window->loads, window->to_load, window->size);
    struct tally stored = tally(window->stores, window->to_store, window->size);
    /* of the other rooms: held bytes that were loaded, what was asked for and not touched, and what was touched and is not lent for it */
    size_t kept = 0, missed = 0, astray = 0;
    for (const struct room *r = window + 1; r < rooms + ROOMS; r++) {
        struct tally l = tally(r->loads, r->to_load, r->size), s = tally(r->stores, r->to_store, r->size);
        kept += l.once + l.more;
        missed += l.never + s.never;
        astray += stray(r->loads, r->to_load, r->own, r->size) + stray(r->stores, r->to_store, r->own, r->size);
    }
    bool ok = right && each_once(loaded) && each_once(stored) && missed == 0 && astray == 0;
    if (ok) passed++;
    else failed++;
    if (ok && text[0] == '-') return;
    printf("%-38s %6u %6zu %8zu | %6zu %6zu %6zu %6zu | %6zu %6zu%s\n", text, status, fresh, replayed, loaded.once, loaded.more,
           loaded.other, stored.once + stored.more + stored.other, kept, astray, ok ? "" : "  FAILED");
}

static void heading(void) {
    printf("%-38s %6s %6s %8s | %-27s | %6s %6s\n", "", "", "", "", "bytes of the window", "held", "");
    printf("%-38s %6s %6s %8s | %6s %6s %6s %6s | %6s %6s\n", "call", "status", "fresh", "replayed", "once", "more", "other",
           "stored", "loaded", "astray");
}

/* It gives these held bytes: it loads their places. */
static void ask_held(size_t command, size_t address, size_t length) {
    if (command == MAP) ask(rooms[VALUES].to_load, address, length);
    else ask(rooms[STORE].to_load, place(command, address), length);
}

/* It holds these bytes, which it was given: it stores their places. */
static void ask_holding(size_t command, size_t address, size_t length) {
    memset(held[command] + address, true, length);
    if (command == MAP) ask(rooms[VALUES].to_store, address, length);
    else ask(rooms[STORE].to_store, place(command, address), length);
}

/* It clears its scratch, in which it may do as it likes before. */
static void ask_scratch(size_t size) {
    ask(rooms[SCRATCH].to_store, 0, size);
    ask(rooms[SCRATCH].own, 0, size);
}

/* It puts so many spans into its lists. */
static void ask_spans(size_t count) {
    ask(rooms[ADDRESSES].to_store, 0, count * sizeof(uint64_t));
    ask(rooms[LENGTHS].to_store, 0, count * sizeof(uint32_t));
}

/* The lines of the report, one call after the other. */
static void hold_against(FILE *report, FILE *trace) {
    char line[256], text[128] = "", name[32];
    size_t a, n, command = 0, fresh, replayed;
    unsigned status;
    int right;
    while (fgets(line, sizeof line, report)) {
        if (sscanf(line, "room %31s %zu %zu", name, &a, &n) == 3) {
            furnish(named(name), a, n);
        } else if (sscanf(line, "marker %zu", &a) == 1) {
            marker = a;
        } else if (sscanf(line, "call %127[^\n]", text) == 1) {
            forget();
            up_to_marker(trace, false);
            up_to_marker(trace, true);
        } else if (sscanf(line, "part %zu", &command) == 1) {
            ask(rooms[STORE].own, command * PART, PART);
        } else if (strcmp(line, "map\n") == 0) {
            command = MAP;
            ask(rooms[VALUES].own, 0, PART);
        } else if (strcmp(line, "none\n") == 0) {
            memset(held[command], false, ADDRESSES_OF_WINDOW);
        } else if (sscanf(line, "load %zu %zu", &a, &n) == 2) {
            ask(rooms[WINDOW].to_load, a, n);
            memset(held[command] + a, true, n);
        } else if (sscanf(line, "deliver %zu %zu", &a, &n) == 2) {
            ask_held(command, a, n);
            ask(rooms[DESTINATION].to_store, 0, n);
        } else if (sscanf(line, "entries %zu %zu", &a, &n) == 2) {
            ask_held(command, a, n);
        } else if (sscanf(line, "scratch %zu", &n) == 1) {
            ask_scratch(n);
        } else if (sscanf(line, "spans %zu", &n) == 1) {
            ask_spans(n);
        } else if (sscanf(line, "write %zu %zu", &a, &n) == 2) {
            ask(rooms[WINDOW].to_store, a, n);
        } else if (sscanf(line, "hold %zu %zu", &a, &n) == 2) {
            ask_holding(command, a, n);
        } else if (sscanf(line, "reply %d %zu %zu %u", &right, &fresh, &replayed, &status) == 4) {
            judge(text, right, fresh, replayed, status);
        } else {
            stop("a line of the report cannot be read");
        }
    }
}

int main(int argc, char **argv) {
    if (argc != 3) stop("count REPORT TRACE");
    heading();
    hold_against(opened(argv[1]), opened(argv[2]));
    if (passed + failed == 0) stop("the report has no call");
    printf("%u passed, %u failed\n", passed, failed);
    return failed != 0;
}
