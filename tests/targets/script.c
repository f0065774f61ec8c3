/*
 * Carries out the script of direct calls, tests/calls/calls.txt, which says at its head what its lines mean, from standard input. It
 * prints the answer of each call and a sum of the state, the byte map and each buffer after it, the same on every target. (tests/calls
 * holds the same calls against the reference.) The status is 0 if each answer begins with the numbers that the script has for it.
 */
#include <inttypes.h>
#include <stdbool.h>
#include <stdio.h>
#include <stdlib.h>
#include <string.h>

#include "doorclover.h"

#define LINES 8000
#define WORDS 200
#define DATA 80000

/* The last two are a walk's lists: their sizes are in bytes, and what is lent is in places. */
enum { STORE, WINDOW, DESTINATION, OUTPUT, SCRATCH, ADDRESSES, LENGTHS, BUFFERS };
static const char *const names[BUFFERS] = {"store", "window", "destination", "output", "scratch", "addresses", "lengths"};
static const size_t sizes[BUFFERS] = {65536, 131073, 10000, 10000, 300, 40 * sizeof(uint64_t), 40 * sizeof(uint32_t)};
static const size_t usual[BUFFERS] = {32768, 65536, 4200, 4200, 128, 17, 17};

/* What the calls are made on; each buffer is aligned for the numbers of a list. */
struct ground {
    doorclover_state state;
    doorclover_map map;
    _Alignas(8) uint8_t bytes[BUFFERS][131080];
    size_t lent[BUFFERS];
};
static struct ground ground, kept;

static char *lines[LINES];
static size_t line_count;
static unsigned long calls, wrong;

/* The words of the line in hand, and the numbers of an answer that are wanted. */
static char *words[WORDS];
static size_t word_count, next_word;
static uint8_t data[DATA];

static void stop(const char *why, size_t line) {
    printf("line %zu: %s\n", line, why);
    exit(2);
}

static void make_bytes(uint8_t *to, size_t count, uint64_t seed) {
    for (size_t i = 0; i < count; i++) {
        seed = seed * 6364136223846793005u + 1442695040888963407u;
        to[i] = (uint8_t)(seed >> 56);
    }
}

static uint64_t sum(const void *bytes, size_t size) {
    uint64_t s = 14695981039346656037u;
    for (size_t i = 0; i < size; i++) s = (s ^ ((const uint8_t *)bytes)[i]) * 1099511628211u;
    return s;
}

static void usual_ground(void) {
    doorclover_fresh(&ground.state);
    doorclover_map_fresh(&ground.map.open, ground.map.words, ground.map.values);
    for (size_t b = 0; b < BUFFERS; b++) {
        make_bytes(ground.bytes[b], sizes[b], b);
        ground.lent[b] = usual[b];
    }
}

/* Parts a copy of a line into words; what stands behind '#' is not read. */
static void split(const char *line) {
    static char copy[4096];
    snprintf(copy, sizeof copy, "%.*s", (int)strcspn(line, "#\n"), line);
    word_count = 0;
    for (char *w = strtok(copy, " \t"); w && word_count < WORDS; w = strtok(NULL, " \t")) words[word_count++] = w;
    next_word = 1;
}

static bool more_words(void) {
    return next_word < word_count && strcmp(words[next_word], "=") != 0;
}

static uint64_t number(void) {
    return more_words() ? strtoull(words[next_word++], NULL, 10) : 0;
}

static void span(uint64_t *start, uint64_t *length) {
    char *plus = "";
    *start = more_words() ? strtoull(words[next_word++], &plus, 10) : 0;
    *length = *plus == '+' ? strtoull(plus + 1, NULL, 10) : 0;
}

/* The bytes that a line gives in hexadecimal, and then as many made ones as it says; how many there are. */
static size_t given_bytes(uint64_t seed) {
    size_t n = 0;
    while (more_words()) {
        const char *w = words[next_word++];
        if (w[0] == '+') {
            size_t made = strtoull(w + 1, NULL, 10);
            make_bytes(data + n, made, seed);
            return n + made;
        }
        unsigned byte;
        for (; sscanf(w, "%2x", &byte) == 1; w += 2) data[n++] = (uint8_t)byte;
    }
    return n;
}

static size_t buffer(void) {
    const char *w = words[next_word++];
    for (size_t b = 0; b < BUFFERS; b++)
        if (strcmp(w, names[b]) == 0) return b;
    return 0;
}

/* Puts a page entry, least byte first, and returns where the next one goes. */
static uint8_t *put_entry(uint8_t *to, uint64_t entry) {
    for (size_t i = 0; i < 8; i++) *to++ = (uint8_t)(entry >> 8 * i);
    return to;
}

/* A line that puts page entries into the window: those that it has, or so many by the first one and a step. */
static bool entry_setting(void) {
    bool stepped = strcmp(words[0], "prps") == 0;
    if (!stepped && strcmp(words[0], "prp") != 0) return false;
    uint8_t *to = ground.bytes[WINDOW] + number();
    if (stepped) {
        uint64_t count = number(), entry = number(), step = number();
        for (; count > 0; count--, entry += step) to = put_entry(to, entry);
    } else {
        while (more_words()) to = put_entry(to, number());
    }
    return true;
}

/* A line that sets a part of the byte map. */
static bool map_setting(void) {
    const char *name = words[0];
    doorclover_map *map = &ground.map;
    uint64_t a, n;
    if (strcmp(name, "map-open") == 0) {
        map->open = number();
    } else if (strcmp(name, "map-words") == 0) {
        for (uint64_t *to = map->words + number(); more_words();) *to++ = number();
    } else if (strcmp(name, "map-values") == 0) {
        for (uint8_t *to = map->values + number(); more_words();) *to++ = (uint8_t)number();
    } else if (strcmp(name, "map-runs") == 0) {
        uint64_t count = number();
        span(&a, &n);
        uint64_t step = number();
        for (uint64_t k = 0; k < count; k++)
            for (uint64_t x = a + k * step; x < a + k * step + n; x++) {
                map->words[x / 64] |= (uint64_t)1 << x % 64;
                map->values[x] = (uint8_t)(1 + x % 255);
            }
    } else {
        return false;
    }
    return true;
}

/* A line that only sets what the next calls are made with. */
static bool setting(void) {
    const char *name = words[0];
    uint64_t a, n;
    if (strcmp(name, "lend") == 0) {
        size_t b = buffer();
        ground.lent[b] = number();
        return true;
    }
    if (strcmp(name, "fill") == 0) {
        size_t b = buffer();
        make_bytes(ground.bytes[b], sizes[b], 1000 + number());
        return true;
    }
    bool all = strcmp(name, "command") == 0, one = strcmp(name, "entry") == 0, some = strcmp(name, "entries") == 0;
    if (!all && !one && !some && strcmp(name, "words") != 0) return entry_setting() || map_setting();
    uint16_t *to = ground.state.words + DOORCLOVER_COMMAND_WORDS * number();
    uint64_t first = number();
    if (all) {
        memset(to, 0, DOORCLOVER_COMMAND_WORDS * sizeof *to);
        *to++ = (uint16_t)first;
        for (; more_words(); *to++ = (uint16_t)a, *to++ = (uint16_t)n) span(&a, &n);
    } else if (one) {
        span(&a, &n);
        to[1 + 2 * first] = (uint16_t)a;
        to[2 + 2 * first] = (uint16_t)n;
    } else if (some) {
        span(&a, &n);
        uint64_t step = number();
        for (uint64_t k = 0; k < first; k++) {
            to[1 + 2 * k] = (uint16_t)(a + k * step);
            to[2 + 2 * k] = (uint16_t)n;
        }
    } else {
        for (to += first; more_words();) *to++ = (uint16_t)number();
    }
    return true;
}

#define LENT(b) ground.bytes[b], ground.lent[b]
#define ANSWER(...) \
    do { \
        const uint64_t numbers[] = {__VA_ARGS__}; \
        memcpy(answer, numbers, sizeof numbers); \
        return sizeof numbers / sizeof *numbers; \
    } while (0)

/* Makes the call of the line if it is one of the byte map, and returns how many numbers its answer has; else -1. */
static int map_call(uint64_t *answer, uint64_t seed) {
    const char *name = words[0];
    doorclover_map *map = &ground.map;
    uint64_t a, n;
    if (strcmp(name, "map-fresh") == 0) {
        doorclover_map_fresh(&map->open, map->words, map->values);
        return 0;
    }
    if (strcmp(name, "map-begin") == 0) ANSWER(doorclover_map_begin(&map->open, map->words, map->values).status);
    if (strcmp(name, "map-end") == 0) {
        doorclover_ended r = doorclover_map_end(&map->open, map->words, map->values);
        ANSWER(r.status, r.records, r.bytes);
    }
    if (strcmp(name, "map-fetch") == 0) {
        span(&a, &n);
        doorclover_fetched r = doorclover_map_fetch(&map->open, map->words, map->values, LENT(WINDOW), LENT(DESTINATION), a, n);
        ANSWER(r.status, r.fresh, r.replayed, r.looked_at);
    }
    if (strcmp(name, "map-own") == 0) {
        span(&a, &n);
        make_bytes(data, n, seed);
        doorclover_written r = doorclover_map_own_write(&map->open, map->words, map->values, LENT(WINDOW), a, data, n);
        ANSWER(r.status, r.bytes, r.fresh);
    }
    return -1;
}

/* Makes the walk of the line. */
static int walk_call(uint64_t *answer) {
    uint64_t c = number(), prp1 = number(), prp2 = number(), transfer = number();
    doorclover_walked r = doorclover_walk(&ground.state, LENT(STORE), LENT(WINDOW), LENT(SCRATCH),
                                          (uint64_t *)(void *)ground.bytes[ADDRESSES], ground.lent[ADDRESSES],
                                          (uint32_t *)(void *)ground.bytes[LENGTHS], ground.lent[LENGTHS], c, prp1, prp2, transfer);
    ANSWER(r.status, r.spans, r.looked_at);
}

/* Makes the call of the line and returns how many numbers its answer has, or -1 if it is no call. */
static int call(uint64_t *answer, uint64_t seed) {
    const char *name = words[0];
    doorclover_state *state = &ground.state;
    uint64_t c, a, n;
    if (strcmp(name, "release") == 0) ANSWER(doorclover_release());
    if (strcmp(name, "fresh") == 0) {
        doorclover_fresh(state);
        return 0;
    }
    if (strcmp(name, "read") == 0) {
        doorclover_step r = doorclover_frame_read(data, given_bytes(seed));
        ANSWER(r.status, r.kind, r.command, r.address, r.length, r.taken);
    }
    if (strcmp(name, "replay") == 0) {
        doorclover_replayed r =
            doorclover_journal_replay(data, given_bytes(seed), LENT(STORE), LENT(WINDOW), LENT(DESTINATION), LENT(OUTPUT));
        ANSWER(r.written, r.carried, r.refused, r.early);
    }
    if (strcmp(name, "host") == 0) {
        span(&a, &n);
        make_bytes(data, n, seed);
        doorclover_written r = doorclover_host_write(LENT(WINDOW), a, data, n);
        ANSWER(r.status, r.bytes, r.fresh);
    }
    if (strcmp(name, "write") == 0) {
        uint64_t kind = number();
        c = number();
        span(&a, &n);
        uint64_t size = number();
        make_bytes(data, size, seed);
        doorclover_framed r = doorclover_frame_write(LENT(OUTPUT), kind, c, a, n, data, size);
        ANSWER(r.status, r.length);
    }
    if (strncmp(name, "map-", 4) == 0) return map_call(answer, seed);
    if (strcmp(name, "walk") == 0) return walk_call(answer);
    c = number();
    if (strcmp(name, "begin") == 0) ANSWER(doorclover_begin(state, LENT(STORE), c).status);
    if (strcmp(name, "end") == 0) {
        doorclover_ended r = doorclover_end(state, LENT(STORE), c);
        ANSWER(r.status, r.records, r.bytes);
    }
    if (strcmp(name, "show") == 0) {
        doorclover_shown r = doorclover_show(state, c, number());
        ANSWER(r.status, r.start, r.length);
    }
    span(&a, &n);
    if (strcmp(name, "fetch") == 0) {
        doorclover_fetched r = doorclover_fetch(state, LENT(STORE), LENT(WINDOW), LENT(DESTINATION), c, a, n);
        ANSWER(r.status, r.fresh, r.replayed, r.looked_at);
    }
    if (strcmp(name, "own") == 0) {
        make_bytes(data, n, seed);
        doorclover_written r = doorclover_own_write(state, LENT(STORE), LENT(WINDOW), c, a, data, n);
        ANSWER(r.status, r.bytes, r.fresh);
    }
    return -1;
}

/* Prints the answer and the sums, and holds the answer against the numbers behind '=', or else those of the list's try. */
static void report(size_t line, const uint64_t *answer, int count, const uint64_t *wanted, size_t wanted_count) {
    uint64_t own[8];
    size_t own_count = 0;
    while (next_word < word_count && strcmp(words[next_word], "=") != 0) next_word++;
    while (++next_word < word_count && own_count < 8) own[own_count++] = strtoull(words[next_word], NULL, 10);
    if (own_count > 0) wanted = own, wanted_count = own_count;
    bool right = wanted_count <= (size_t)count;
    for (size_t i = 0; right && i < wanted_count; i++) right = answer[i] == wanted[i];
    printf("line %zu %s:", line, words[0]);
    for (int i = 0; i < count; i++) printf(" %" PRIu64, answer[i]);
    printf(" | %016" PRIx64 " %016" PRIx64, sum(&ground.state, sizeof ground.state), sum(&ground.map, sizeof ground.map));
    for (size_t b = 0; b < BUFFERS; b++) printf(" %016" PRIx64, sum(ground.bytes[b], sizes[b]));
    printf("%s\n", right ? "" : " WRONG");
    calls++;
    wrong += !right;
}

static void carry_out(size_t line, const uint64_t *wanted, size_t wanted_count) {
    uint64_t answer[8];
    split(lines[line]);
    if (word_count == 0 || setting()) return;
    int count = call(answer, line + 1);
    if (count < 0) stop("is no call", line + 1);
    report(line + 1, answer, count, wanted, wanted_count);
}

static bool is(size_t line, const char *word) {
    split(lines[line]);
    return word_count > 0 && strcmp(words[0], word) == 0;
}

/* The line after 'list NAME'. */
static size_t list_start(const char *name, size_t from) {
    char wanted[100];
    snprintf(wanted, sizeof wanted, "%s", name);
    for (size_t i = 0; i < line_count; i++)
        if (is(i, "list") && word_count > 1 && strcmp(words[1], wanted) == 0) return i + 1;
    stop("there is no such list", from + 1);
    return 0;
}

static void try_list(size_t line) {
    uint64_t wanted[8];
    size_t count = 0;
    for (size_t i = 3; i < word_count && count < 8; i++) wanted[count++] = strtoull(words[i], NULL, 10);
    kept = ground;
    for (size_t i = list_start(words[1], line); !is(i, "done"); i++) carry_out(i, wanted, count);
    ground = kept;
}

int main(void) {
    static char line[4096];
    while (line_count < LINES && fgets(line, sizeof line, stdin)) lines[line_count++] = strdup(line);
    usual_ground();
    for (size_t i = 0; i < line_count; i++) {
        if (is(i, "part")) usual_ground();
        else if (is(i, "try")) try_list(i);
        else if (is(i, "list")) while (!is(i, "done")) i++;
        else carry_out(i, NULL, 0);
    }
    printf("%lu calls, %lu wrong\n", calls, wrong);
    return wrong != 0 || calls == 0;
}
