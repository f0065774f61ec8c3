/* Runs every test twice: with what is lent at the front of its pages, and at their back. */
#include "desk.h"
#include "tests.h"

#include <stdio.h>

static void test_every_refusal_seen(void)
{
    static const doorclover_status begins[] = {6, 8, 20, 22, 0};
    static const doorclover_status fetches[] = {4, 6, 7, 8, 9, 10, 20, 21, 23, 24, 0};
    static const doorclover_status ends[] = {6, 8, 20, 21, 0};
    static const doorclover_status hosts[] = {4, 7, 9, 0};
    static const doorclover_status owns[] = {4, 6, 7, 8, 9, 20, 21, 23, 24, 0};
    static const doorclover_status walks[] = {6, 7, 8, 9, 10, 20, 21, 23, 24, 31, 32, 0};
    static const doorclover_status shows[] = {6, 20, 21, 25, 0};
    static const doorclover_status reads[] = {1, 2, 3, 4, 5, 0};
    static const doorclover_status writes[] = {2, 3, 4, 5, 6, 10, 11, 0};
    static const doorclover_status map_begins[] = {20, 22, 0};
    static const doorclover_status map_fetches[] = {4, 9, 10, 20, 21, 24, 30, 0};
    static const doorclover_status map_ends[] = {20, 21, 0};
    static const doorclover_status map_owns[] = {4, 9, 20, 21, 24, 30, 0};
    CHECK(seen_just("begin", begins));
    CHECK(seen_just("fetch", fetches));
    CHECK(seen_just("end", ends));
    CHECK(seen_just("host write", hosts));
    CHECK(seen_just("own write", owns));
    CHECK(seen_just("walk", walks));
    CHECK(seen_just("show", shows));
    CHECK(seen_just("read", reads));
    CHECK(seen_just("write", writes));
    CHECK(seen_just("map begin", map_begins));
    CHECK(seen_just("map fetch", map_fetches));
    CHECK(seen_just("map end", map_ends));
    CHECK(seen_just("map own write", map_owns));
}

typedef struct {
    const char *name;
    void (*run)(void);
} test;

static const test tests[] = {
    {"release and fresh", test_fresh},
    {"begin", test_begin},
    {"begin refused", test_begin_refused},
    {"fetch", test_fetch},
    {"fetch joins records", test_fetch_joins},
    {"fetch joins records that it touches", test_fetch_touches},
    {"fetch and the records that it looks at", test_fetch_looked_at},
    {"fetch among 64 records", test_fetch_looked_at_64},
    {"fetch refused", test_fetch_refused},
    {"fetch of too many bytes and records", test_fetch_full},
    {"end", test_end},
    {"end refused", test_end_refused},
    {"host write", test_host_write},
    {"host write refused", test_host_write_refused},
    {"own write", test_own_write},
    {"own write seen by its command alone", test_own_write_alone},
    {"own write joins records", test_own_write_joins},
    {"own write of no bytes", test_own_write_of_none},
    {"own write refused", test_own_write_refused},
    {"own write of too many bytes and records", test_own_write_full},
    {"show", test_show},
    {"null pointers with length 0", test_nulls},
    {"walk of one page", test_walk_one_page},
    {"walk of two pages", test_walk_two_pages},
    {"walk of a list", test_walk_list},
    {"walk onward to a second list", test_walk_onward},
    {"walk of any pages", test_walk_any_pages},
    {"walk of lists at the end of the window", test_walk_window_end},
    {"walk of lists outside the window", test_walk_outside},
    {"walk of wrong multiples", test_walk_multiples},
    {"walk with two faults, in their order", test_walk_order},
    {"walk refused before PRP1", test_walk_refused},
    {"walk with more and less room", test_walk_room},
    {"walk of too many bytes and records", test_walk_full},
    {"walk again, after the host", test_walk_again},
    {"walk and the records that it looks at", test_walk_looked_at},
    {"walk that looks at the most records", test_walk_looked_at_most},
    {"walk of entries held before", test_walk_held},
    {"walk of entries that the command wrote", test_walk_own_entries},
    {"walk refused, and what it keeps", test_walk_keeps},
    {"walk of every command", test_walk_commands},
    {"broken words", test_broken_words},
    {"words at their limits", test_words_at_their_limits},
    {"a state in a larger struct", test_state_in_a_struct},
    {"two states side by side", test_states_side_by_side},
    {"frame read", test_frame_read},
    {"frame read refused", test_frame_read_refused},
    {"frame write", test_frame_write},
    {"frame write refused", test_frame_write_refused},
    {"journal", test_journal},
    {"journal with own writes", test_journal_own_write},
    {"journal with a log that is cut", test_journal_cut},
    {"journal with refused and unreadable frames", test_journal_refused},
    {"journal with null pointers", test_journal_nulls},
    {"map: fresh", test_map_fresh},
    {"map: what is open", test_map_open},
    {"map: begin", test_map_begin},
    {"map: fetch", test_map_fetch},
    {"map: fetch over the edges of words", test_map_fetch_words},
    {"map: fetch of held and fresh bytes by turns", test_map_fetch_mixed},
    {"map: fetch joins runs", test_map_fetch_joins},
    {"map: fetch refused", test_map_fetch_refused},
    {"map: fetch of too many runs", test_map_fetch_full},
    {"map: end", test_map_end},
    {"map: own write", test_map_own_write},
    {"map: own write over the edges of words", test_map_own_write_words},
    {"map: own write of held and other bytes by turns", test_map_own_write_mixed},
    {"map: own write joins runs", test_map_own_write_joins},
    {"map: own write refused", test_map_own_write_refused},
    {"map: own write of too many runs", test_map_own_write_full},
    {"map: null pointers with length 0", test_map_nulls},
    {"map: broken maps", test_broken_maps},
    {"map: maps at their limits", test_maps_at_their_limits},
    {"map: two maps side by side", test_maps_side_by_side},
    {"map: as a command of a state", test_map_as_a_command},
    {"just the listed refusals were seen", test_every_refusal_seen},
};

static int passes(const test *t, const char *where)
{
    unsigned long before = checks, failed = failures;
    t->run();
    return_all();
    int good = failures == failed && checks > before;
    printf("%s calls: %s (%s, %lu checks)\n", good ? "ok    " : "FAILED", t->name, where,
           checks - before);
    return good;
}

int main(void)
{
    static const char *const where[] = {"after a fence", "before a fence"};
    unsigned passed = 0, failed = 0;
    setvbuf(stdout, NULL, _IOLBF, 0);
    for (int p = AT_FRONT; p <= AT_BACK; p++) {
        lent_place = (place)p;
        for (size_t i = 0; i < sizeof tests / sizeof tests[0]; i++) {
            if (passes(&tests[i], where[p]))
                passed++;
            else
                failed++;
        }
    }
    printf("%u passed, %u failed\n", passed, failed);
    return failed != 0;
}
