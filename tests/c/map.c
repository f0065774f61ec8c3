/* The byte map's calls: what they do, and what they refuse. */
#include "map_desk.h"
#include "tests.h"

#include <stdint.h>
#include <string.h>

/* The desk with another window, destination or bytes. */
static map_desk with_window(map_desk m, lent *l) { m.window = l; return m; }
static map_desk with_destination(map_desk m, lent *l) { m.destination = l; return m; }
static map_desk with_bytes(map_desk m, lent *l) { m.bytes = l; return m; }

/* Were these the bytes of the host at an address, before it changed them? */
static int delivered(const map_desk *m, size_t address, size_t length)
{
    for (size_t i = 0; i < length; i++)
        if (m->destination->bytes[i] != host_byte(address + i))
            return 0;
    return 1;
}

/* A value where nothing is held. */
static void break_map(const map_desk *m)
{
    CHECK(!is_held(m, 4095));
    m->values->bytes[4095] = 1;
}

static void mend_map(const map_desk *m)
{
    m->values->bytes[4095] = 0;
}

/* Every second byte from the first on is held: 64 runs. */
static void hold_64(const map_desk *m)
{
    for (size_t i = 0; i < DOORCLOVER_RECORDS; i++)
        map_fetch(m, 2 * i, 1, 1, 0);
}

void test_map_fresh(void)
{
    static const doorclover_map zero;
    lent *l = lend(sizeof(doorclover_map), 0xff);
    doorclover_map *map = (doorclover_map *)(void *)l->bytes;
    keep_all();
    doorclover_map_fresh(&map->open, map->words, map->values);
    CHECK(memcmp(map, &zero, sizeof zero) == 0);
    allow(l, 0, l->size);
    CHECK(all_kept());
}

/* Whatever stands for open but 0 is open, and a fetch and an own write leave it as it is. */
void test_map_open(void)
{
    static const uint64_t opens[] = {1, 2, 256, 65536, (uint64_t)1 << 32, (uint64_t)1 << 63,
                                     UINT64_MAX};
    map_desk m = fresh_map_desk(), two = with_bytes(m, lend(2, 0x99));
    for (size_t i = 0; i < sizeof opens / sizeof opens[0]; i++) {
        *open_of(&m) = opens[i];
        map_begin_refused(&m, DOORCLOVER_COMMAND_ALREADY_OPEN);
        map_fetch(&m, 9, 3, 3, 0);
        map_own_write(&two, 11, 1);
        map_begin_refused(&m, DOORCLOVER_COMMAND_ALREADY_OPEN);
        map_end(&m, 1, 4);
    }
}

void test_map_begin(void)
{
    map_desk m = fresh_map_desk();
    map_begin(&m);
    map_begin_refused(&m, DOORCLOVER_COMMAND_ALREADY_OPEN);
    map_fetch(&m, 100, 7, 7, 0);
    map_begin_refused(&m, DOORCLOVER_COMMAND_ALREADY_OPEN);
    break_map(&m);
    map_begin_refused(&m, DOORCLOVER_STATE_BROKEN); /* both: the lower number */
    mend_map(&m);
    map_end(&m, 1, 7);
    break_map(&m);
    map_begin_refused(&m, DOORCLOVER_STATE_BROKEN);
    mend_map(&m);
    map_begin(&m);
    map_end(&m, 0, 0);
}

void test_map_fetch(void)
{
    map_desk m = fresh_map_desk();
    map_begin(&m);
    map_fetch(&m, 16, 4, 4, 0);
    CHECK(delivered(&m, 16, 4));
    memset(m.window->bytes + 16, 0, 4); /* the host changes what was fetched */
    map_fetch(&m, 14, 8, 4, 4);
    CHECK(delivered(&m, 14, 8));
    change_window(&m);
    map_fetch(&m, 14, 8, 0, 8);
    CHECK(delivered(&m, 14, 8));
    map_end(&m, 1, 8);
    map_begin(&m); /* the next command sees the host's new bytes */
    map_fetch(&m, 14, 8, 8, 0);
    CHECK(memcmp(m.destination->bytes, m.window->bytes + 14, 8) == 0 && !delivered(&m, 14, 8));
    map_fetch(&m, 4095, 1, 1, 0);
    map_fetch(&m, 4096, 0, 0, 0);
    map_fetch(&m, 0, 0, 0, 0);
    map_fetch(&m, 22, 0, 0, 0); /* no byte: nothing is joined or held */
    map_end(&m, 2, 9);
}

/* Spans over the edges of words. */
static const size_t spans[][2] = {{62, 4},  {63, 1},    {64, 1},    {63, 2},   {0, 64},
                                  {0, 65},  {1, 63},    {64, 64},   {63, 66},  {127, 2},
                                  {5, 200}, {4032, 64}, {4031, 65}, {0, 4096}, {1, 4094}};
enum { SPANS = sizeof spans / sizeof spans[0] };

/* They are fresh and then replayed. */
void test_map_fetch_words(void)
{
    map_desk m = fresh_map_desk();
    for (size_t i = 0; i < SPANS; i++) {
        size_t address = spans[i][0], length = spans[i][1];
        map_begin(&m);
        map_fetch(&m, address, length, length, 0);
        change_window(&m);
        map_fetch(&m, address, length, 0, length);
        map_end(&m, 1, length);
    }
}

/* Held and fresh bytes by turns, within words and over their edges. */
void test_map_fetch_mixed(void)
{
    map_desk m = fresh_map_desk();
    for (size_t step = 2; step <= 65; step++) {
        map_begin(&m);
        for (size_t i = 0; i < 40; i++)
            map_fetch(&m, 30 + step * i, 1, 1, 0);
        change_window(&m);
        map_fetch(&m, 20, 39 * step + 20, 39 * step - 20, 40);
        map_end(&m, 1, 39 * step + 20);
    }
}

void test_map_fetch_joins(void)
{
    map_desk m = fresh_map_desk();
    map_begin(&m);
    map_fetch(&m, 62, 1, 1, 0);
    map_fetch(&m, 64, 1, 1, 0); /* one address between */
    map_end(&m, 2, 2);
    map_begin(&m);
    map_fetch(&m, 63, 1, 1, 0);
    map_fetch(&m, 64, 1, 1, 0); /* they touch over the edge of a word, and are one */
    map_end(&m, 1, 2);
    map_begin(&m);
    map_fetch(&m, 16, 4, 4, 0);
    map_fetch(&m, 26, 4, 4, 0);
    map_fetch(&m, 120, 20, 20, 0);
    map_fetch(&m, 20, 6, 6, 0); /* between two */
    map_fetch(&m, 100, 60, 40, 20);
    map_fetch(&m, 101, 58, 0, 58);
    map_end(&m, 2, 74);
}

/* Every fault at once, and then one after the other is mended: the first in order is given. */
static void ladder(map_desk m)
{
    map_desk e = m;
    size_t address = SIZE_MAX, length = DOORCLOVER_TRANSFER + 1;
    e.window = lend(DOORCLOVER_MAP_ADDRESSES + 1, 2);
    e.destination = lend(9, 3);
    break_map(&e);
    map_fetch_refused(&e, DOORCLOVER_LENGTH_TOO_LONG, address, length);
    length = 10;
    map_fetch_refused(&e, DOORCLOVER_WINDOW_BEYOND_MAP, address, length);
    e.window = m.window;
    map_fetch_refused(&e, DOORCLOVER_OUTSIDE_WINDOW, address, length);
    address = 4096 - 10;
    map_fetch_refused(&e, DOORCLOVER_BUFFER_TOO_SHORT, address, length);
    length = 9;
    map_fetch_refused(&e, DOORCLOVER_STATE_BROKEN, address, length);
    mend_map(&e);
    map_fetch_refused(&e, DOORCLOVER_COMMAND_NOT_OPEN, address, length);
    map_begin(&e);
    hold_64(&e);
    map_fetch_refused(&e, DOORCLOVER_TOO_MANY_RECORDS, address, length);
    map_fetch(&e, 1, 1, 1, 0);
    map_fetch(&e, address, length, 9, 0);
    map_end(&e, 64, 74);
}

void test_map_fetch_refused(void)
{
    map_desk m = fresh_map_desk();
    map_desk wider = with_window(m, lend(DOORCLOVER_MAP_ADDRESSES + 1, 7));
    map_desk widest = with_window(m, lend(DOORCLOVER_WINDOW + 1, 7));
    map_desk shorter = with_window(m, lend(20, 7));
    map_desk less = with_destination(m, lend(DOORCLOVER_TRANSFER - 1, 3));
    ladder(m);
    map_begin(&m);
    map_fetch_refused(&wider, DOORCLOVER_WINDOW_BEYOND_MAP, 0, 0);
    map_fetch_refused(&wider, DOORCLOVER_WINDOW_BEYOND_MAP, 0, 4096);
    map_fetch_refused(&wider, DOORCLOVER_WINDOW_BEYOND_MAP, 4097, 1); /* and not 9 */
    map_fetch_refused(&wider, DOORCLOVER_LENGTH_TOO_LONG, 0, 4097);
    map_fetch_refused(&widest, DOORCLOVER_WINDOW_BEYOND_MAP, 0, 1);
    map_fetch(&m, 20, 1, 1, 0);
    map_fetch_refused(&shorter, DOORCLOVER_OUTSIDE_WINDOW, 20, 1); /* held, but past this window */
    map_fetch_refused(&shorter, DOORCLOVER_OUTSIDE_WINDOW, 21, 0);
    map_fetch(&shorter, 19, 1, 1, 0);
    map_fetch(&shorter, 20, 0, 0, 0);
    map_fetch_refused(&m, DOORCLOVER_OUTSIDE_WINDOW, 4096, 1);
    map_fetch_refused(&m, DOORCLOVER_OUTSIDE_WINDOW, 4097, 0);
    for (size_t length = 0; length <= DOORCLOVER_TRANSFER; length += 512)
        map_fetch_refused(&m, DOORCLOVER_OUTSIDE_WINDOW, SIZE_MAX - length + 1 - !length, length);
    map_fetch_refused(&m, DOORCLOVER_LENGTH_TOO_LONG, 0, 4097);
    map_fetch_refused(&m, DOORCLOVER_LENGTH_TOO_LONG, 0, SIZE_MAX);
    map_fetch_refused(&less, DOORCLOVER_BUFFER_TOO_SHORT, 0, 4096);
    map_fetch(&less, 0, 4095, 4093, 2);
    map_fetch(&m, 0, 4096, 1, 4095);
    map_end(&m, 1, 4096);
    map_fetch_refused(&m, DOORCLOVER_COMMAND_NOT_OPEN, 0, 0);
    map_fetch_refused(&m, DOORCLOVER_COMMAND_NOT_OPEN, 0, 1);
}

void test_map_fetch_full(void)
{
    map_desk m = fresh_map_desk();
    map_begin(&m);
    hold_64(&m);
    map_fetch_refused(&m, DOORCLOVER_TOO_MANY_RECORDS, 128, 1);
    map_fetch_refused(&m, DOORCLOVER_TOO_MANY_RECORDS, 4095, 1);
    map_fetch_refused(&m, DOORCLOVER_TOO_MANY_RECORDS, 128, 3968);
    map_fetch(&m, 128, 0, 0, 0);
    map_fetch(&m, 126, 1, 0, 1);
    map_fetch(&m, 127, 1, 1, 0); /* it touches the last one */
    map_fetch_refused(&m, DOORCLOVER_TOO_MANY_RECORDS, 200, 1);
    map_fetch(&m, 0, 3, 1, 2);
    map_fetch(&m, 200, 1, 1, 0);
    map_fetch_refused(&m, DOORCLOVER_TOO_MANY_RECORDS, 202, 1);
    map_fetch(&m, 3, 1, 1, 0); /* it touches two */
    map_fetch(&m, 202, 1, 1, 0);
    change_window(&m);
    map_fetch(&m, 0, 126, 61, 65);
    map_end(&m, 3, 130);
    map_begin(&m);
    for (size_t i = 0; i < DOORCLOVER_RECORDS; i++)
        map_fetch(&m, 64 * i + i, 1, 1, 0); /* one in each word, the last at the last address */
    map_fetch_refused(&m, DOORCLOVER_TOO_MANY_RECORDS, 2, 1);
    map_fetch(&m, 0, 4096, 4032, 64);
    map_end(&m, 1, 4096);
}

void test_map_end(void)
{
    map_desk m = fresh_map_desk();
    map_end_refused(&m, DOORCLOVER_COMMAND_NOT_OPEN);
    break_map(&m);
    map_end_refused(&m, DOORCLOVER_STATE_BROKEN); /* both: the lower number */
    mend_map(&m);
    map_begin(&m);
    map_fetch(&m, 0, 9, 9, 0);
    map_fetch(&m, 64, 64, 64, 0);
    map_fetch(&m, 4000, 90, 90, 0);
    break_map(&m);
    map_end_refused(&m, DOORCLOVER_STATE_BROKEN);
    mend_map(&m);
    map_end(&m, 3, 163);
    map_end_refused(&m, DOORCLOVER_COMMAND_NOT_OPEN);
    map_begin(&m);
    map_fetch(&m, 0, 9, 9, 0); /* nothing is held any more */
    map_end(&m, 1, 9);
}

/* What was written is given from then on, over what was held before too, whatever the host puts there. */
void test_map_own_write(void)
{
    map_desk m = fresh_map_desk();
    map_desk four = with_bytes(m, lend(4, 0x99)), two = with_bytes(m, lend(2, 0x77));
    map_desk zeros = with_bytes(m, lend(3, 0));
    map_begin(&m);
    map_fetch(&m, 62, 4, 4, 0);
    map_own_write(&four, 64, 2); /* 64 and 65 are held, 66 and 67 are not */
    change_window(&m);
    map_fetch(&m, 64, 6, 2, 4);
    CHECK(memcmp(m.destination->bytes, "\x99\x99\x99\x99", 4) == 0);
    map_own_write(&two, 65, 0); /* over what was fetched or written */
    change_window(&m);
    map_fetch(&m, 64, 4, 0, 4);
    CHECK(memcmp(m.destination->bytes, "\x99\x77\x77\x99", 4) == 0);
    map_own_write(&zeros, 200, 3); /* a held byte may be zero */
    change_window(&m);
    map_fetch(&m, 200, 3, 0, 3);
    CHECK(memcmp(m.destination->bytes, "\0\0\0", 3) == 0);
    map_end(&m, 2, 11); /* the sum of fresh: 4, 2, 2 and 3 */
    map_begin(&m); /* the next command knows nothing of it */
    map_fetch(&m, 62, 8, 8, 0);
    CHECK(memcmp(m.destination->bytes, m.window->bytes + 62, 8) == 0);
    map_end(&m, 1, 8);
}

/* Spans over the edges of words are written anew and written over. */
void test_map_own_write_words(void)
{
    map_desk m = fresh_map_desk();
    lent first = *lend(4096, 0x99), second = *lend(4096, 0x77);
    map_desk anew = with_bytes(m, &first), over = with_bytes(m, &second);
    for (size_t i = 0; i < SPANS; i++) {
        size_t address = spans[i][0], length = spans[i][1];
        first.size = second.size = length;
        map_begin(&m);
        map_own_write(&anew, address, length);
        change_window(&m);
        map_fetch(&m, address, length, 0, length);
        CHECK(memcmp(m.destination->bytes, first.bytes, length) == 0);
        map_own_write(&over, address, 0);
        change_window(&m);
        map_fetch(&m, address, length, 0, length);
        CHECK(memcmp(m.destination->bytes, second.bytes, length) == 0);
        map_end(&m, 1, length);
    }
}

/* Held and other bytes by turns are written at once. */
void test_map_own_write_mixed(void)
{
    map_desk m = fresh_map_desk();
    lent all = *lend(4096, 0x99);
    map_desk many = with_bytes(m, &all);
    for (size_t step = 2; step <= 65; step++) {
        all.size = 39 * step + 20;
        map_begin(&m);
        for (size_t i = 0; i < 40; i++)
            map_fetch(&m, 30 + step * i, 1, 1, 0);
        map_own_write(&many, 20, 39 * step - 20);
        change_window(&m);
        map_fetch(&m, 19, 39 * step + 22, 2, 39 * step + 20);
        CHECK(memcmp(m.destination->bytes + 1, all.bytes, all.size) == 0);
        map_end(&m, 1, 39 * step + 22);
    }
}

void test_map_own_write_joins(void)
{
    map_desk m = fresh_map_desk();
    map_desk one = with_bytes(m, lend(1, 0x11)), six = with_bytes(m, lend(6, 0x22));
    map_begin(&m);
    map_own_write(&one, 62, 1);
    map_own_write(&one, 64, 1); /* one address between */
    map_end(&m, 2, 2);
    map_begin(&m);
    map_own_write(&one, 63, 1);
    map_own_write(&one, 64, 1); /* they touch over the edge of a word, and are one */
    map_own_write(&m, 65, 0); /* no byte: nothing is joined or held */
    map_own_write(&m, 4096, 0);
    map_end(&m, 1, 2);
    map_begin(&m);
    map_fetch(&m, 16, 4, 4, 0);
    map_fetch(&m, 26, 4, 4, 0);
    map_own_write(&six, 20, 6); /* between two */
    map_own_write(&six, 27, 3);
    map_own_write(&six, 4090, 6);
    map_end(&m, 2, 23);
}

/* Every fault at once, and then one after the other is mended: the first in order is given. */
static void own_ladder(map_desk m)
{
    map_desk e = with_bytes(m, lend(DOORCLOVER_TRANSFER + 1, 0x11));
    size_t address = SIZE_MAX;
    e.window = lend(DOORCLOVER_MAP_ADDRESSES + 1, 2);
    break_map(&e);
    map_own_refused(&e, DOORCLOVER_LENGTH_TOO_LONG, address);
    e.bytes = lend(9, 0x99);
    map_own_refused(&e, DOORCLOVER_WINDOW_BEYOND_MAP, address);
    e.window = m.window;
    map_own_refused(&e, DOORCLOVER_OUTSIDE_WINDOW, address);
    address = 4096 - 9;
    map_own_refused(&e, DOORCLOVER_STATE_BROKEN, address);
    mend_map(&e);
    map_own_refused(&e, DOORCLOVER_COMMAND_NOT_OPEN, address);
    map_begin(&e);
    hold_64(&e);
    map_own_refused(&e, DOORCLOVER_TOO_MANY_RECORDS, address);
    map_fetch(&e, 1, 1, 1, 0);
    map_own_write(&e, address, 9);
    map_end(&e, 64, 74);
}

void test_map_own_write_refused(void)
{
    map_desk m = fresh_map_desk();
    map_desk two = with_bytes(m, lend(2, 0x99)), longer = with_bytes(m, lend(4097, 0x11));
    map_desk wider = with_window(two, lend(DOORCLOVER_MAP_ADDRESSES + 1, 7));
    map_desk none = with_bytes(wider, m.bytes), shorter = with_window(two, lend(20, 7));
    own_ladder(m);
    map_begin(&m);
    map_own_refused(&longer, DOORCLOVER_LENGTH_TOO_LONG, 0);
    map_own_refused(&wider, DOORCLOVER_WINDOW_BEYOND_MAP, 0);
    map_own_refused(&wider, DOORCLOVER_WINDOW_BEYOND_MAP, 4097); /* and not 9 */
    map_own_refused(&none, DOORCLOVER_WINDOW_BEYOND_MAP, 0);
    map_fetch(&m, 20, 2, 2, 0);
    map_own_refused(&shorter, DOORCLOVER_OUTSIDE_WINDOW, 20); /* held, but past this window */
    map_own_refused(&shorter, DOORCLOVER_OUTSIDE_WINDOW, 19);
    map_own_write(&shorter, 18, 2);
    map_own_refused(&two, DOORCLOVER_OUTSIDE_WINDOW, 4095);
    map_own_refused(&two, DOORCLOVER_OUTSIDE_WINDOW, SIZE_MAX);
    map_own_refused(&two, DOORCLOVER_OUTSIDE_WINDOW, SIZE_MAX - 1);
    map_own_refused(&m, DOORCLOVER_OUTSIDE_WINDOW, 4097);
    map_end(&m, 1, 4);
    map_own_refused(&two, DOORCLOVER_COMMAND_NOT_OPEN, 0);
    map_own_refused(&m, DOORCLOVER_COMMAND_NOT_OPEN, 0);
}

/* Where there is no room, map and window stay as they were. */
void test_map_own_write_full(void)
{
    map_desk m = fresh_map_desk();
    map_desk one = with_bytes(m, lend(1, 0x99)), many = with_bytes(m, lend(3968, 0x77));
    map_desk all = with_bytes(m, lend(4096, 0x55));
    map_begin(&m);
    hold_64(&m);
    map_own_refused(&one, DOORCLOVER_TOO_MANY_RECORDS, 128);
    map_own_refused(&one, DOORCLOVER_TOO_MANY_RECORDS, 4095);
    map_own_refused(&many, DOORCLOVER_TOO_MANY_RECORDS, 128);
    map_own_write(&m, 128, 0);
    map_own_write(&one, 126, 0); /* what is held has its room */
    map_own_write(&one, 127, 1); /* it touches the last one */
    map_own_refused(&one, DOORCLOVER_TOO_MANY_RECORDS, 200);
    map_own_write(&one, 1, 1); /* it touches two */
    map_own_write(&one, 200, 1);
    map_own_refused(&one, DOORCLOVER_TOO_MANY_RECORDS, 202);
    map_own_write(&many, 128, 3967);
    map_own_write(&all, 0, 62);
    map_end(&m, 1, 4096);
}

void test_map_nulls(void)
{
    map_desk m = fresh_map_desk();
    map_desk no_window = with_window(m, &nothing);
    map_desk no_room = with_destination(m, &nothing);
    map_desk neither = with_destination(no_window, &nothing);
    map_fetch_refused(&neither, DOORCLOVER_COMMAND_NOT_OPEN, 0, 0);
    map_begin(&m);
    map_fetch(&m, 0, 4, 4, 0);
    map_fetch(&no_window, 0, 0, 0, 0);
    map_fetch(&no_room, 4096, 0, 0, 0);
    map_fetch(&neither, 0, 0, 0, 0);
    map_fetch_refused(&neither, DOORCLOVER_OUTSIDE_WINDOW, 0, 1);
    map_fetch_refused(&neither, DOORCLOVER_OUTSIDE_WINDOW, 1, 0);
    map_fetch_refused(&no_room, DOORCLOVER_BUFFER_TOO_SHORT, 0, 1);
    neither.bytes = &nothing;
    map_own_write(&neither, 0, 0);
    map_own_refused(&neither, DOORCLOVER_OUTSIDE_WINDOW, 1);
    neither.bytes = lend(1, 1);
    map_own_refused(&neither, DOORCLOVER_OUTSIDE_WINDOW, 0);
    neither.window = m.window;
    neither.bytes = &nothing;
    map_own_write(&neither, 4096, 0);
    map_end(&m, 1, 4);
}
