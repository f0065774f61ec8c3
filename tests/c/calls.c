/* The calls: what they do, and what they refuse. */
#include "desk.h"
#include "tests.h"

#include <stdint.h>
#include <string.h>

/* The desk with another store, window, destination or bytes. */
static desk with_store(desk d, lent *l) { d.store = l; return d; }
static desk with_window(desk d, lent *l) { d.window = l; return d; }
static desk with_destination(desk d, lent *l) { d.destination = l; return d; }
static desk with_bytes(desk d, lent *l) { d.bytes = l; return d; }

/* Were these the bytes of the host at an address? */
static int delivered(const desk *d, size_t address, size_t length)
{
    for (size_t i = 0; i < length; i++)
        if (d->destination->bytes[i] != host_byte(address + i))
            return 0;
    return 1;
}

void test_fresh(void)
{
    lent *l = lend(sizeof(doorclover_state), 0xff);
    keep_all();
    doorclover_fresh((doorclover_state *)(void *)l->bytes);
    for (size_t i = 0; i < l->size; i++)
        CHECK(l->bytes[i] == 0);
    allow(l, 0, l->size);
    CHECK(all_kept());
    CHECK(doorclover_release() == DOORCLOVER_RELEASE);
}

void test_begin(void)
{
    desk d = fresh_desk();
    for (size_t c = 0; c < DOORCLOVER_COMMANDS; c++)
        begin(&d, c);
    for (size_t c = 0; c < DOORCLOVER_COMMANDS; c++)
        CHECK(words_of(&d, c)[0] == 1);
}

void test_begin_refused(void)
{
    desk d = fresh_desk();
    desk below = with_store(d, lend(DOORCLOVER_STORE - 1, 1));
    desk above = with_store(d, lend(DOORCLOVER_STORE + 1, 1));
    desk none = with_store(d, &nothing);
    begin(&d, 3);
    begin_refused(&d, DOORCLOVER_COMMAND_ALREADY_OPEN, 3);
    break_words(&d);
    begin_refused(&d, DOORCLOVER_STATE_BROKEN, 3);
    begin_refused(&d, DOORCLOVER_STATE_BROKEN, 4);
    begin_refused(&below, DOORCLOVER_STORE_WRONG_SIZE, 3);
    begin_refused(&above, DOORCLOVER_STORE_WRONG_SIZE, 3);
    begin_refused(&none, DOORCLOVER_STORE_WRONG_SIZE, 3);
    for (size_t i = 0; i < TOO_HIGH; i++) {
        begin_refused(&below, DOORCLOVER_COMMAND_TOO_HIGH, too_high[i]);
        begin_refused(&d, DOORCLOVER_COMMAND_TOO_HIGH, too_high[i]);
    }
}

void test_fetch(void)
{
    desk d = fresh_desk();
    begin(&d, 3);
    fetch(&d, 3, 16, 4, 4, 0);
    CHECK(delivered(&d, 16, 4));
    memset(d.window->bytes + 16, 0, 4); /* the host changes what was fetched */
    fetch(&d, 3, 14, 8, 4, 4);
    CHECK(delivered(&d, 14, 8));
    CHECK(memcmp(d.store->bytes + 3 * DOORCLOVER_HELD, d.destination->bytes, 8) == 0);
    memset(d.window->bytes, 0, 64);
    fetch(&d, 3, 14, 8, 0, 8);
    CHECK(delivered(&d, 14, 8));
    begin(&d, 4); /* another command sees the host's new bytes */
    fetch(&d, 4, 16, 4, 4, 0);
    CHECK(memcmp(d.destination->bytes, "\0\0\0\0", 4) == 0);
    fetch(&d, 4, 16383, 1, 1, 0);
    CHECK(delivered(&d, 16383, 1));
    fetch(&d, 4, 16384, 0, 0, 0);
}

void test_fetch_joins(void)
{
    desk d = fresh_desk();
    begin(&d, 0);
    fetch(&d, 0, 0, 4, 4, 0);
    fetch(&d, 0, 4, 4, 4, 0);
    show(&d, 0, 0, 0, 8); /* they touch, and are one */
    show_refused(&d, DOORCLOVER_NO_SUCH_RECORD, 0, 1);
    fetch(&d, 0, 2, 4, 0, 4);
    show(&d, 0, 0, 0, 8);
    show_refused(&d, DOORCLOVER_NO_SUCH_RECORD, 0, 1);
    fetch(&d, 0, 100, 10, 10, 0);
    fetch(&d, 0, 50, 1, 1, 0);
    fetch(&d, 0, 7, 100, 91, 9); /* held: 7, 50 and 100 to 106 */
    CHECK(delivered(&d, 7, 100));
    show(&d, 0, 0, 0, 110);
    end(&d, 0, 1, 110);
}

void test_fetch_touches(void)
{
    desk d = fresh_desk();
    begin(&d, 0);
    fetch(&d, 0, 16, 4, 4, 0);
    fetch(&d, 0, 26, 4, 4, 0);
    fetch(&d, 0, 20, 0, 0, 0); /* no byte: nothing is joined */
    fetch(&d, 0, 20, 2, 2, 0); /* where a record ends */
    show(&d, 0, 0, 16, 6);
    fetch(&d, 0, 25, 1, 1, 0); /* where one starts */
    show(&d, 0, 0, 16, 6);
    show(&d, 0, 1, 25, 5);
    fetch(&d, 0, 22, 3, 3, 0); /* between two */
    CHECK(delivered(&d, 22, 3));
    show(&d, 0, 0, 16, 14);
    show_refused(&d, DOORCLOVER_NO_SUCH_RECORD, 0, 1);
    fetch(&d, 0, 15, 1, 1, 0);
    fetch(&d, 0, 31, 1, 1, 0); /* one address between */
    show(&d, 0, 0, 15, 15);
    show(&d, 0, 1, 31, 1);
    end(&d, 0, 2, 16);
    begin(&d, 5); /* a descriptor of 64 bytes in eight loads */
    for (size_t i = 0; i < 8; i++)
        fetch(&d, 5, 64 + 8 * i, 8, 8, 0);
    show(&d, 5, 0, 64, 64);
    end(&d, 5, 1, 64);
}

/* Begins a command and has it hold 10+4, 20+4 and 30+4. */
static void hold_three(const desk *d, size_t command)
{
    begin(d, command);
    for (size_t start = 10; start <= 30; start += 10)
        fetch(d, command, start, 4, 4, 0);
}

/* Fetches among these three records: what they reply, and how many records there are then. */
static const struct {
    size_t address, length, fresh, replayed, looked_at, records;
} among_three[] = {
    {0, 9, 9, 0, 1, 4},     /* 10 is above 9: it is looked at, and ends the search */
    {0, 10, 10, 0, 2, 3},   /* 10 is not above 10, and is passed; 20 ends it */
    {10, 1, 0, 1, 2, 3},    /* 10, and 20 ends it, though all is held */
    {12, 7, 5, 2, 2, 3},    /* 20 is above 19 */
    {12, 8, 6, 2, 3, 2},    /* 20 is not above 20; 30 ends it */
    {12, 17, 11, 6, 3, 2},  /* 30 is above 29 */
    {12, 18, 12, 6, 3, 1},  /* 30 is not above 30: none is, and all three are looked at */
    {31, 2, 0, 2, 3, 3},    /* nor above 33 */
    {40, 5, 5, 0, 3, 4},    /* nor above 45 */
    {16383, 1, 1, 0, 3, 4}, /* nor above 16,384 */
    {0, 0, 0, 0, 0, 3},     /* no byte: no record is looked at, wherever it stands */
    {10, 0, 0, 0, 0, 3},
    {34, 0, 0, 0, 0, 3},
    {16384, 0, 0, 0, 0, 3},
};

void test_fetch_looked_at(void)
{
    desk d = fresh_desk(), longest = with_window(d, lend(DOORCLOVER_WINDOW, 7));
    for (size_t i = 0; i < sizeof among_three / sizeof among_three[0]; i++) {
        size_t fresh = among_three[i].fresh;
        hold_three(&d, 0);
        CHECK(fetch(&d, 0, among_three[i].address, among_three[i].length, fresh,
                    among_three[i].replayed) == among_three[i].looked_at);
        end(&d, 0, among_three[i].records, 12 + fresh);
    }
    hold_three(&d, 0);
    begin(&d, 1);
    CHECK(fetch(&d, 1, 0, 40, 40, 0) == 0); /* it has none, though another command has three */
    CHECK(fetch(&d, 0, 0, 40, 28, 12) == 3); /* the three that it joins */
    CHECK(fetch(&d, 0, 0, 40, 0, 40) == 1); /* and what they have become */
    begin(&d, 2);
    CHECK(fetch(&longest, 2, 65535, 1, 1, 0) == 0);
    CHECK(fetch(&longest, 2, 9, 1, 1, 0) == 1); /* 65,535 is above 10 */
    CHECK(fetch(&longest, 2, 5, 1, 1, 0) == 1); /* 9 is above 6 */
    CHECK(fetch(&longest, 2, 65535, 1, 0, 1) == 3); /* none is above 65,536, which does not wrap */
}

/* Of 64 records a fetch within one looks at those up to it and at the next, if there is one. */
void test_fetch_looked_at_64(void)
{
    desk d = fresh_desk();
    begin(&d, 7);
    for (size_t i = 1; i < DOORCLOVER_RECORDS; i++)
        CHECK(fetch(&d, 7, 4 * i, 2, 2, 0) == i - 1); /* all that there are by then */
    CHECK(fetch(&d, 7, 0, 2, 2, 0) == 1); /* 4 is above 2 */
    for (size_t i = 0; i < DOORCLOVER_RECORDS - 1; i++)
        CHECK(fetch(&d, 7, 4 * i, 2, 0, 2) == i + 2);
    CHECK(fetch(&d, 7, 252, 2, 0, 2) == 64);
    fetch_refused(&d, DOORCLOVER_TOO_MANY_RECORDS, 7, 300, 1); /* it would look at all, and replies 0 */
    CHECK(fetch(&d, 7, 254, 1, 1, 0) == 64); /* it touches the last */
    CHECK(fetch(&d, 7, 2, 2, 2, 0) == 3); /* 0, 4, where it ends, and 8; it joins the first two */
    CHECK(fetch(&d, 7, 0, 256, 125, 131) == 63); /* all, and joins them */
    CHECK(fetch(&d, 7, 0, 256, 0, 256) == 1);
    end(&d, 7, 1, 256);
}

/* Every fault at once, and then one after the other is mended: the lowest number is given. */
static void fetch_ladder(desk d)
{
    desk e = d;
    size_t command = 8, address = SIZE_MAX, length = DOORCLOVER_TRANSFER + 1;
    e.store = lend(DOORCLOVER_STORE - 1, 1);
    e.window = lend(DOORCLOVER_WINDOW + 1, 2);
    e.destination = lend(9, 3);
    break_words(&e);
    fetch_refused(&e, DOORCLOVER_LENGTH_TOO_LONG, command, address, length);
    length = 10;
    fetch_refused(&e, DOORCLOVER_COMMAND_TOO_HIGH, command, address, length);
    command = 5;
    fetch_refused(&e, DOORCLOVER_WINDOW_TOO_LONG, command, address, length);
    e.window = d.window;
    fetch_refused(&e, DOORCLOVER_STORE_WRONG_SIZE, command, address, length);
    e.store = d.store;
    fetch_refused(&e, DOORCLOVER_OUTSIDE_WINDOW, command, address, length);
    address = 16384 - 10;
    fetch_refused(&e, DOORCLOVER_BUFFER_TOO_SHORT, command, address, length);
    length = 9;
    fetch_refused(&e, DOORCLOVER_STATE_BROKEN, command, address, length);
    mend_words(&e);
    fetch_refused(&e, DOORCLOVER_COMMAND_NOT_OPEN, command, address, length);
    begin(&e, command);
    fetch(&e, command, address, length, 9, 0);
}

void test_fetch_refused(void)
{
    desk d = fresh_desk();
    desk longest = with_window(d, lend(DOORCLOVER_WINDOW, 7));
    desk above = with_store(d, lend(DOORCLOVER_STORE + 1, 1));
    desk no_room = with_destination(d, &nothing);
    fetch_ladder(d);
    begin(&d, 1);
    fetch(&longest, 1, 65535, 1, 1, 0);
    fetch_refused(&longest, DOORCLOVER_OUTSIDE_WINDOW, 1, 65535, 2);
    fetch_refused(&d, DOORCLOVER_OUTSIDE_WINDOW, 1, 65535, 1); /* held, but past this window */
    fetch_refused(&d, DOORCLOVER_OUTSIDE_WINDOW, 1, 16384, 1);
    fetch_refused(&d, DOORCLOVER_OUTSIDE_WINDOW, 1, 16385, 0);
    for (size_t length = 0; length <= DOORCLOVER_TRANSFER; length += 512)
        fetch_refused(&d, DOORCLOVER_OUTSIDE_WINDOW, 1, SIZE_MAX - length + 1 - !length, length);
    fetch_refused(&d, DOORCLOVER_LENGTH_TOO_LONG, 1, 0, SIZE_MAX);
    fetch_refused(&above, DOORCLOVER_STORE_WRONG_SIZE, 1, 0, 1);
    fetch_refused(&no_room, DOORCLOVER_BUFFER_TOO_SHORT, 1, 0, 1);
    for (size_t i = 0; i < TOO_HIGH; i++)
        fetch_refused(&d, DOORCLOVER_COMMAND_TOO_HIGH, too_high[i], 0, 1);
}

void test_fetch_full(void)
{
    desk d = fresh_desk();
    begin(&d, 0);
    fetch(&d, 0, 0, 4096, 4096, 0);
    fetch_refused(&d, DOORCLOVER_TOO_MANY_BYTES, 0, 4096, 1);
    fetch_refused(&d, DOORCLOVER_TOO_MANY_BYTES, 0, 1, 4096);
    fetch(&d, 0, 0, 4096, 0, 4096);
    CHECK(delivered(&d, 0, 4096));
    begin(&d, 7);
    for (size_t i = 0; i < DOORCLOVER_RECORDS; i++)
        fetch(&d, 7, 2 * i, 1, 1, 0);
    fetch_refused(&d, DOORCLOVER_TOO_MANY_RECORDS, 7, 128, 1);
    fetch_refused(&d, DOORCLOVER_TOO_MANY_BYTES, 7, 128, 4096); /* both: the lower number */
    fetch(&d, 7, 127, 1, 1, 0); /* it touches the last one */
    fetch_refused(&d, DOORCLOVER_TOO_MANY_RECORDS, 7, 200, 1);
    fetch(&d, 7, 0, 3, 1, 2);
    CHECK(delivered(&d, 0, 3));
    fetch(&d, 7, 200, 1, 1, 0);
    fetch_refused(&d, DOORCLOVER_TOO_MANY_RECORDS, 7, 202, 1);
    fetch(&d, 7, 3, 1, 1, 0); /* it touches two */
    fetch(&d, 7, 202, 1, 1, 0);
    end(&d, 7, 64, 69);
    end(&d, 0, 1, 4096);
}

void test_end(void)
{
    desk d = fresh_desk();
    for (size_t c = 0; c < DOORCLOVER_COMMANDS; c++) {
        begin(&d, c);
        fetch(&d, c, 10 * c, 5, 5, 0);
        fetch(&d, c, 1000, c, c, 0);
    }
    for (size_t c = 0; c < DOORCLOVER_COMMANDS; c++)
        end(&d, c, c == 0 ? 1 : 2, 5 + c);
    begin(&d, 0);
    end(&d, 0, 0, 0);
}

void test_end_refused(void)
{
    desk d = fresh_desk();
    desk below = with_store(d, lend(DOORCLOVER_STORE - 1, 1));
    desk above = with_store(d, lend(DOORCLOVER_STORE + 1, 1));
    desk none = with_store(d, &nothing);
    end_refused(&d, DOORCLOVER_COMMAND_NOT_OPEN, 3);
    begin(&d, 2);
    fetch(&d, 2, 0, 9, 9, 0);
    end_refused(&d, DOORCLOVER_COMMAND_NOT_OPEN, 3);
    break_words(&d);
    end_refused(&d, DOORCLOVER_STATE_BROKEN, 2);
    end_refused(&d, DOORCLOVER_STATE_BROKEN, 3);
    end_refused(&below, DOORCLOVER_STORE_WRONG_SIZE, 2);
    end_refused(&above, DOORCLOVER_STORE_WRONG_SIZE, 2);
    end_refused(&none, DOORCLOVER_STORE_WRONG_SIZE, 2);
    for (size_t i = 0; i < TOO_HIGH; i++)
        end_refused(&none, DOORCLOVER_COMMAND_TOO_HIGH, too_high[i]);
}

void test_host_write(void)
{
    desk d = fresh_desk();
    desk all = with_bytes(d, lend(DOORCLOVER_TRANSFER, 0x11));
    desk one = with_bytes(d, lend(1, 0x22));
    desk far = with_window(one, lend(DOORCLOVER_WINDOW, 0));
    host_write(&all, 0);
    host_write(&all, 16384 - DOORCLOVER_TRANSFER);
    host_write(&one, 16383);
    host_write(&far, 65535);
    host_write(&d, 16384); /* no bytes, at the very end */
}

void test_host_write_refused(void)
{
    desk d = with_bytes(fresh_desk(), lend(2, 0x11));
    desk longer = with_bytes(d, lend(DOORCLOVER_TRANSFER + 1, 0x11));
    desk wider = with_window(d, lend(DOORCLOVER_WINDOW + 1, 0));
    desk both = with_window(longer, wider.window);
    host_refused(&both, DOORCLOVER_LENGTH_TOO_LONG, SIZE_MAX);
    host_refused(&longer, DOORCLOVER_LENGTH_TOO_LONG, 0);
    host_refused(&wider, DOORCLOVER_WINDOW_TOO_LONG, SIZE_MAX);
    host_refused(&wider, DOORCLOVER_WINDOW_TOO_LONG, 0);
    host_refused(&d, DOORCLOVER_OUTSIDE_WINDOW, 16383);
    host_refused(&d, DOORCLOVER_OUTSIDE_WINDOW, SIZE_MAX);
    host_refused(&d, DOORCLOVER_OUTSIDE_WINDOW, SIZE_MAX - 1);
}

/* The host puts back what a fresh desk has there. */
static void put_back(const desk *d, size_t address, size_t length)
{
    for (size_t i = 0; i < length; i++)
        d->window->bytes[address + i] = host_byte(address + i);
}

/* What was written is given from then on, over what was held before too, whatever the host puts there. */
void test_own_write(void)
{
    desk d = fresh_desk();
    desk four = with_bytes(d, lend(4, 0x99)), two = with_bytes(d, lend(2, 0x77));
    begin(&d, 6);
    fetch(&d, 6, 16, 4, 4, 0);
    own_write(&four, 6, 18, 2); /* 18 and 19 are held, 20 and 21 are not */
    put_back(&d, 18, 4);
    fetch(&d, 6, 14, 4, 2, 2);
    CHECK(delivered(&d, 14, 4));
    fetch(&d, 6, 18, 6, 2, 4);
    CHECK(memcmp(d.destination->bytes, "\x99\x99\x99\x99", 4) == 0);
    CHECK(d.destination->bytes[4] == host_byte(22) && d.destination->bytes[5] == host_byte(23));
    own_write(&two, 6, 19, 0); /* over what was fetched or written */
    put_back(&d, 18, 4);
    fetch(&d, 6, 18, 4, 0, 4);
    CHECK(memcmp(d.destination->bytes, "\x99\x77\x77\x99", 4) == 0);
    end(&d, 6, 1, 10); /* the sum of fresh: 4, 2, 2, 2, 0 and 0 */
    begin(&d, 6); /* the next command knows nothing of it */
    fetch(&d, 6, 14, 10, 10, 0);
    CHECK(delivered(&d, 14, 10));
}

/* Another command is given what it holds, or else what is in the window. */
void test_own_write_alone(void)
{
    desk d = fresh_desk();
    desk two = with_bytes(d, lend(2, 0x99));
    for (size_t c = 1; c <= 4; c++)
        begin(&d, c);
    fetch(&d, 1, 16, 2, 2, 0);
    own_write(&two, 2, 16, 2);
    fetch(&d, 1, 16, 2, 0, 2);
    CHECK(delivered(&d, 16, 2));
    fetch(&d, 3, 16, 2, 2, 0);
    CHECK(memcmp(d.destination->bytes, "\x99\x99", 2) == 0);
    put_back(&d, 16, 2);
    fetch(&d, 4, 16, 2, 2, 0);
    CHECK(delivered(&d, 16, 2));
    fetch(&d, 2, 16, 2, 0, 2);
    CHECK(memcmp(d.destination->bytes, "\x99\x99", 2) == 0);
    host_write(&two, 20); /* the host's writes are held by nobody */
    show(&d, 2, 0, 16, 2);
    for (size_t c = 1; c <= 4; c++)
        end(&d, c, 1, 2);
}

/* The records become those that a fetch of the span makes. */
void test_own_write_joins(void)
{
    desk d = fresh_desk();
    desk one = with_bytes(d, lend(1, 0x11)), four = with_bytes(d, lend(4, 0x22));
    desk many = with_bytes(d, lend(100, 0x33));
    begin(&d, 0);
    own_write(&four, 0, 16, 4);
    own_write(&four, 0, 26, 4);
    own_write(&one, 0, 20, 1); /* where a record ends */
    show(&d, 0, 0, 16, 5);
    own_write(&one, 0, 25, 1); /* where one starts */
    show(&d, 0, 0, 16, 5);
    show(&d, 0, 1, 25, 5);
    own_write(&four, 0, 21, 4); /* between two */
    show(&d, 0, 0, 16, 14);
    show_refused(&d, DOORCLOVER_NO_SUCH_RECORD, 0, 1);
    own_write(&one, 0, 31, 1); /* one address between */
    show(&d, 0, 1, 31, 1);
    fetch(&d, 0, 30, 1, 1, 0);
    CHECK(delivered(&d, 30, 1));
    show(&d, 0, 0, 16, 16);
    fetch(&d, 0, 50, 4, 4, 0);
    own_write(&many, 0, 0, 80); /* over two records */
    show(&d, 0, 0, 0, 100);
    own_write(&many, 0, 16384 - 100, 100);
    end(&d, 0, 2, 200);
}

/* A length of 0 writes nothing, holds nothing and joins nothing, wherever it stands. */
void test_own_write_of_none(void)
{
    desk d = fresh_desk();
    begin(&d, 0);
    own_write(&d, 0, 0, 0);
    own_write(&d, 0, 16384, 0);
    show_refused(&d, DOORCLOVER_NO_SUCH_RECORD, 0, 0);
    fetch(&d, 0, 16, 4, 4, 0);
    fetch(&d, 0, 22, 4, 4, 0);
    for (size_t address = 14; address < 28; address++)
        own_write(&d, 0, address, 0);
    end(&d, 0, 2, 8);
}

/* Every fault at once, and then one after the other is mended: the lowest number is given. */
static void own_ladder(desk d)
{
    desk e = with_bytes(d, lend(DOORCLOVER_TRANSFER + 1, 0x11));
    size_t command = 8, address = SIZE_MAX;
    e.store = lend(DOORCLOVER_STORE - 1, 1);
    e.window = lend(DOORCLOVER_WINDOW + 1, 2);
    break_words(&e);
    own_refused(&e, DOORCLOVER_LENGTH_TOO_LONG, command, address);
    e.bytes = lend(9, 0x99);
    own_refused(&e, DOORCLOVER_COMMAND_TOO_HIGH, command, address);
    command = 5;
    own_refused(&e, DOORCLOVER_WINDOW_TOO_LONG, command, address);
    e.window = d.window;
    own_refused(&e, DOORCLOVER_STORE_WRONG_SIZE, command, address);
    e.store = d.store;
    own_refused(&e, DOORCLOVER_OUTSIDE_WINDOW, command, address);
    address = 16384 - 9;
    own_refused(&e, DOORCLOVER_STATE_BROKEN, command, address);
    mend_words(&e);
    own_refused(&e, DOORCLOVER_COMMAND_NOT_OPEN, command, address);
    begin(&e, command);
    own_write(&e, command, address, 9);
}

void test_own_write_refused(void)
{
    desk d = fresh_desk();
    desk two = with_bytes(d, lend(2, 0x99));
    desk longer = with_bytes(d, lend(DOORCLOVER_TRANSFER + 1, 0x11));
    desk wider = with_window(two, lend(DOORCLOVER_WINDOW + 1, 0));
    lent *stores[] = {lend(DOORCLOVER_STORE - 1, 1), lend(DOORCLOVER_STORE + 1, 1), &nothing};
    own_ladder(d);
    begin(&d, 1);
    fetch(&d, 1, 16, 2, 2, 0);
    for (size_t i = 0; i < 3; i++) { /* where all is held and where nothing is written, too */
        desk held = with_store(two, stores[i]), none = with_store(d, stores[i]);
        own_refused(&held, DOORCLOVER_STORE_WRONG_SIZE, 1, 16);
        own_refused(&none, DOORCLOVER_STORE_WRONG_SIZE, 1, 0);
    }
    own_refused(&longer, DOORCLOVER_LENGTH_TOO_LONG, 1, 0);
    own_refused(&wider, DOORCLOVER_WINDOW_TOO_LONG, 1, 0);
    own_refused(&two, DOORCLOVER_OUTSIDE_WINDOW, 1, 16383);
    own_refused(&two, DOORCLOVER_OUTSIDE_WINDOW, 1, SIZE_MAX);
    own_refused(&two, DOORCLOVER_OUTSIDE_WINDOW, 1, SIZE_MAX - 1);
    own_refused(&d, DOORCLOVER_OUTSIDE_WINDOW, 1, 16385);
    own_refused(&two, DOORCLOVER_COMMAND_NOT_OPEN, 0, 0);
    own_refused(&d, DOORCLOVER_COMMAND_NOT_OPEN, 0, 0);
    for (size_t i = 0; i < TOO_HIGH; i++)
        own_refused(&two, DOORCLOVER_COMMAND_TOO_HIGH, too_high[i], 0);
}

/* Where there is no room, state, store and window stay as they were. */
void test_own_write_full(void)
{
    desk d = fresh_desk();
    desk one = with_bytes(d, lend(1, 0x99)), all = with_bytes(d, lend(DOORCLOVER_TRANSFER, 0x77));
    begin(&d, 0);
    own_write(&all, 0, 0, 4096);
    own_refused(&one, DOORCLOVER_TOO_MANY_BYTES, 0, 4096);
    own_refused(&all, DOORCLOVER_TOO_MANY_BYTES, 0, 1);
    fetch_refused(&d, DOORCLOVER_TOO_MANY_BYTES, 0, 4096, 1);
    own_write(&one, 0, 4095, 0); /* what is held has its room */
    own_write(&all, 0, 0, 0);
    begin(&d, 7);
    for (size_t i = 0; i < DOORCLOVER_RECORDS; i++)
        own_write(&one, 7, 2 * i, 1);
    own_refused(&one, DOORCLOVER_TOO_MANY_RECORDS, 7, 128);
    own_refused(&all, DOORCLOVER_TOO_MANY_BYTES, 7, 128); /* both: the lower number */
    fetch_refused(&d, DOORCLOVER_TOO_MANY_RECORDS, 7, 128, 1);
    own_write(&d, 7, 200, 0);
    own_write(&one, 7, 127, 1); /* it touches the last one */
    own_refused(&one, DOORCLOVER_TOO_MANY_RECORDS, 7, 200);
    own_write(&one, 7, 1, 1); /* it touches two */
    own_write(&one, 7, 200, 1);
    own_refused(&one, DOORCLOVER_TOO_MANY_RECORDS, 7, 202);
    own_write(&one, 7, 200, 0);
    end(&d, 7, 64, 67);
    end(&d, 0, 1, 4096);
}

void test_show(void)
{
    desk d = fresh_desk();
    desk longest = with_window(d, lend(DOORCLOVER_WINDOW, 7));
    show_refused(&d, DOORCLOVER_COMMAND_NOT_OPEN, 2, 0);
    begin(&d, 2);
    show_refused(&d, DOORCLOVER_NO_SUCH_RECORD, 2, 0);
    fetch(&d, 2, 300, 3, 3, 0);
    fetch(&longest, 2, 65535, 1, 1, 0);
    show(&d, 2, 0, 300, 3);
    show(&d, 2, 1, 65535, 1);
    show_refused(&d, DOORCLOVER_NO_SUCH_RECORD, 2, 2);
    show_refused(&d, DOORCLOVER_NO_SUCH_RECORD, 2, SIZE_MAX);
    show_refused(&d, DOORCLOVER_COMMAND_NOT_OPEN, 3, 2);
    break_words(&d);
    show_refused(&d, DOORCLOVER_STATE_BROKEN, 3, 2);
    show_refused(&d, DOORCLOVER_STATE_BROKEN, 2, 0);
    for (size_t i = 0; i < TOO_HIGH; i++)
        show_refused(&d, DOORCLOVER_COMMAND_TOO_HIGH, too_high[i], 0);
}

void test_nulls(void)
{
    desk d = fresh_desk();
    desk no_window = with_window(d, &nothing);
    desk no_bytes = with_bytes(d, &nothing);
    desk neither = with_bytes(no_window, &nothing);
    desk no_store = with_store(neither, &nothing);
    desk one = with_bytes(no_window, lend(1, 1));
    begin(&d, 0);
    fetch(&d, 0, 0, 4, 4, 0);
    desk empty = with_destination(no_window, &nothing);
    fetch(&empty, 0, 0, 0, 0, 0);
    fetch_refused(&empty, DOORCLOVER_OUTSIDE_WINDOW, 0, 0, 1);
    fetch_refused(&empty, DOORCLOVER_OUTSIDE_WINDOW, 0, 1, 0);
    fetch_refused(&no_store, DOORCLOVER_STORE_WRONG_SIZE, 0, 0, 0);
    host_write(&no_bytes, 5);
    host_write(&neither, 0);
    host_refused(&neither, DOORCLOVER_OUTSIDE_WINDOW, 1);
    host_refused(&one, DOORCLOVER_OUTSIDE_WINDOW, 0);
    own_write(&no_bytes, 0, 5, 0);
    own_write(&neither, 0, 0, 0);
    own_refused(&no_store, DOORCLOVER_STORE_WRONG_SIZE, 0, 0);
    own_refused(&neither, DOORCLOVER_OUTSIDE_WINDOW, 0, 1);
    own_refused(&one, DOORCLOVER_OUTSIDE_WINDOW, 0, 0);
}
