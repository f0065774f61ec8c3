/* The walk over page entries: which spans it gives, what it refuses, and what a refused one keeps. */
#include "desk.h"
#include "tests.h"

#include <stdint.h>
#include <string.h>

#define PAGE ((size_t)DOORCLOVER_PAGE)
#define MOST ((size_t)DOORCLOVER_WALK_TRANSFER)
#define SPANS ((size_t)DOORCLOVER_WALK_SPANS)

/* The command that walks, the bytes of an entry, and a start with 4 bytes of its page behind it. */
enum { COMMAND = 3, ENTRY = 8, NEAR_END = 4092 };

/* Addresses of pages: no two are alike or neighbours, and every byte of an address counts. */
static uint64_t page(size_t i)
{
    return 0xf1e2d3c4b5a69u * (i + 1) * PAGE;
}

/* The host's entry at an address of the window, least byte first. */
static void put_entry(const desk *d, size_t address, uint64_t entry)
{
    for (size_t i = 0; i < ENTRY; i++)
        d->window->bytes[address + i] = (uint8_t)(entry >> 8 * i);
}

static uint64_t entry_at(const desk *d, size_t address)
{
    uint64_t entry = 0;
    for (size_t i = 0; i < ENTRY; i++)
        entry |= (uint64_t)d->window->bytes[address + i] << 8 * i;
    return entry;
}

/* A walk of one page or two. */
static walking direct(uint64_t prp1, uint64_t prp2, size_t transfer)
{
    walking w = {.command = COMMAND, .prp1 = prp1, .prp2 = prp2, .transfer = transfer};
    w.spans = (prp1 % PAGE + transfer - 1) / PAGE + 1;
    w.pages[0] = prp1;
    w.pages[1] = prp2;
    return w;
}

/*
 * A walk of more pages. The host puts their entries into the window, one by one from the list on; the last
 * one of the list's page leads onward if it is not the last of all.
 */
static walking listed(const desk *d, uint64_t prp1, size_t list, size_t onward, size_t transfer)
{
    walking w = direct(prp1, list, transfer);
    size_t at = list, k = 0, i = 1;
    w.lists[0].address = list;
    while (i < w.spans) {
        w.lists[k].length += ENTRY;
        if (at % PAGE == PAGE - ENTRY && i + 1 < w.spans) {
            put_entry(d, at, onward);
            w.lists[++k].address = at = onward;
        } else {
            w.pages[i] = page(i);
            put_entry(d, at, w.pages[i++]);
            at += ENTRY;
        }
    }
    return w;
}

/* The same of so many pages: 4 bytes of the first, one byte of the last. */
static walking pages_listed(const desk *d, size_t list, size_t onward, size_t spans)
{
    return listed(d, page(0) + NEAR_END, list, onward, 4 + (spans - 2) * PAGE + 1);
}

/* Of 17 pages, in two lists of 8 and 9 entries: 7 pages and the onward entry, and 9 pages. */
static walking in_two_lists(const desk *d)
{
    return pages_listed(d, 2 * PAGE - 8 * ENTRY, 3 * PAGE, SPANS);
}

/* A walk by a command that is begun for it and ended: what it holds is the entries. */
static void walk_alone(const desk *d, const walking *w, size_t records)
{
    begin(d, w->command);
    walk(d, w);
    end(d, w->command, records, w->lists[0].length + w->lists[1].length);
}

/* The same if it is refused when so many of its fetches were accepted, each of which left a record. */
static void stopped_alone(const desk *d, doorclover_status want, const walking *w, size_t accepted)
{
    size_t bytes = 0;
    begin(d, w->command);
    walk_stopped(d, want, w, accepted);
    for (size_t i = 0; i < accepted; i++) {
        size_t length = w->lists[i].length;
        fetch(d, w->command, w->lists[i].address, length, 0, length);
        bytes += length;
    }
    end(d, w->command, accepted, bytes);
}

static const uint64_t starts[] = {
    0, 4, 2048, NEAR_END, 16384, ((uint64_t)1 << 32) + 1000, UINT64_MAX - 4095, UINT64_MAX - 3,
};
enum { STARTS = sizeof starts / sizeof starts[0] };

/* A byte, and all up to the end of the page: neither PRP2 nor the window is looked at. */
void test_walk_one_page(void)
{
    static const uint64_t seconds[] = {0, 1, 4095, UINT64_MAX};
    desk d = fresh_desk();
    d.window = &nothing;
    for (size_t i = 0; i < STARTS; i++)
        for (size_t k = 0; k < sizeof seconds / sizeof seconds[0]; k++) {
            walking least = direct(starts[i], seconds[k], 1);
            walking most = direct(starts[i], seconds[k], PAGE - starts[i] % PAGE);
            CHECK(least.spans == 1 && most.spans == 1);
            walk_alone(&d, &least, 0);
            walk_alone(&d, &most, 0);
        }
}

/* One byte more, and all up to the end of the second page, which may be any. */
void test_walk_two_pages(void)
{
    desk d = fresh_desk();
    d.window = &nothing;
    for (size_t i = 0; i < STARTS; i++) {
        uint64_t first = starts[i] - starts[i] % PAGE;
        uint64_t seconds[] = {0, PAGE, first, first + PAGE, page(1), UINT64_MAX - 4095};
        for (size_t k = 0; k < sizeof seconds / sizeof seconds[0]; k++) {
            walking least = direct(starts[i], seconds[k], PAGE - starts[i] % PAGE + 1);
            walking most = direct(starts[i], seconds[k], 2 * PAGE - starts[i] % PAGE);
            CHECK(least.spans == 2 && most.spans == 2);
            walk_alone(&d, &least, 0);
            walk_alone(&d, &most, 0);
        }
    }
}

/* From three pages on, the last with one byte and full, by a list that ends within its page or with it. */
void test_walk_list(void)
{
    static const size_t offsets[] = {0, 4, 2048, NEAR_END};
    desk d = fresh_desk();
    size_t longest[2] = {0, 0};
    for (size_t spans = 3; spans <= SPANS; spans++)
        for (size_t i = 0; i < sizeof offsets / sizeof offsets[0]; i++) {
            size_t size = ENTRY * (spans - 1), least = (spans - 1) * PAGE - offsets[i] + 1;
            size_t lists[] = {0, ENTRY, PAGE, PAGE + 2048, 2 * PAGE - size, 4 * PAGE - size};
            for (size_t k = 0; k < sizeof lists / sizeof lists[0] && least <= MOST; k++) {
                walking w = listed(&d, page(0) + offsets[i], lists[k], 0, least);
                CHECK(w.spans == spans);
                walk_alone(&d, &w, 1);
                w.transfer = least + PAGE - 1 < MOST ? least + PAGE - 1 : MOST;
                walk_alone(&d, &w, 1);
                longest[SPANS - spans > 0] += w.transfer == MOST;
            }
        }
    CHECK(longest[1] == 6 && longest[0] == 18); /* 65,536 bytes: 16 pages, and 17 from inside a page on */
}

/* From each place near the end of its page a list of each length; onward to any page, its own too. */
void test_walk_onward(void)
{
    static const size_t onward[] = {3 * PAGE, PAGE, 0, 2 * PAGE};
    desk d = fresh_desk();
    for (size_t fit = 1; fit <= SPANS; fit++)
        for (size_t spans = 3; spans <= SPANS; spans++)
            for (size_t k = 0; k < sizeof onward / sizeof onward[0]; k++) {
                walking w = pages_listed(&d, 2 * PAGE - ENTRY * fit, onward[k], spans);
                int leads = spans - 1 > fit, touches = onward[k] == 2 * PAGE;
                CHECK((w.lists[1].length > 0) == leads);
                walk_alone(&d, &w, leads && !touches ? 2 : 1);
            }
}

/* A list may end where the window does, and no byte behind. */
void test_walk_window_end(void)
{
    desk d = fresh_desk(), longest = d;
    longest.window = lend(DOORCLOVER_WINDOW, 0);
    for (size_t needed = 2; needed < SPANS; needed++) {
        desk whole = d, less = d;
        size_t fitting = DOORCLOVER_WINDOW - ENTRY * needed;
        walking w = pages_listed(&longest, fitting, 0, needed + 1);
        walk_alone(&longest, &w, 1);
        w = pages_listed(&longest, fitting + ENTRY, 0, needed + 1);
        walk_alone(&longest, &w, 2);

        whole.window = lend(PAGE + ENTRY * needed, 0);
        w = pages_listed(&whole, PAGE, 0, needed + 1);
        walk_alone(&whole, &w, 1);
        less.window = lend_bytes(whole.window->bytes, whole.window->size - 1);
        stopped_alone(&less, DOORCLOVER_OUTSIDE_WINDOW, &w, 0);

        w = pages_listed(&whole, PAGE - ENTRY, PAGE, needed + 1); /* the second list */
        CHECK(w.lists[1].address + w.lists[1].length == whole.window->size);
        walk_alone(&whole, &w, 1);
        less.window = lend_bytes(whole.window->bytes, whole.window->size - 1);
        stopped_alone(&less, DOORCLOVER_OUTSIDE_WINDOW, &w, 1);
    }
}

/* The true sum counts: a list that PRP2 or the onward entry puts far outside is outside. */
void test_walk_outside(void)
{
    static const uint64_t outside[] = {
        16384, 65536, (uint64_t)1 << 32, ((uint64_t)1 << 32) + 4096, (uint64_t)1 << 63, UINT64_MAX - 4095,
    };
    desk d = fresh_desk(), none = d, shorter = d;
    walking w = in_two_lists(&d), far = w;
    none.window = &nothing;
    stopped_alone(&none, DOORCLOVER_OUTSIDE_WINDOW, &w, 0);
    for (size_t i = 0; i < sizeof outside / sizeof outside[0]; i++) {
        far.prp2 = outside[i];
        stopped_alone(&d, DOORCLOVER_OUTSIDE_WINDOW, &far, 0);
        put_entry(&d, 2 * PAGE - ENTRY, outside[i]);
        stopped_alone(&d, DOORCLOVER_OUTSIDE_WINDOW, &w, 1);
    }
    for (size_t fit = 1; fit <= SPANS; fit++) {
        far.prp2 = UINT64_MAX - ENTRY * fit + 1;
        stopped_alone(&d, DOORCLOVER_OUTSIDE_WINDOW, &far, 0);
    }
    w = in_two_lists(&d);
    shorter.window = lend_bytes(d.window->bytes, 3 * PAGE);
    begin(&d, COMMAND);
    walk(&d, &w);
    walk_stopped(&shorter, DOORCLOVER_OUTSIDE_WINDOW, &w, 1); /* held, but past this window */
    end(&d, COMMAND, 2, 17 * ENTRY);
}

/* PRP1, with one page, two and more. */
static void wrong_prp1(const desk *d, const walking *w)
{
    walking off = *w;
    for (uint64_t by = 1; by < 4; by++) {
        off.prp1 = w->prp1 + by;
        stopped_alone(d, DOORCLOVER_ENTRY_MISALIGNED, &off, 0);
        off.prp1 = UINT64_MAX - 3 + by;
        stopped_alone(d, DOORCLOVER_ENTRY_MISALIGNED, &off, 0);
    }
}

/* PRP2, wrong in each bit that counts. */
static void wrong_prp2(const desk *d, const walking *w, uint64_t multiple)
{
    walking off = *w;
    for (uint64_t bit = 1; bit < multiple; bit *= 2) {
        off.prp2 = w->prp2 + bit;
        stopped_alone(d, DOORCLOVER_ENTRY_MISALIGNED, &off, 0);
        off.prp2 = UINT64_MAX - multiple + 1 + bit;
        stopped_alone(d, DOORCLOVER_ENTRY_MISALIGNED, &off, 0);
    }
}

void test_walk_multiples(void)
{
    desk d = fresh_desk();
    walking one = direct(page(0), 0, 8), two = direct(page(0), page(1), 2 * PAGE), w = in_two_lists(&d);
    wrong_prp1(&d, &one);
    wrong_prp1(&d, &two);
    wrong_prp1(&d, &w);
    wrong_prp2(&d, &two, PAGE);
    wrong_prp2(&d, &w, ENTRY);
    for (size_t k = 0; k < 2; k++) /* each entry, the onward one too */
        for (size_t i = 0; i < w.lists[k].length; i += ENTRY) {
            size_t at = w.lists[k].address + i;
            uint64_t right = entry_at(&d, at);
            for (uint64_t bit = 1; bit < PAGE; bit *= 2) {
                put_entry(&d, at, right + bit);
                stopped_alone(&d, DOORCLOVER_ENTRY_MISALIGNED, &w, k + 1);
            }
            put_entry(&d, at, right);
        }
    walk_alone(&d, &w, 2);
}

/* Of two faults from PRP1 on, the one that the walk comes to first. */
void test_walk_order(void)
{
    desk d = fresh_desk();
    walking w = in_two_lists(&d), off = w;
    size_t first = w.lists[0].address, onward = 2 * PAGE - ENTRY, second = w.lists[1].address;
    off.prp1 += 2;
    off.prp2 = UINT64_MAX - 7;
    stopped_alone(&d, DOORCLOVER_ENTRY_MISALIGNED, &off, 0);
    off.prp1 = w.prp1;
    stopped_alone(&d, DOORCLOVER_OUTSIDE_WINDOW, &off, 0);

    for (size_t at = first; at < onward; at += ENTRY) { /* before the second list is fetched */
        in_two_lists(&d);
        put_entry(&d, at, page(0) + 8);
        put_entry(&d, second, page(0) + 8);
        stopped_alone(&d, DOORCLOVER_ENTRY_MISALIGNED, &w, 1);
        put_entry(&d, onward, 65536);
        stopped_alone(&d, DOORCLOVER_ENTRY_MISALIGNED, &w, 1);
    }
    in_two_lists(&d);
    put_entry(&d, onward, 65536 + 8);
    stopped_alone(&d, DOORCLOVER_ENTRY_MISALIGNED, &w, 1);

    in_two_lists(&d);
    put_entry(&d, first, page(0) + 8);
    begin(&d, COMMAND);
    fetch(&d, COMMAND, 0, 4096, 4096, 0);
    walk_stopped(&d, DOORCLOVER_TOO_MANY_BYTES, &w, 0); /* the fetch comes before its entries */
    end(&d, COMMAND, 1, 4096);
    begin(&d, COMMAND);
    fetch(&d, COMMAND, 0, 4032, 4032, 0);
    walk_stopped(&d, DOORCLOVER_ENTRY_MISALIGNED, &w, 1); /* and they before the fetch that has no room */
    end(&d, COMMAND, 2, 4096);

    in_two_lists(&d);
    put_entry(&d, second + w.lists[1].length, 1); /* behind the entries that are needed */
    put_entry(&d, first - ENTRY, 1);
    walk_alone(&d, &w, 2);
}

/* Every fault at once, and then one after the other is mended: 31, then 10, and then the lowest number. */
static void walk_ladder(desk d)
{
    desk e = d;
    walking right = in_two_lists(&d), w = right;
    right.command = 5;
    w.command = 8;
    w.prp1 = w.prp2 = UINT64_MAX;
    w.transfer = 0;
    e.scratch = lend(DOORCLOVER_WALK_SCRATCH - 1, 0);
    e.addresses = lend((SPANS - 1) * sizeof(uint64_t), 0);
    e.lengths = lend((SPANS - 1) * sizeof(uint32_t), 0);
    e.store = lend(DOORCLOVER_STORE - 1, 1);
    e.window = lend(DOORCLOVER_WINDOW + 1, 2);
    break_words(&e);
    walk_refused(&e, DOORCLOVER_TRANSFER_OUT_OF_RANGE, &w);
    w.transfer = MOST + 1;
    walk_refused(&e, DOORCLOVER_TRANSFER_OUT_OF_RANGE, &w);
    w.transfer = right.transfer;
    walk_refused(&e, DOORCLOVER_BUFFER_TOO_SHORT, &w);
    e.scratch = d.scratch;
    walk_refused(&e, DOORCLOVER_BUFFER_TOO_SHORT, &w);
    e.addresses = d.addresses;
    walk_refused(&e, DOORCLOVER_BUFFER_TOO_SHORT, &w);
    e.lengths = d.lengths;
    walk_refused(&e, DOORCLOVER_COMMAND_TOO_HIGH, &w);
    w.command = 5;
    walk_refused(&e, DOORCLOVER_WINDOW_TOO_LONG, &w);
    e.window = d.window;
    walk_refused(&e, DOORCLOVER_STORE_WRONG_SIZE, &w);
    e.store = d.store;
    walk_refused(&e, DOORCLOVER_STATE_BROKEN, &w);
    mend_words(&e);
    walk_refused(&e, DOORCLOVER_COMMAND_NOT_OPEN, &w);
    begin(&e, 5);
    walk_stopped(&e, DOORCLOVER_ENTRY_MISALIGNED, &w, 0);
    w.prp1 = right.prp1;
    walk_stopped(&e, DOORCLOVER_ENTRY_MISALIGNED, &w, 0);
    w.prp2 = UINT64_MAX - 7;
    walk_stopped(&e, DOORCLOVER_OUTSIDE_WINDOW, &w, 0);
    walk(&e, &right);
    end(&e, 5, 2, 17 * ENTRY);
}

/* What is judged before PRP1, list or no list. */
static void refused_whatever_it_needs(const desk *d, walking w)
{
    desk wider = *d, stores[] = {*d, *d, *d};
    wider.window = lend(DOORCLOVER_WINDOW + 1, 0);
    stores[0].store = lend(DOORCLOVER_STORE - 1, 1);
    stores[1].store = lend(DOORCLOVER_STORE + 1, 1);
    stores[2].store = &nothing;
    walk_refused(&wider, DOORCLOVER_WINDOW_TOO_LONG, &w);
    for (size_t i = 0; i < 3; i++)
        walk_refused(&stores[i], DOORCLOVER_STORE_WRONG_SIZE, &w);
    for (size_t command = 0; command < DOORCLOVER_COMMANDS; command++) {
        w.command = command;
        break_words(d);
        walk_refused(d, DOORCLOVER_STATE_BROKEN, &w);
        mend_words(d);
        if (command != COMMAND)
            walk_refused(d, DOORCLOVER_COMMAND_NOT_OPEN, &w);
    }
    for (size_t i = 0; i < TOO_HIGH; i++) {
        w.command = too_high[i];
        walk_refused(d, DOORCLOVER_COMMAND_TOO_HIGH, &w);
    }
}

void test_walk_refused(void)
{
    static const size_t transfers[] = {0, 65537, (size_t)1 << 32, ((size_t)1 << 32) + 1, SIZE_MAX};
    desk d = fresh_desk();
    walking one = direct(page(0), 0, 1), w = in_two_lists(&d);
    walk_ladder(d);
    begin(&d, COMMAND);
    refused_whatever_it_needs(&d, one);
    refused_whatever_it_needs(&d, direct(page(0), page(1), 2 * PAGE));
    refused_whatever_it_needs(&d, w);
    one.prp1++;
    refused_whatever_it_needs(&d, one); /* before PRP1 */
    for (size_t i = 0; i < sizeof transfers / sizeof transfers[0]; i++) {
        one.transfer = w.transfer = transfers[i];
        walk_refused(&d, DOORCLOVER_TRANSFER_OUT_OF_RANGE, &one);
        walk_refused(&d, DOORCLOVER_TRANSFER_OUT_OF_RANGE, &w);
    }
    end(&d, COMMAND, 0, 0);
}

/* With too little room nothing is walked, though one page needs none of it. */
static void walk_with(const desk *d, int enough)
{
    walking one = direct(page(0), 0, 1), w = in_two_lists(d);
    begin(d, COMMAND);
    if (enough) {
        walk(d, &one);
        walk(d, &w);
    } else {
        walk_refused(d, DOORCLOVER_BUFFER_TOO_SHORT, &one);
        walk_refused(d, DOORCLOVER_BUFFER_TOO_SHORT, &w);
    }
    end(d, COMMAND, enough ? 2 : 0, enough ? 17 * ENTRY : 0);
}

static lent *lend_or_null(size_t size)
{
    return size == 0 ? &nothing : lend(size, 0);
}

/* However much is lent, all of the scratch is zero at the end, and no place behind the spans changes. */
void test_walk_room(void)
{
    static const size_t scratches[] = {0, 1, 120, 127, 128, 129, 136, 4096, 5000};
    static const size_t places[] = {0, 1, 15, 16, 17, 18, 1000};
    desk d = fresh_desk();
    for (size_t i = 0; i < sizeof scratches / sizeof scratches[0]; i++) {
        desk e = d;
        e.scratch = lend_or_null(scratches[i]);
        walk_with(&e, scratches[i] >= DOORCLOVER_WALK_SCRATCH);
    }
    for (size_t i = 0; i < sizeof places / sizeof places[0]; i++) {
        desk e = d, f = d;
        e.addresses = lend_or_null(places[i] * sizeof(uint64_t));
        f.lengths = lend_or_null(places[i] * sizeof(uint32_t));
        walk_with(&e, places[i] >= SPANS);
        walk_with(&f, places[i] >= SPANS);
    }
}

/* A walk of 16 and 24 bytes of entries, with room for so many bytes. */
static void walk_in(const desk *d, const walking *w, size_t room)
{
    size_t fits = room < 16 ? 0 : room < 40 ? 1 : 2, bytes = room < 16 ? 0 : room < 40 ? 16 : 40;
    begin(d, COMMAND);
    fetch(d, COMMAND, 0, 4096 - room, 4096 - room, 0);
    if (fits == 2) {
        walk(d, w);
        walk(d, w); /* there is no room left, and none is needed */
    } else {
        walk_stopped(d, DOORCLOVER_TOO_MANY_BYTES, w, fits);
    }
    end(d, COMMAND, 1 + fits, 4096 - room + bytes);
}

/* The same where there are so many records of one byte. */
static void walk_beside(const desk *d, const walking *w, size_t records)
{
    size_t fits = DOORCLOVER_RECORDS - records;
    begin(d, COMMAND);
    for (size_t i = 0; i < records; i++)
        fetch(d, COMMAND, 2 * i, 1, 1, 0);
    if (fits == 2) {
        walk(d, w);
        walk(d, w);
    } else {
        walk_stopped(d, DOORCLOVER_TOO_MANY_RECORDS, w, fits);
    }
    end(d, COMMAND, DOORCLOVER_RECORDS, records + (fits == 0 ? 0 : fits == 1 ? 16 : 40));
}

/* A list fetch that has no room: what the one before it holds stays held. */
void test_walk_full(void)
{
    desk d = fresh_desk();
    walking w = pages_listed(&d, 2 * PAGE - 2 * ENTRY, 3 * PAGE, 5), touching;
    for (size_t room = 0; room <= 40; room++)
        walk_in(&d, &w, room);
    for (size_t records = 62; records <= 64; records++)
        walk_beside(&d, &w, records);
    begin(&d, COMMAND); /* both: the lower number */
    for (size_t i = 0; i < 63; i++)
        fetch(&d, COMMAND, 2 * i, 1, 1, 0);
    fetch(&d, COMMAND, 2 * PAGE + 1, 4033, 4033, 0);
    walk_stopped(&d, DOORCLOVER_TOO_MANY_BYTES, &w, 0);
    end(&d, COMMAND, 64, 4096);
    touching = pages_listed(&d, 2 * PAGE - 2 * ENTRY, 2 * PAGE, 5); /* the two lists are one record */
    begin(&d, COMMAND);
    for (size_t i = 0; i < 63; i++)
        fetch(&d, COMMAND, 2 * i, 1, 1, 0);
    walk(&d, &touching);
    end(&d, COMMAND, 64, 63 + 40);
}

/* The host writes over every entry of a walk, and not even a multiple of 4,096. */
static void spoil(const desk *d, const walking *w)
{
    for (size_t k = 0; k < 2; k++)
        for (size_t i = 0; i < w->lists[k].length; i += ENTRY)
            put_entry(d, w->lists[k].address + i, page(SPANS + i) + 2048);
}

/* A page may be any: 0, one that was given before, a neighbour, one of the window, the last there is. */
void test_walk_any_pages(void)
{
    static const uint64_t pages[] = {0, 0, 4096, 8192, 12288, 4096, UINT64_MAX - 4095};
    desk d = fresh_desk();
    walking w = pages_listed(&d, PAGE, 0, 8);
    for (size_t i = 0; i < sizeof pages / sizeof pages[0]; i++) {
        w.pages[1 + i] = pages[i];
        put_entry(&d, PAGE + ENTRY * i, pages[i]);
    }
    walk_alone(&d, &w, 1);
    w.prp1 = w.pages[0] = UINT64_MAX - 3;
    walk_alone(&d, &w, 1);
    w.prp1 = w.pages[0] = NEAR_END;
    walk_alone(&d, &w, 1);
}

/* The same command is given the same spans again, and another one what the host has now. */
void test_walk_again(void)
{
    desk d = fresh_desk();
    walking w = in_two_lists(&d), other = w;
    other.command = 4;
    begin(&d, COMMAND);
    walk(&d, &w);
    spoil(&d, &w);
    walk(&d, &w);
    for (size_t k = 0; k < 2; k++) {
        size_t length = w.lists[k].length;
        show(&d, COMMAND, k, w.lists[k].address, length);
        fetch(&d, COMMAND, w.lists[k].address, length, 0, length);
        in_two_lists(&d);
        CHECK(memcmp(d.destination->bytes, d.window->bytes + w.lists[k].address, length) == 0);
        spoil(&d, &w);
    }
    begin(&d, 4);
    walk_stopped(&d, DOORCLOVER_ENTRY_MISALIGNED, &other, 1);
    end(&d, 4, 1, 8 * ENTRY);
    end(&d, COMMAND, 2, 17 * ENTRY);
    begin(&d, COMMAND); /* and the next command too */
    walk_stopped(&d, DOORCLOVER_ENTRY_MISALIGNED, &w, 1);
    end(&d, COMMAND, 1, 8 * ENTRY);
}

/* The records that its list fetches look at, added up. */
void test_walk_looked_at(void)
{
    desk d = fresh_desk();
    walking none = direct(page(0), page(1), 2 * PAGE), list = pages_listed(&d, PAGE, 0, 5);
    walking lists = in_two_lists(&d);
    begin(&d, COMMAND);
    CHECK(walk(&d, &lists) == 0 + 1); /* at 8,128 and at 12,288: the second sees the first */
    CHECK(walk(&d, &lists) == 2 + 2); /* 8,128, and 12,288, which is above 8,192; then both */
    end(&d, COMMAND, 2, 17 * ENTRY);

    begin(&d, COMMAND);
    CHECK(walk(&d, &list) == 0); /* at 4,096 */
    fetch(&d, COMMAND, 100, 1, 1, 0);
    fetch(&d, COMMAND, 5000, 1, 1, 0);
    fetch(&d, COMMAND, 9000, 1, 1, 0);
    CHECK(walk(&d, &none) == 0); /* PRP2 is a page, and there is no list */
    CHECK(walk(&d, &list) == 3); /* 100, 4,096, and 5,000, which is above 4,128 */
    CHECK(walk(&d, &lists) == 4 + 5); /* these and 9,000; then 8,128 too, and none is above */
    CHECK(walk(&d, &lists) == 5 + 6); /* with 8,128; then with 12,288 too */
    end(&d, COMMAND, 6, 3 + 21 * ENTRY);

    lists = pages_listed(&d, 2 * PAGE - 8 * ENTRY, 0, SPANS); /* onward to 0 */
    begin(&d, COMMAND);
    fetch(&d, COMMAND, 2 * PAGE, 1, 1, 0);
    CHECK(walk(&d, &lists) == 1 + 1); /* 8,192, where the first ends; then what the two have become */
    CHECK(walk(&d, &lists) == 2 + 2); /* 0 and 8,128, each time */
    end(&d, COMMAND, 2, 17 * ENTRY + 1);
}

/* The most that a walk looks at: 64 records for each list. */
void test_walk_looked_at_most(void)
{
    desk d = fresh_desk();
    walking w = in_two_lists(&d);
    begin(&d, COMMAND);
    for (size_t i = 0; i < 62; i++)
        fetch(&d, COMMAND, 2 * i, 1, 1, 0);
    CHECK(walk(&d, &w) == 62 + 63);
    CHECK(walk(&d, &w) == 64 + 64); /* 12,288, the second list, is above 8,192, the end of the first */
    end(&d, COMMAND, 64, 62 + 17 * ENTRY);
}

/* Entries that were fetched before, whole and in part, are as they were then; the others are the host's. */
void test_walk_held(void)
{
    desk d = fresh_desk();
    walking w = in_two_lists(&d);
    size_t first = w.lists[0].address, second = w.lists[1].address;
    begin(&d, COMMAND);
    fetch(&d, COMMAND, first + ENTRY, ENTRY, ENTRY, 0);
    fetch(&d, COMMAND, 2 * PAGE - ENTRY, 3, 3, 0); /* of the onward entry */
    fetch(&d, COMMAND, second - 2, 4, 4, 0);
    fetch(&d, COMMAND, second + 8 * ENTRY + 1, 20, 20, 0);
    memset(d.window->bytes + first + ENTRY, 0xff, ENTRY);
    memset(d.window->bytes + 2 * PAGE - ENTRY, 0xff, 3);
    memset(d.window->bytes + second - 2, 0xff, 4);
    memset(d.window->bytes + second + 8 * ENTRY + 1, 0xff, 20);
    walk(&d, &w);
    show(&d, COMMAND, 0, first, 8 * ENTRY);
    show(&d, COMMAND, 1, second - 2, 2 + 9 * ENTRY + 13);
    end(&d, COMMAND, 2, 17 * ENTRY + 2 + 13);
}

/* Entries that the command wrote are given as it wrote them; one may lead onward to another list. */
void test_walk_own_entries(void)
{
    desk d = fresh_desk(), own = d;
    walking w = in_two_lists(&d);
    own.bytes = lend(ENTRY, 0);
    memset(own.bytes->bytes + 2, 0x77, ENTRY - 2);
    begin(&d, COMMAND);
    own_write(&own, COMMAND, w.lists[0].address + 2 * ENTRY, ENTRY);
    w.pages[3] = 0x7777777777770000;
    own_write(&own, COMMAND, w.lists[1].address + 8 * ENTRY, ENTRY);
    w.pages[16] = 0x7777777777770000;
    put_entry(&d, w.lists[0].address + 2 * ENTRY, 1);
    put_entry(&d, w.lists[1].address + 8 * ENTRY, 1);
    walk(&d, &w);
    memset(own.bytes->bytes, 0, ENTRY);
    own_write(&own, COMMAND, 2 * PAGE - ENTRY, 0); /* the list goes on at 0 */
    put_entry(&d, 2 * PAGE - ENTRY, 3 * PAGE);
    w.lists[1].address = 0;
    for (size_t i = 8; i < SPANS; i++) {
        w.pages[i] = page(SPANS + i);
        put_entry(&d, (i - 8) * ENTRY, w.pages[i]);
    }
    walk(&d, &w);
    end(&d, COMMAND, 3, 8 * ENTRY + 9 * ENTRY + 9 * ENTRY);
}

/* What a refused walk fetched counts as fetched: the host can mend none of it until the command ends. */
void test_walk_keeps(void)
{
    desk d = fresh_desk();
    walking w = in_two_lists(&d), less = pages_listed(&d, w.lists[0].address, 0, 8);
    in_two_lists(&d);
    put_entry(&d, w.lists[1].address, page(8) + 512);
    begin(&d, COMMAND);
    walk_stopped(&d, DOORCLOVER_ENTRY_MISALIGNED, &w, 2);
    in_two_lists(&d);
    walk_stopped(&d, DOORCLOVER_ENTRY_MISALIGNED, &w, 2);
    spoil(&d, &w);
    CHECK(less.lists[1].length == 0);
    walk(&d, &less); /* of the entries before that one */
    end(&d, COMMAND, 2, 17 * ENTRY);
    in_two_lists(&d);
    walk_alone(&d, &w, 2);
}

/* Every command walks, and leaves alone what the others hold. */
void test_walk_commands(void)
{
    desk d = fresh_desk();
    walking w = in_two_lists(&d);
    for (size_t c = 0; c < DOORCLOVER_COMMANDS; c++) {
        begin(&d, c);
        fetch(&d, c, 100 * c, 50, 50, 0);
    }
    for (w.command = 0; w.command < DOORCLOVER_COMMANDS; w.command++) {
        walk(&d, &w);
        walk(&d, &w);
    }
    for (size_t c = 0; c < DOORCLOVER_COMMANDS; c++)
        end(&d, c, 3, 50 + 17 * ENTRY);
}
