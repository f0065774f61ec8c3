/* Step frames, and journals of them. */
#include "desk.h"
#include "tests.h"

#include <stdint.h>
#include <stdio.h>
#include <string.h>

/* The worked example of the agreed scope (docs/RULES.md has its rules), and its log. */
static const uint8_t worked[] = {
    0x08, 0x00, 0x00, 0x00, 0x00,                         /* begin 2 */
    0x60, 0x00, 0x40, 0x00, 0x80, 0x61, 0x62, 0x63, 0x64, /* the host writes abcd at 16 */
    0x28, 0x00, 0x40, 0x00, 0x80,                         /* fetch 16+4 */
    0x60, 0x00, 0x48, 0x00, 0x40, 0x7a, 0x7a,             /* the host writes zz at 18 */
    0x28, 0x00, 0x38, 0x01, 0x00,                         /* fetch 14+8 */
    0x48, 0x00, 0x00, 0x00, 0x00,                         /* end 2 */
    0x28, 0x00, 0x40, 0x00, 0x80                          /* fetch 16+4 */
};
static const char worked_log[] = "1 B ok\n2 H ok 4\n3 F ok 4 0 61626364\n4 H ok 2\n"
                                 "5 F ok 4 4 0000616263640000\n6 E ok 1 8\n7 F no 21\n";

/* A desk with a frame or a journal. */
static desk with(const void *bytes, size_t size)
{
    desk d = fresh_desk();
    d.bytes = lend_bytes(bytes, size);
    return d;
}

static void reads(const void *bytes, size_t size, const size_t want[5])
{
    desk d = with(bytes, size);
    keep_all();
    doorclover_step r = doorclover_frame_read(d.bytes->bytes, d.bytes->size);
    CHECK(r.status == DOORCLOVER_OK);
    CHECK(r.kind == want[0] && r.command == want[1] && r.address == want[2]);
    CHECK(r.length == want[3] && r.taken == want[4]);
    CHECK(all_kept());
    return_all();
}

void test_frame_read(void)
{
    static const size_t begin_2[] = {DOORCLOVER_KIND_BEGIN, 2, 0, 0, 5};
    static const size_t host[] = {DOORCLOVER_KIND_HOST_WRITE, 0, 16, 4, 9};
    static const size_t fetch_2[] = {DOORCLOVER_KIND_FETCH, 2, 16, 4, 5};
    static const size_t end_2[] = {DOORCLOVER_KIND_END, 2, 0, 0, 5};
    static const size_t highest[] = {DOORCLOVER_KIND_FETCH, 7, 65535, 4096, 5};
    static const size_t own_none[] = {DOORCLOVER_KIND_OWN_WRITE, 1, 1, 0, 5};
    reads(worked, 5, begin_2);
    reads(worked, sizeof worked, begin_2); /* bytes behind the frame are not looked at */
    reads(worked + 5, 9, host);
    reads(worked + 14, 5, fetch_2);
    reads(worked + 31, 5, end_2);
    reads("\x3f\xff\xfe\x00\x00", 5, highest);
    reads("\x84\x00\x04\x00\x00", 5, own_none);
}

static void does_not_read(doorclover_status want, const void *bytes, size_t size)
{
    desk d = with(bytes, size);
    read_refused(&d, want);
    return_all();
}

void test_frame_read_refused(void)
{
    for (size_t size = 0; size < DOORCLOVER_FRAME_HEAD; size++)
        does_not_read(DOORCLOVER_FRAME_TOO_SHORT, "\xff\xff\xff\xff", size);
    does_not_read(DOORCLOVER_UNKNOWN_KIND, "\xa0\x00\x00\x00\x00", 5);
    does_not_read(DOORCLOVER_UNKNOWN_KIND, "\xff\xff\xff\xff\xff", 5);
    does_not_read(DOORCLOVER_FIELD_NOT_ZERO, "\x28\x00\x40\x00\x81", 5); /* a spare bit */
    does_not_read(DOORCLOVER_FIELD_NOT_ZERO, "\x00\x00\x04\x00\x00", 5); /* begin: address */
    does_not_read(DOORCLOVER_FIELD_NOT_ZERO, "\x40\x00\x00\x00\x20", 5); /* end: length */
    does_not_read(DOORCLOVER_FIELD_NOT_ZERO, "\x64\x00\x00\x00\x00", 5); /* host write: command */
    does_not_read(DOORCLOVER_FIELD_NOT_ZERO, "\x64\x00\x03\xff\xe0", 5); /* with 4 and 5 */
    does_not_read(DOORCLOVER_LENGTH_TOO_LONG, "\x28\x00\x02\x00\x20", 5);
    does_not_read(DOORCLOVER_LENGTH_TOO_LONG, "\x60\x00\x02\x00\x20", 5); /* with 5 */
    does_not_read(DOORCLOVER_DATA_MISMATCH, worked + 5, 8);
    does_not_read(DOORCLOVER_DATA_MISMATCH, "\x84\x00\x00\x00\x20", 5);
}

/* A frame is written, what stands behind it is kept, and reading it gives the same step. */
static void writes(size_t kind, size_t command, size_t address, size_t length, size_t room)
{
    desk d = fresh_desk();
    size_t data = kind >= DOORCLOVER_KIND_HOST_WRITE ? length : 0, size = 5 + data;
    d.output = lend(room, 0xdd);
    d.bytes = data == 0 ? &nothing : lend(data, 0x3c);
    keep_all();
    doorclover_framed w = doorclover_frame_write(d.output->bytes, room, kind, command, address,
                                                 length, d.bytes->bytes, d.bytes->size);
    CHECK(w.status == DOORCLOVER_OK && w.length == size);
    allow(d.output, 0, size);
    CHECK(all_kept());
    CHECK(data == 0 || memcmp(d.output->bytes + 5, d.bytes->bytes, data) == 0);
    doorclover_step r = doorclover_frame_read(d.output->bytes, room);
    CHECK(r.status == DOORCLOVER_OK && r.kind == kind && r.command == command);
    CHECK(r.address == address && r.length == length && r.taken == size);
    return_all();
}

void test_frame_write(void)
{
    uint8_t out[5];
    CHECK(doorclover_frame_write(out, 5, DOORCLOVER_KIND_FETCH, 2, 16, 4, NULL, 0).length == 5);
    CHECK(memcmp(out, worked + 14, 5) == 0);
    for (size_t command = 0; command < DOORCLOVER_COMMANDS; command++) {
        writes(DOORCLOVER_KIND_BEGIN, command, 0, 0, 5);
        writes(DOORCLOVER_KIND_END, command, 0, 0, 9);
        writes(DOORCLOVER_KIND_FETCH, command, 65535, 4096, 5);
        writes(DOORCLOVER_KIND_OWN_WRITE, command, 1000, 4096, 4101);
    }
    writes(DOORCLOVER_KIND_HOST_WRITE, 0, 65535, 1, 6);
    writes(DOORCLOVER_KIND_HOST_WRITE, 0, 0, 0, 100);
}

void test_frame_write_refused(void)
{
    desk d = fresh_desk(), one = d, none = d, small = d;
    one.bytes = lend(1, 1);
    none.bytes = none.output = &nothing;
    small.output = lend(5, 0xdd);
    small.bytes = one.bytes;
    /* every fault at once, and then one after the other is mended */
    write_refused(&none, DOORCLOVER_UNKNOWN_KIND, 5, 8, 65536, 4097);
    write_refused(&none, DOORCLOVER_FIELD_NOT_ZERO, 3, 8, 65536, 4097);
    write_refused(&none, DOORCLOVER_LENGTH_TOO_LONG, 4, 8, 65536, 4097);
    write_refused(&none, DOORCLOVER_DATA_MISMATCH, 4, 8, 65536, 1);
    write_refused(&none, DOORCLOVER_COMMAND_TOO_HIGH, 4, 8, 65536, 0);
    write_refused(&none, DOORCLOVER_BUFFER_TOO_SHORT, 4, 7, 65536, 0);
    write_refused(&d, DOORCLOVER_ADDRESS_TOO_HIGH, 4, 7, 65536, 0);

    write_refused(&d, DOORCLOVER_UNKNOWN_KIND, SIZE_MAX, 0, 0, 0);
    write_refused(&d, DOORCLOVER_FIELD_NOT_ZERO, 0, 0, 1, 0);
    write_refused(&d, DOORCLOVER_FIELD_NOT_ZERO, 2, 0, 0, SIZE_MAX);
    write_refused(&d, DOORCLOVER_LENGTH_TOO_LONG, 1, 0, 0, SIZE_MAX);
    write_refused(&one, DOORCLOVER_DATA_MISMATCH, 1, 0, 0, 1); /* a fetch has no data */
    write_refused(&one, DOORCLOVER_DATA_MISMATCH, 0, 0, 0, 0);
    write_refused(&one, DOORCLOVER_DATA_MISMATCH, 3, 0, 0, 2);
    write_refused(&d, DOORCLOVER_COMMAND_TOO_HIGH, 1, SIZE_MAX, 0, 0);
    write_refused(&small, DOORCLOVER_BUFFER_TOO_SHORT, 4, 0, 0, 1);
    write_refused(&d, DOORCLOVER_ADDRESS_TOO_HIGH, 1, 0, SIZE_MAX, 0);
}

static doorclover_replayed replay(const desk *d)
{
    keep_all();
    return doorclover_journal_replay(d->bytes->bytes, d->bytes->size, d->store->bytes,
                                     d->store->size, d->window->bytes, d->window->size,
                                     d->destination->bytes, d->destination->size,
                                     d->output->bytes, d->output->size);
}

/* The log, the rest of the output untouched, and the figures of the reply. */
static void logs(const desk *d, const char *log, size_t carried, size_t refused, uint32_t early)
{
    doorclover_replayed r = replay(d);
    size_t size = strlen(log);
    CHECK(r.written == size && r.carried == carried && r.refused == refused && r.early == early);
    CHECK(size == 0 || memcmp(d->output->bytes, log, size) == 0);
    allow(d->output, 0, size);
}

/* A journal begins with the window's bytes as they are, so the example has zeros. */
static desk worked_desk(void)
{
    desk d = with(worked, sizeof worked);
    memset(d.window->bytes, 0, d.window->size);
    return d;
}

void test_journal(void)
{
    desk d = worked_desk();
    logs(&d, worked_log, 6, 1, 0);
    CHECK(memcmp(d.window->bytes + 16, "abzz", 4) == 0);
    CHECK(memcmp(d.destination->bytes, "\0\0abcd\0\0", 8) == 0);
    allow(d.window, 16, 4);
    allow(d.destination, 0, 8);
    allow(d.store, 2 * DOORCLOVER_HELD, DOORCLOVER_HELD);
    CHECK(all_kept());
    for (size_t i = 0; i < DOORCLOVER_HELD; i++)
        CHECK(d.store->bytes[2 * DOORCLOVER_HELD + i] == 0);
}

/*
 * The line of an own write has how many bytes it wrote and how many of their addresses were not held.
 * The fetch behind it gives what was written.
 */
void test_journal_own_write(void)
{
    static const uint8_t frames[] = {
        0x08, 0x00, 0x00, 0x00, 0x00,                         /* begin 2 */
        0x60, 0x00, 0x40, 0x00, 0x80, 0x61, 0x62, 0x63, 0x64, /* the host writes abcd at 16 */
        0x28, 0x00, 0x40, 0x00, 0x40,                         /* fetch 16+2 */
        0x88, 0x00, 0x44, 0x00, 0x40, 0x79, 0x7a,             /* own write of yz at 17 */
        0x60, 0x00, 0x44, 0x00, 0x40, 0x62, 0x63,             /* the host writes bc at 17 */
        0x28, 0x00, 0x40, 0x00, 0x80,                         /* fetch 16+4 */
        0x88, 0x00, 0x50, 0x00, 0x00,                         /* own write of nothing at 20 */
        0x48, 0x00, 0x00, 0x00, 0x00,                         /* end 2 */
        0x88, 0x00, 0x44, 0x00, 0x40, 0x79, 0x7a              /* own write of yz at 17 */
    };
    desk d = with(frames, sizeof frames);
    logs(&d,
         "1 B ok\n2 H ok 4\n3 F ok 2 0 6162\n4 W ok 2 1\n5 H ok 2\n6 F ok 1 3 61797a64\n"
         "7 W ok 0 0\n8 E ok 1 4\n9 W no 21\n",
         8, 1, 0);
    CHECK(memcmp(d.window->bytes + 16, "abcd", 4) == 0);
    allow(d.window, 16, 4);
    allow(d.destination, 0, 4);
    allow(d.store, 2 * DOORCLOVER_HELD, DOORCLOVER_HELD);
    CHECK(all_kept());
}

/* A log is cut where the output ends, and the run is the same. */
void test_journal_cut(void)
{
    for (size_t room = 0; room <= strlen(worked_log); room++) {
        desk d = worked_desk();
        char log[sizeof worked_log] = {0};
        memcpy(log, worked_log, room);
        d.output = lend(room, 0xdd);
        logs(&d, log, 6, 1, 0);
        CHECK(memcmp(d.window->bytes + 16, "abzz", 4) == 0);
        return_all();
    }
}

/* Of a refused frame nothing changes, and behind an unreadable one nothing is carried out. */
void test_journal_refused(void)
{
    static const uint8_t frames[] = {
        0x4c, 0x00, 0x00, 0x00, 0x00,       /* end 3: not open */
        0x2c, 0x00, 0x00, 0x00, 0x20,       /* fetch 0+1 by 3: not open */
        0x84, 0x00, 0x00, 0x00, 0x20, 0x01, /* own write by 1: not open */
        0x63, 0xff, 0xfc, 0x00, 0x20, 0x02  /* host write at 65,535, behind the window */
    };
    uint8_t early[sizeof frames + 5 + 5] = {0};
    memcpy(early, frames, sizeof frames);
    early[sizeof frames] = 0xa0; /* unreadable; a begin behind it */
    early[sizeof frames + 5] = 0x08;
    desk d = with(frames, sizeof frames);
    logs(&d, "1 E no 21\n2 F no 21\n3 W no 21\n4 H no 9\n", 0, 4, 0);
    CHECK(all_kept());
    d.bytes = lend_bytes(early, sizeof early);
    logs(&d, "1 E no 21\n2 F no 21\n3 W no 21\n4 H no 9\n5 ? no 2\n", 0, 4, 1);
    CHECK(all_kept());
}

void test_journal_nulls(void)
{
    static const uint8_t frames[] = {
        0x08, 0x00, 0x00, 0x00, 0x00,      /* begin 2 */
        0x60, 0x00, 0x00, 0x00, 0x00,      /* host write of nothing */
        0x60, 0x00, 0x00, 0x00, 0x20, 0x01 /* host write of a byte */
    };
    desk d = with(frames, sizeof frames);
    desk none = {.store = &nothing, .window = &nothing, .destination = &nothing, .bytes = &nothing,
                 .output = &nothing};
    logs(&none, "", 0, 0, 0);
    none.output = d.output;
    logs(&none, "", 0, 0, 0);
    CHECK(all_kept());
    none.bytes = d.bytes;
    logs(&none, "1 B no 8\n2 H ok 0\n3 H no 9\n", 1, 2, 0);
    none.store = d.store;
    logs(&none, "1 B ok\n2 H ok 0\n3 H no 9\n", 2, 1, 0);
    none.output = &nothing;
    logs(&none, "", 2, 1, 0);
}
