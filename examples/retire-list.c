/*
 * The retire list: is the count that was checked the count that is used?
 *
 * A host puts a list at address 64: a count, 4, and four tags of two bytes. The firmware fetches the
 * count and checks it. Then the host writes 40 over it. The firmware fetches the whole list, takes the
 * count from there, and still has 4: the cache gives the byte that was checked.
 *
 * Build and run it at the root of the repository:
 *
 *     ./build doorclover
 *     gcc -std=c11 -Iinclude examples/retire-list.c target/staticlib/libdoorclover.a -o retire-list
 *     ./retire-list
 */
#include "doorclover.h"

#include <stdio.h>

enum { COMMAND = 3, LIST = 64, MOST_TAGS = 8, TAG = 2 };

static doorclover_state state; /* all zero: fresh */
static uint8_t store[DOORCLOVER_STORE];
static uint8_t window[16384]; /* host memory */

/* Says so if a call was refused. */
static int done(const char *what, doorclover_status status)
{
    if (status != DOORCLOVER_OK)
        printf("%s: refused with %u\n", what, (unsigned)status);
    return status == DOORCLOVER_OK;
}

static int host_puts(const uint8_t *bytes, size_t size)
{
    return done("host write",
                doorclover_host_write(window, sizeof window, LIST, bytes, size).status);
}

static int fetch(uint8_t *destination, size_t room, size_t length)
{
    doorclover_fetched f = doorclover_fetch(&state, store, sizeof store, window, sizeof window,
                                            destination, room, COMMAND, LIST, length);
    if (!done("fetch", f.status))
        return 0;
    printf("fetched %zu: %zu fresh, %zu replayed\n", length, f.fresh, f.replayed);
    return 1;
}

/* The firmware's command. Between its two fetches the host has its turn. */
static int retire(void)
{
    static const uint8_t forty = 40;
    uint8_t checked, list[1 + MOST_TAGS * TAG];

    if (!fetch(&checked, sizeof checked, 1))
        return 0;
    if (checked > MOST_TAGS) {
        printf("a count of %u is too high\n", checked);
        return 0;
    }
    if (!host_puts(&forty, 1))
        return 0;
    if (!fetch(list, sizeof list, 1 + (size_t)checked * TAG))
        return 0;

    /* list[0] was fetched again after the check, and is the byte that was checked */
    printf("the host has %u, the firmware uses %u\n", window[LIST], list[0]);
    for (size_t i = 0; i < list[0]; i++)
        printf("retire %02x%02x\n", list[1 + TAG * i], list[2 + TAG * i]);
    return list[0] == checked;
}

int main(void)
{
    static const uint8_t four_tags[] = {4, 0x00, 0x11, 0x00, 0x22, 0x00, 0x33, 0x00, 0x44};
    doorclover_ended e;

    if (doorclover_release() != DOORCLOVER_RELEASE) {
        printf("header and archive are of different releases\n");
        return 1;
    }
    if (!host_puts(four_tags, sizeof four_tags))
        return 1;
    if (!done("begin", doorclover_begin(&state, store, sizeof store, COMMAND).status))
        return 1;
    if (!retire())
        return 1;
    e = doorclover_end(&state, store, sizeof store, COMMAND);
    if (!done("end", e.status))
        return 1;
    printf("ended with %zu record of %zu bytes\n", e.records, e.bytes);
    return 0;
}
