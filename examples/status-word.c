/*
 * The status word: does a command read back what it wrote?
 *
 * A host has a descriptor of 16 bytes at address 128: 12 bytes that say what is to be done, the first
 * of them its flags, and a status word of 4. The firmware fetches the 12, does what they say, writes the
 * status word and then a flag over one that it had fetched. The host writes zeros over both. The
 * firmware fetches the whole descriptor, and has what it wrote: a command holds its own writes.
 *
 * Build and run it at the root of the repository:
 *
 *     ./build doorclover
 *     gcc -std=c11 -Iinclude examples/status-word.c target/staticlib/libdoorclover.a -o status-word
 *     ./status-word
 */
#include "doorclover.h"

#include <stdio.h>
#include <string.h>

enum { COMMAND = 3, DESCRIPTOR = 128, STATUS = 12, SIZE = 16 };

static const uint8_t done_flag = 0x80, status_word[] = {0x53, 0x54, 0x00, 0x01};
static doorclover_state state; /* all zero: fresh */
static uint8_t store[DOORCLOVER_STORE];
static uint8_t window[16384]; /* host memory */

static int fetch(uint8_t *destination, size_t length)
{
    doorclover_fetched f = doorclover_fetch(&state, store, sizeof store, window, sizeof window,
                                            destination, SIZE, COMMAND, DESCRIPTOR, length);
    if (f.status != DOORCLOVER_OK) {
        printf("fetch: refused with %u\n", (unsigned)f.status);
        return 0;
    }
    printf("fetched %zu: %zu fresh, %zu replayed\n", length, f.fresh, f.replayed);
    return 1;
}

static int own_write(size_t offset, const uint8_t *bytes, size_t size)
{
    doorclover_written w = doorclover_own_write(&state, store, sizeof store, window, sizeof window,
                                                COMMAND, DESCRIPTOR + offset, bytes, size);
    if (w.status != DOORCLOVER_OK) {
        printf("own write: refused with %u\n", (unsigned)w.status);
        return 0;
    }
    printf("wrote %zu: %zu not held before\n", w.bytes, w.fresh);
    return 1;
}

static void show(const char *whose, const uint8_t *descriptor)
{
    printf("%s: flags %02x, status ", whose, descriptor[0]);
    for (size_t i = STATUS; i < SIZE; i++)
        printf("%02x", descriptor[i]);
    printf("\n");
}

int main(void)
{
    uint8_t descriptor[SIZE];
    doorclover_ended e;

    memset(window + DESCRIPTOR, 0x11, STATUS);
    if (doorclover_begin(&state, store, sizeof store, COMMAND).status != DOORCLOVER_OK)
        return 1;
    if (!fetch(descriptor, STATUS) || !own_write(STATUS, status_word, sizeof status_word))
        return 1;
    if (!own_write(0, &done_flag, 1))
        return 1;
    memset(window + DESCRIPTOR, 0, SIZE); /* the host has its turn */
    if (!fetch(descriptor, SIZE))
        return 1;
    show("in the window", window + DESCRIPTOR);
    show("read back", descriptor);
    e = doorclover_end(&state, store, sizeof store, COMMAND);
    if (e.status != DOORCLOVER_OK)
        return 1;
    printf("ended with %zu record of %zu bytes\n", e.records, e.bytes);
    return descriptor[0] != done_flag || memcmp(descriptor + STATUS, status_word, sizeof status_word) != 0;
}
