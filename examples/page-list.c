/*
 * The page list: are the pages that were checked the pages that are used?
 *
 * A host asks for a read of 12,000 bytes, into its memory from inside a page on and through three pages
 * more, whose addresses are in a list at address 64 of the window. The firmware walks the list and checks
 * that each span lies where the host may have data written. Then the host writes another address over the
 * second entry. The firmware walks the list again, to use it, and has the spans that were checked.
 *
 * Build and run it at the root of the repository:
 *
 *     ./build doorclover
 *     gcc -std=c11 -Iinclude examples/page-list.c target/staticlib/libdoorclover.a -o page-list
 *     ./page-list
 */
#include "doorclover.h"

#include <inttypes.h>
#include <stdio.h>

enum { COMMAND = 3, LIST = 64, ENTRY = 8, TRANSFER = 12000 };

/* Where the host may have data written: from the first address up to the last. */
static const uint64_t first = 0x100000, last = 0x10ffff, prp1 = 0x100c00;

/* The spans that a walk gives. */
typedef struct {
    size_t count;
    uint64_t addresses[DOORCLOVER_WALK_SPANS];
    uint32_t lengths[DOORCLOVER_WALK_SPANS];
} spans;

static doorclover_state state; /* all zero: fresh */
static uint8_t store[DOORCLOVER_STORE];
static uint8_t window[16384]; /* host memory, of which the data pages are another part */

/* The host puts the address of a page into its list, least byte first. */
static int host_puts(size_t place, uint64_t page)
{
    uint8_t bytes[ENTRY];
    for (size_t i = 0; i < ENTRY; i++)
        bytes[i] = (uint8_t)(page >> 8 * i);
    return doorclover_host_write(window, sizeof window, LIST + ENTRY * place, bytes, ENTRY).status ==
           DOORCLOVER_OK;
}

static int walk(spans *s)
{
    uint8_t scratch[DOORCLOVER_WALK_SCRATCH];
    doorclover_walked w = doorclover_walk(&state, store, sizeof store, window, sizeof window, scratch,
                                          sizeof scratch, s->addresses, DOORCLOVER_WALK_SPANS,
                                          s->lengths, DOORCLOVER_WALK_SPANS, COMMAND, prp1, LIST,
                                          TRANSFER);
    if (w.status != DOORCLOVER_OK) {
        printf("walk: refused with %u\n", (unsigned)w.status);
        return 0;
    }
    s->count = w.spans;
    printf("walked: %zu spans\n", s->count);
    return 1;
}

/* Does each span lie where the host may have data written? */
static int allowed(const spans *s)
{
    for (size_t i = 0; i < s->count; i++)
        if (s->addresses[i] < first || s->addresses[i] + s->lengths[i] - 1 > last) {
            printf("a span at %" PRIx64 " is not allowed\n", s->addresses[i]);
            return 0;
        }
    return 1;
}

/* The firmware's command. Between its two walks the host has its turn. */
static int read_command(void)
{
    spans checked, used;

    if (!walk(&checked) || !allowed(&checked))
        return 0;
    if (!host_puts(1, 0xfee00000))
        return 0;
    if (!walk(&used))
        return 0;
    printf("the host has %02x%02x%02x%02x in its second entry\n", window[LIST + ENTRY + 3],
           window[LIST + ENTRY + 2], window[LIST + ENTRY + 1], window[LIST + ENTRY]);
    for (size_t i = 0; i < used.count; i++)
        printf("write %4" PRIu32 " bytes to %" PRIx64 "\n", used.lengths[i], used.addresses[i]);
    return allowed(&used);
}

int main(void)
{
    doorclover_ended e;

    if (!host_puts(0, 0x104000) || !host_puts(1, 0x102000) || !host_puts(2, 0x107000))
        return 1;
    if (doorclover_begin(&state, store, sizeof store, COMMAND).status != DOORCLOVER_OK)
        return 1;
    if (!read_command())
        return 1;
    e = doorclover_end(&state, store, sizeof store, COMMAND);
    if (e.status != DOORCLOVER_OK)
        return 1;
    printf("ended with %zu record of %zu bytes\n", e.records, e.bytes);
    return 0;
}
