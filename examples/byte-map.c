/*
 * The byte map: is the count that was checked the count that is used?
 *
 * A host has a list at address 62: a count, 4, and four tags of a byte, which are 0 here. The firmware
 * fetches the count and checks it. Then the host writes 40 over it. The firmware fetches the whole list, and still has 4:
 * the map holds the byte that was checked. Its bits are printed, which go over the edge of a word.
 *
 * Build and run it at the root of the repository:
 *
 *     ./build doorclover
 *     gcc -std=c11 -Iinclude examples/byte-map.c target/staticlib/libdoorclover.a -o byte-map
 *     ./byte-map
 */
#include "doorclover.h"

#include <inttypes.h>
#include <stdio.h>

enum { LIST = 62, MOST_TAGS = 8 };

static doorclover_map map; /* all zero: fresh */
static uint8_t window[DOORCLOVER_MAP_ADDRESSES]; /* host memory */

static int fetch(uint8_t *destination, size_t room, size_t length)
{
    doorclover_fetched f = doorclover_map_fetch(&map.open, map.words, map.values, window,
                                                sizeof window, destination, room, LIST, length);
    if (f.status != DOORCLOVER_OK) {
        printf("fetch: refused with %u\n", (unsigned)f.status);
        return 0;
    }
    printf("fetched %zu: %zu fresh, %zu replayed, words %016" PRIx64 " %016" PRIx64 "\n", length,
           f.fresh, f.replayed, map.words[0], map.words[1]);
    return 1;
}

int main(void)
{
    uint8_t checked, list[1 + MOST_TAGS];
    doorclover_ended e;

    window[LIST] = 4;
    if (doorclover_map_begin(&map.open, map.words, map.values).status != DOORCLOVER_OK)
        return 1;
    if (!fetch(&checked, sizeof checked, 1) || checked > MOST_TAGS)
        return 1;
    window[LIST] = 40; /* the host has its turn */
    if (!fetch(list, sizeof list, 1 + (size_t)checked))
        return 1;
    printf("the host has %u, the firmware uses %u\n", window[LIST], list[0]);
    e = doorclover_map_end(&map.open, map.words, map.values);
    if (e.status != DOORCLOVER_OK)
        return 1;
    printf("ended with %zu run of %zu bytes\n", e.records, e.bytes);
    return list[0] != checked;
}
