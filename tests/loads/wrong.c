/*
 * Fetches that are wrong, one for each value of WRONG, and those of the byte map, one for each value of WRONG_MAP; own writes that are
 * wrong, by WRONG_OWN and WRONG_MAP_OWN; walks that are wrong, by WRONG_WALK. 0 is a right one, and what is not given is 0. The driver's
 * calls are led here (ld --wrap), so that it is seen that the count tells them. All deliver and hold the right bytes, give the right
 * spans and the right reply.
 */
#include <stdbool.h>
#include <stdint.h>

#include "doorclover.h"

#ifndef WRONG
#define WRONG 0
#endif
#ifndef WRONG_MAP
#define WRONG_MAP 0
#endif
#ifndef WRONG_OWN
#define WRONG_OWN 0
#endif
#ifndef WRONG_MAP_OWN
#define WRONG_MAP_OWN 0
#endif
#ifndef WRONG_WALK
#define WRONG_WALK 0
#endif

#define ARGUMENTS                                                                                                              \
    doorclover_state *state, uint8_t *store, size_t store_size, const uint8_t *window, size_t window_size, uint8_t *destination, \
        size_t destination_size, size_t command, size_t address, size_t length
#define GIVEN state, store, store_size, window, window_size, destination, destination_size, command, address, length
#define MAP_ARGUMENTS                                                                                                 \
    const uint64_t *open, uint64_t *words, uint8_t *values, const uint8_t *window, size_t window_size, uint8_t *destination, \
        size_t destination_size, size_t address, size_t length
#define MAP_GIVEN open, words, values, window, window_size, destination, destination_size, address, length
#define OWN_ARGUMENTS                                                                                                 \
    doorclover_state *state, uint8_t *store, size_t store_size, uint8_t *window, size_t window_size, size_t command, \
        size_t address, const uint8_t *bytes, size_t size
#define OWN_GIVEN state, store, store_size, window, window_size, command, address, bytes, size
#define MAP_OWN_ARGUMENTS                                                                                        \
    const uint64_t *open, uint64_t *words, uint8_t *values, uint8_t *window, size_t window_size, size_t address, \
        const uint8_t *bytes, size_t size
#define MAP_OWN_GIVEN open, words, values, window, window_size, address, bytes, size
#define WALK_ARGUMENTS                                                                                                        \
    doorclover_state *state, uint8_t *store, size_t store_size, const uint8_t *window, size_t window_size, uint8_t *scratch, \
        size_t scratch_size, uint64_t *addresses, size_t address_places, uint32_t *lengths, size_t length_places,            \
        size_t command, uint64_t prp1, uint64_t prp2, size_t transfer
#define WALK_GIVEN                                                                                                        \
    state, store, store_size, window, window_size, scratch, scratch_size, addresses, address_places, lengths, length_places, \
        command, prp1, prp2, transfer

doorclover_fetched __real_doorclover_fetch(ARGUMENTS);
doorclover_fetched __wrap_doorclover_fetch(ARGUMENTS);
doorclover_fetched __real_doorclover_map_fetch(MAP_ARGUMENTS);
doorclover_fetched __wrap_doorclover_map_fetch(MAP_ARGUMENTS);
doorclover_written __real_doorclover_own_write(OWN_ARGUMENTS);
doorclover_written __wrap_doorclover_own_write(OWN_ARGUMENTS);
doorclover_written __real_doorclover_map_own_write(MAP_OWN_ARGUMENTS);
doorclover_written __wrap_doorclover_map_own_write(MAP_OWN_ARGUMENTS);
doorclover_walked __real_doorclover_walk(WALK_ARGUMENTS);
doorclover_walked __wrap_doorclover_walk(WALK_ARGUMENTS);

/* Loads a byte, and the compiler leaves it in. */
static void load(const uint8_t *byte) {
    (void)*(const volatile uint8_t *)byte;
}

/* Stores a byte, and the compiler leaves it in. */
static void store_to(uint8_t *byte, uint8_t value) {
    *(volatile uint8_t *)byte = value;
}

/* What is wrong behind a fetch; it may not touch the byte that is astray. */
static void go_wrong(int wrong, doorclover_fetched r, const uint8_t *window, const uint8_t *destination, size_t address,
                     size_t length, const uint8_t *astray) {
    bool done = r.status == 0 && length > 0;
    switch (wrong) {
    case 1: /* a fresh byte a second time */
        if (done && r.replayed == 0) load(window + address + length - 1);
        break;
    case 2: /* a byte that was held */
        if (done && r.fresh == 0) load(window + address);
        break;
    case 3: /* the byte behind the span */
        if (done) load(window + address + length);
        break;
    case 4: /* the destination */
        if (done) load(destination + length - 1);
        break;
    case 5: /* the window is stored to */
        if (done) store_to((uint8_t *)(uintptr_t)(window + address), 0);
        break;
    case 6: /* a refused fetch */
        if (r.status != 0) load(window);
        break;
    case 7: /* another command's part of the store, or what lies behind the values */
        if (done) load(astray);
        break;
    }
}

/* What is wrong behind an own write. */
static void go_wrong_own(int wrong, doorclover_written r, uint8_t *window, size_t address, const uint8_t *bytes, size_t size) {
    bool done = r.status == 0 && size > 0;
    switch (wrong) {
    case 1: /* its bytes are read back from the window */
        for (size_t i = 0; done && i < size; i++) load(window + address + i);
        break;
    case 2: /* a byte a second time */
        if (done) store_to(window + address, bytes[0]);
        break;
    case 3: /* the byte behind the span */
        if (done) store_to(window + address + size, 0);
        break;
    case 4: /* a refused own write loads */
        if (r.status != 0) load(window);
        break;
    case 5: /* a refused own write stores */
        if (r.status != 0) store_to(window, 0);
        break;
    }
}

/* What is wrong behind a walk; it may not touch the byte that is astray. */
static void go_wrong_walk(int wrong, doorclover_walked r, const uint8_t *window, uint64_t list, uint64_t *addresses,
                          const uint8_t *astray) {
    bool listed = r.status == 0 && r.spans > 2;
    switch (wrong) {
    case 1: /* an entry from the window again */
        for (size_t i = 0; listed && i < sizeof *addresses; i++) load(window + list + i);
        break;
    case 2: /* the byte before the list */
        if (listed) load(window + list - 1);
        break;
    case 3: /* the window is stored to */
        if (listed) store_to((uint8_t *)(uintptr_t)(window + list), 0);
        break;
    case 4: /* a refused walk */
        if (r.status != 0) load(window);
        break;
    case 5: /* another command's part of the store */
        if (listed) load(astray);
        break;
    case 6: /* a place behind the spans */
        if (listed) store_to((uint8_t *)(addresses + r.spans), 0);
        break;
    }
}

doorclover_fetched __wrap_doorclover_fetch(ARGUMENTS) {
    doorclover_fetched r = __real_doorclover_fetch(GIVEN);
    go_wrong(WRONG, r, window, destination, address, length, store + (command ^ 1) * DOORCLOVER_HELD);
    return r;
}

doorclover_fetched __wrap_doorclover_map_fetch(MAP_ARGUMENTS) {
    doorclover_fetched r = __real_doorclover_map_fetch(MAP_GIVEN);
    go_wrong(WRONG_MAP, r, window, destination, address, length, values + DOORCLOVER_MAP_ADDRESSES);
    return r;
}

doorclover_written __wrap_doorclover_own_write(OWN_ARGUMENTS) {
    doorclover_written r = __real_doorclover_own_write(OWN_GIVEN);
    go_wrong_own(WRONG_OWN, r, window, address, bytes, size);
    return r;
}

doorclover_written __wrap_doorclover_map_own_write(MAP_OWN_ARGUMENTS) {
    doorclover_written r = __real_doorclover_map_own_write(MAP_OWN_GIVEN);
    go_wrong_own(WRONG_MAP_OWN, r, window, address, bytes, size);
    return r;
}

doorclover_walked __wrap_doorclover_walk(WALK_ARGUMENTS) {
    doorclover_walked r = __real_doorclover_walk(WALK_GIVEN);
    go_wrong_walk(WRONG_WALK, r, window, prp2, addresses, store + (command ^ 1) * DOORCLOVER_HELD);
    return r;
}
