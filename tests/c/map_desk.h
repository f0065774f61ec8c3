/*
 * A desk for the byte map: what is lent to its calls, each part of a map in pages of its own, and the
 * calls made with it. Every call is tried in the same way: its reply is compared, and the whole map, the
 * destination and the window with what the rules make of what was there before.
 */
#ifndef MAP_DESK_H
#define MAP_DESK_H

#include "desk.h"

typedef struct {
    lent *open;
    lent *words;
    lent *values;
    lent *window;
    lent *destination;
    lent *bytes; /* what is written */
} map_desk;

/* A fresh map, a window of 4,096 bytes of which no two neighbours agree, a destination for all, no bytes. */
map_desk fresh_map_desk(void);

uint64_t *open_of(const map_desk *m);
uint64_t *bits_of(const map_desk *m);

/* Is the bit of an address set? Sets it. */
int is_held(const map_desk *m, size_t address);
void set_held(const map_desk *m, size_t address);

/* Where the next run of set bits from an address on starts, and where it ends; 4,096 if there is none. */
size_t run_start(const map_desk *m, size_t from);
size_t run_end(const map_desk *m, size_t from);

/* The host changes every byte of the window. */
void change_window(const map_desk *m);

/* A refusal: the status is the one wanted, all other members are 0, and nothing lent has changed. */
void map_begin_refused(const map_desk *m, doorclover_status want);
void map_fetch_refused(const map_desk *m, doorclover_status want, size_t address, size_t length);
void map_end_refused(const map_desk *m, doorclover_status want);
void map_own_refused(const map_desk *m, doorclover_status want, size_t address);

/* A call that is done: its reply is the one wanted, and what is lent has become what it must. */
void map_begin(const map_desk *m);
void map_fetch(const map_desk *m, size_t address, size_t length, size_t fresh, size_t replayed);
void map_end(const map_desk *m, size_t records, size_t bytes);
void map_own_write(const map_desk *m, size_t address, size_t fresh);

#endif
