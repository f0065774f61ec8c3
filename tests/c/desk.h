/*
 * A desk: what is lent to the calls, and the calls made with it. Every call is tried in the same way:
 * its status is noted, and what it must leave alone is compared byte for byte.
 */
#ifndef DESK_H
#define DESK_H

#include "lent.h"

typedef struct {
    lent *state;
    lent *store;
    lent *window;
    lent *destination;
    lent *bytes;  /* what is written, the data of a frame, a frame or a journal */
    lent *output; /* a frame or a log */
    lent *scratch; /* of a walk, and where it puts its spans */
    lent *addresses;
    lent *lengths;
} desk;

/* A test fails if one of its checks does. */
#define CHECK(what) check((what) != 0, #what, __FILE__, __LINE__)
void check(int good, const char *what, const char *file, int line);
extern unsigned long checks, failures;

/* A fresh state, a store of old bytes, a window of 16,384 bytes of which no two neighbours agree. */
desk fresh_desk(void);

/* A piece that holds the given bytes. */
lent *lend_bytes(const void *bytes, size_t size);

doorclover_state *state_of(const desk *d);
uint16_t *words_of(const desk *d, size_t command);

/* The byte of the window at an address, as a fresh desk has it. */
uint8_t host_byte(size_t address);

/* Words that do not hold together, and as they were. */
void break_words(const desk *d);
void mend_words(const desk *d);

/* Commands that there are none of. */
enum { TOO_HIGH = 6 };
extern const size_t too_high[TOO_HIGH];

/*
 * A walk: what it is given, and what is wanted of it. It makes at most two fetches, each of the entries of
 * a list; one of length 0 is none.
 */
typedef struct {
    size_t command;
    uint64_t prp1, prp2;
    size_t transfer;
    struct {
        size_t address, length;
    } lists[2];
    uint64_t pages[DOORCLOVER_WALK_SPANS]; /* the addresses of its spans */
    size_t spans;
} walking;

/*
 * What a call replied, by its name, against the refusal wanted: the status is that one, the other
 * members are 0 (others is all of them by a bitwise or), and nothing lent has changed.
 */
void turned_away(const char *call, doorclover_status want, doorclover_status status, size_t others);

/* A refusal: the status is the one wanted, all other members are 0, and nothing lent has changed. */
void begin_refused(const desk *d, doorclover_status want, size_t command);
void end_refused(const desk *d, doorclover_status want, size_t command);
void fetch_refused(const desk *d, doorclover_status want, size_t command, size_t address,
                   size_t length);
void host_refused(const desk *d, doorclover_status want, size_t address);
void own_refused(const desk *d, doorclover_status want, size_t command, size_t address);
void walk_refused(const desk *d, doorclover_status want, const walking *w);
void show_refused(const desk *d, doorclover_status want, size_t command, size_t index);
void read_refused(const desk *d, doorclover_status want);
void write_refused(const desk *d, doorclover_status want, size_t kind, size_t command,
                   size_t address, size_t length);

/*
 * A walk that is refused from PRP1 on, when so many of its fetches were accepted: state and store are what
 * these leave, the scratch is zero, and nothing else has changed.
 */
void walk_stopped(const desk *d, doorclover_status want, const walking *w, size_t accepted);

/*
 * A call that is done: its reply is the one wanted, and no byte has changed that it may not change. How many
 * records a fetch looked at is held against the words before it, a walk's number against its fetches, and
 * each returns it.
 */
void begin(const desk *d, size_t command);
void end(const desk *d, size_t command, size_t records, size_t bytes);
size_t fetch(const desk *d, size_t command, size_t address, size_t length, size_t fresh,
             size_t replayed);
void host_write(const desk *d, size_t address);
void own_write(const desk *d, size_t command, size_t address, size_t fresh);
size_t walk(const desk *d, const walking *w);
void show(const desk *d, size_t command, size_t index, size_t start, size_t length);

/* Were just these refusals seen, of a call by its name? The numbers end with 0. */
int seen_just(const char *call, const doorclover_status *numbers);

#endif
