/*
 * Memory to lend. Each piece stands in pages of its own between two that fault when touched: at the
 * front of its pages or at their back, so that a byte too far down or up is caught, read or written.
 * The rest of its pages is guard bytes, which must not change.
 */
#ifndef LENT_H
#define LENT_H

#include "doorclover.h"

typedef struct {
    uint8_t *bytes; /* what is lent */
    size_t size;
    uint8_t *pages; /* all that may be touched: the bytes and the guard bytes */
    size_t pages_size;
    uint8_t *kept; /* the pages as they were */
} lent;

/* Where in its pages a piece stands. */
typedef enum { AT_FRONT, AT_BACK } place;
extern place lent_place;

/* A piece of so many bytes, all of one value. It is good until return_all. */
lent *lend(size_t size, uint8_t value);

/* The null pointer with length 0. */
extern lent nothing;

void return_all(void);

/* Remembers every piece that is lent, guard bytes too. */
void keep_all(void);

/* These bytes of a piece may have changed since. */
void allow(lent *l, size_t from, size_t size);

/* Is all else as it was? */
int all_kept(void);

#endif
