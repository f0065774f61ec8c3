#define _DEFAULT_SOURCE
#include "lent.h"

#include <stdio.h>
#include <stdlib.h>
#include <string.h>
#include <sys/mman.h>

enum { PAGE = 4096, MOST = 64, GUARD = 0xa5 };

place lent_place = AT_FRONT;
lent nothing = {0};
static lent all[MOST];
static size_t lent_count;

static void give_up(const char *what)
{
    printf("lent.c: %s\n", what);
    exit(2);
}

/* Pages between two fences. */
static uint8_t *fenced(size_t size)
{
    uint8_t *map = mmap(NULL, size + 2 * PAGE, PROT_NONE, MAP_PRIVATE | MAP_ANONYMOUS, -1, 0);
    if (map == MAP_FAILED || mprotect(map + PAGE, size, PROT_READ | PROT_WRITE) != 0)
        give_up("no pages");
    return map + PAGE;
}

lent *lend(size_t size, uint8_t value)
{
    lent *l = &all[lent_count];
    if (lent_count++ == MOST)
        give_up("too many pieces");
    l->size = size;
    l->pages_size = (size / PAGE + 1) * PAGE;
    l->pages = fenced(l->pages_size);
    l->bytes = lent_place == AT_FRONT ? l->pages : l->pages + (l->pages_size - size);
    l->kept = malloc(l->pages_size);
    if (l->kept == NULL)
        give_up("no memory");
    memset(l->pages, GUARD, l->pages_size);
    memset(l->bytes, value, size);
    return l;
}

void return_all(void)
{
    while (lent_count > 0) {
        lent *l = &all[--lent_count];
        if (munmap(l->pages - PAGE, l->pages_size + 2 * PAGE) != 0)
            give_up("pages cannot be given back");
        free(l->kept);
    }
}

void keep_all(void)
{
    for (size_t i = 0; i < lent_count; i++)
        memcpy(all[i].kept, all[i].pages, all[i].pages_size);
}

void allow(lent *l, size_t from, size_t size)
{
    if (size == 0)
        return;
    memcpy(l->kept + (l->bytes - l->pages) + from, l->bytes + from, size);
}

int all_kept(void)
{
    for (size_t i = 0; i < lent_count; i++)
        if (memcmp(all[i].kept, all[i].pages, all[i].pages_size) != 0)
            return 0;
    return 1;
}
