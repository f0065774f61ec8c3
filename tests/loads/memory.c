/* The two functions that the archive asks for. Each touches every byte once. */
#include <stddef.h>

void *memcpy(void *to, const void *from, size_t n) {
    char *t = to;
    const char *f = from;
    for (size_t i = 0; i < n; i++) t[i] = f[i];
    return to;
}

void *memset(void *to, int value, size_t n) {
    char *t = to;
    for (size_t i = 0; i < n; i++) t[i] = (char)value;
    return to;
}
