/* The machine below the program, and the program's one function, which returns its status. */
#pragma once
#include <stddef.h>
#include <stdint.h>

void *memcpy(void *to, const void *from, size_t n);
void *memset(void *to, int value, size_t n);
void put(const char *text);
void put_number(uint64_t number);
int run(void);
