/*
 * What a program without a C library needs: its start, memcpy and memset, and of the system only write and exit (Linux's, so that
 * it runs on an emulator too). On a controller these would be its own.
 */
#include "machine.h"

#if defined(__x86_64__)
#define WRITE 1
#define EXIT 60
__asm__(".globl _start\n_start: xor %ebp, %ebp\n call start\n");

static size_t call(size_t number, size_t a, size_t b, size_t c) {
    size_t r;
    __asm__ volatile("syscall" : "=a"(r) : "a"(number), "D"(a), "S"(b), "d"(c) : "rcx", "r11", "memory");
    return r;
}
#elif defined(__aarch64__)
#define WRITE 64
#define EXIT 93
__asm__(".globl _start\n_start: bl start\n");

static size_t call(size_t number, size_t a, size_t b, size_t c) {
    register size_t x8 __asm__("x8") = number, x0 __asm__("x0") = a, x1 __asm__("x1") = b, x2 __asm__("x2") = c;
    __asm__ volatile("svc 0" : "+r"(x0) : "r"(x8), "r"(x1), "r"(x2) : "memory");
    return x0;
}
#elif defined(__riscv)
#define WRITE 64
#define EXIT 93
__asm__(".globl _start\n_start: .option push\n .option norelax\n la gp, __global_pointer$\n .option pop\n call start\n");

static size_t call(size_t number, size_t a, size_t b, size_t c) {
    register size_t a7 __asm__("a7") = number, a0 __asm__("a0") = a, a1 __asm__("a1") = b, a2 __asm__("a2") = c;
    __asm__ volatile("ecall" : "+r"(a0) : "r"(a7), "r"(a1), "r"(a2) : "memory");
    return a0;
}
#else
#error "no such machine"
#endif

void start(void);

void *memcpy(void *to, const void *from, size_t n) {
    for (size_t i = 0; i < n; i++) ((char *)to)[i] = ((const char *)from)[i];
    return to;
}

void *memset(void *to, int value, size_t n) {
    for (size_t i = 0; i < n; i++) ((char *)to)[i] = (char)value;
    return to;
}

void put(const char *text) {
    size_t n = 0;
    while (text[n] != 0) n++;
    call(WRITE, 1, (size_t)text, n);
}

void put_number(uint64_t number) {
    char digits[21], *at = digits + 20;
    *at = 0;
    do {
        *--at = (char)('0' + number % 10);
        number /= 10;
    } while (number != 0);
    put(at);
}

void start(void) {
    call(EXIT, (size_t)run(), 0, 0);
    for (;;) continue;
}
