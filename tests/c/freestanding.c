/*
 * The archive without a C library: memcpy and memset are here, and nothing else is linked. The retire
 * list is run, and then each call on a painted stack, to see how much of it is taken. For x86-64 Linux,
 * which is asked to write text and to end the program.
 */
#include "doorclover.h"

void *memcpy(void *restrict to, const void *restrict from, size_t size)
{
    uint8_t *t = to;
    const uint8_t *f = from;
    while (size-- > 0)
        *t++ = *f++;
    return to;
}

void *memset(void *to, int value, size_t size)
{
    uint8_t *t = to;
    while (size-- > 0)
        *t++ = (uint8_t)value;
    return to;
}

static long system_call(long number, long a, const void *b, size_t c)
{
    long r;
    __asm__ volatile("syscall"
                     : "=a"(r)
                     : "a"(number), "D"(a), "S"(b), "d"(c)
                     : "rcx", "r11", "memory");
    return r;
}

static void say(const char *text)
{
    size_t size = 0;
    while (text[size] != 0)
        size++;
    (void)system_call(1, 1, text, size);
}

static void say_number(size_t n)
{
    char text[21];
    size_t at = sizeof text - 1;
    text[at] = 0;
    do {
        text[--at] = (char)('0' + n % 10);
        n /= 10;
    } while (n > 0);
    say(text + at);
}

static doorclover_state state;
static doorclover_map map;
static uint8_t store[DOORCLOVER_STORE], window[16384], list[4096], output[8192];
static uint8_t scratch[DOORCLOVER_WALK_SCRATCH];
static uint64_t addresses[DOORCLOVER_WALK_SPANS];
static uint32_t lengths[DOORCLOVER_WALK_SPANS];

/* The host changes the count behind the check; the count that is used is the one that was checked. */
static int retire_list(void)
{
    static const uint8_t tags[] = {4, 0, 0x11, 0, 0x22, 0, 0x33, 0, 0x44}, forty = 40;
    doorclover_fetched f;
    if (doorclover_host_write(window, sizeof window, 64, tags, sizeof tags).bytes != 9)
        return 0;
    if (doorclover_begin(&state, store, sizeof store, 3).status != DOORCLOVER_OK)
        return 0;
    f = doorclover_fetch(&state, store, sizeof store, window, sizeof window, list, 1, 3, 64, 1);
    if (f.status != DOORCLOVER_OK || list[0] != 4)
        return 0;
    if (doorclover_host_write(window, sizeof window, 64, &forty, 1).bytes != 1)
        return 0;
    f = doorclover_fetch(&state, store, sizeof store, window, sizeof window, list, 9, 3, 64, 9);
    if (f.fresh != 8 || f.replayed != 1 || f.looked_at != 1 || list[0] != 4 || window[64] != 40)
        return 0;
    return doorclover_end(&state, store, sizeof store, 3).bytes == 9;
}

/* The calls to be measured, each in a state in which it has much to do. */
static volatile size_t told;

static void fresh(void)
{
    doorclover_fresh(&state);
}

static void begin(void)
{
    told = doorclover_begin(&state, store, sizeof store, 3).status;
}

static void fetch(void)
{
    told = doorclover_fetch(&state, store, sizeof store, window, sizeof window, list, sizeof list, 3,
                            1, 4096).status;
}

static void end(void)
{
    told = doorclover_end(&state, store, sizeof store, 3).status;
}

static void host_write(void)
{
    told = doorclover_host_write(window, sizeof window, 0, list, sizeof list).status;
}

static void own_write(void)
{
    told = doorclover_own_write(&state, store, sizeof store, window, sizeof window, 3, 1, list,
                                sizeof list).status;
}

/* The window is all zeros: its last entry leads onward to 16 more, at 0. */
static void walk(void)
{
    doorclover_walked r = doorclover_walk(&state, store, sizeof store, window, sizeof window, scratch,
                                          sizeof scratch, addresses, DOORCLOVER_WALK_SPANS, lengths,
                                          DOORCLOVER_WALK_SPANS, 3, 4, sizeof window - 8,
                                          DOORCLOVER_WALK_TRANSFER);
    told = r.spans == DOORCLOVER_WALK_SPANS ? r.status : 1;
}

static void show(void)
{
    told = doorclover_show(&state, 3, 0).status;
}

static void frame_write(void)
{
    told = doorclover_frame_write(output, sizeof output, DOORCLOVER_KIND_OWN_WRITE, 3, 0, 4096, list,
                                  sizeof list).status;
}

static void frame_read(void)
{
    told = doorclover_frame_read(output, sizeof output).status;
}

static void journal(void)
{
    static const uint8_t frames[] = {
        0x0c, 0, 0,    0, 0,       /* begin 3 */
        0x2c, 0, 0x04, 0, 0x20,    /* fetch 1+1 */
        0x2c, 0, 0x0c, 0, 0x20,    /* fetch 3+1 */
        0x8c, 0, 0x08, 0, 0x20, 1, /* own write 2+1, which joins them */
        0x2c, 0, 0x02, 0, 0,       /* fetch 0+4096 */
        0x60, 0, 0,    0, 0x20, 1, /* host write 0+1 */
        0x4c, 0, 0,    0, 0        /* end 3 */
    };
    doorclover_replayed r = doorclover_journal_replay(frames, sizeof frames, store, sizeof store,
                                                      window, sizeof window, list, sizeof list,
                                                      output, sizeof output);
    told = r.carried == 7 && r.early == 0 ? 0 : 1;
}

static void map_fresh(void)
{
    doorclover_map_fresh(&map.open, map.words, map.values);
}

static void map_begin(void)
{
    told = doorclover_map_begin(&map.open, map.words, map.values).status;
}

static void map_fetch(void)
{
    told = doorclover_map_fetch(&map.open, map.words, map.values, window, 4096, list, sizeof list, 1,
                                4095).status;
}

static void map_end(void)
{
    told = doorclover_map_end(&map.open, map.words, map.values).status;
}

static void map_own_write(void)
{
    told = doorclover_map_own_write(&map.open, map.words, map.values, window, 4096, 1, list, 4095).status;
}

/* A stack of its own. */
enum { STACK = 16384, PAINT = 0xa5 };
static _Alignas(16) uint8_t stack[STACK];

/* The bytes of it that a function takes. */
static size_t depth(void (*function)(void))
{
    size_t untouched = 0;
    for (size_t i = 0; i < STACK; i++)
        stack[i] = PAINT;
    __asm__ volatile("movq %%rsp, %%rbx\n\t"
                     "movq %0, %%rsp\n\t"
                     "call *%1\n\t"
                     "movq %%rbx, %%rsp"
                     :
                     : "r"(stack + STACK), "r"(function)
                     : "rax", "rbx", "rcx", "rdx", "rsi", "rdi", "r8", "r9", "r10", "r11", "xmm0",
                       "xmm1", "xmm2", "xmm3", "xmm4", "xmm5", "xmm6", "xmm7", "xmm8", "xmm9",
                       "xmm10", "xmm11", "xmm12", "xmm13", "xmm14", "xmm15", "cc", "memory");
    while (untouched < STACK && stack[untouched] == PAINT)
        untouched++;
    return STACK - untouched;
}

/* Is a call done, and on no more stack than the header says? The few bytes of calling it count too. */
static int within(const char *name, void (*function)(void), size_t most)
{
    size_t bytes = depth(function);
    say("         ");
    say(name);
    say(" takes ");
    say_number(bytes);
    say(told == DOORCLOVER_OK ? " bytes of stack\n" : " bytes of stack and is refused\n");
    return told == DOORCLOVER_OK && bytes <= most;
}

/* Command 3 has records of one byte, which the fetch, the own write and the walk's second list join. */
static int hold_some(void)
{
    for (size_t i = 0; i < DOORCLOVER_RECORDS - 1; i++)
        if (doorclover_fetch(&state, store, sizeof store, window, sizeof window, list, 1, 3, 2 + 2 * i,
                             1).fresh != 1)
            return 0;
    return 1;
}

/* The map has as many runs, each of a byte, in the middle of a word. */
static int map_some(void)
{
    for (size_t i = 0; i < DOORCLOVER_MAP_WORDS; i++)
        if (doorclover_map_fetch(&map.open, map.words, map.values, window, 4096, list, 1, 64 * i + 33,
                                 1).fresh != 1)
            return 0;
    return 1;
}

static int stacks(void)
{
    int good = within("fresh", fresh, DOORCLOVER_STACK);
    good &= within("begin", begin, DOORCLOVER_STACK);
    good &= hold_some();
    good &= within("show", show, DOORCLOVER_STACK);
    good &= within("fetch", fetch, DOORCLOVER_STACK);
    good &= within("host write", host_write, DOORCLOVER_STACK);
    good &= within("end", end, DOORCLOVER_STACK);
    begin();
    good &= hold_some();
    good &= within("own write", own_write, DOORCLOVER_STACK);
    end();
    begin();
    memset(window, 0, sizeof window);
    good &= hold_some();
    good &= within("walk", walk, DOORCLOVER_STACK);
    good &= within("frame write", frame_write, DOORCLOVER_STACK);
    good &= within("frame read", frame_read, DOORCLOVER_STACK);
    good &= within("journal replay", journal, DOORCLOVER_JOURNAL_STACK);
    good &= within("map fresh", map_fresh, DOORCLOVER_STACK);
    good &= within("map begin", map_begin, DOORCLOVER_STACK);
    good &= map_some();
    good &= within("map fetch", map_fetch, DOORCLOVER_STACK);
    good &= within("map end", map_end, DOORCLOVER_STACK);
    map_begin();
    good &= map_some();
    good &= within("map own write", map_own_write, DOORCLOVER_STACK);
    return good;
}

/* Called by _start; what it gives is the status of the program. */
int run(void);
int run(void)
{
    int good = doorclover_release() == DOORCLOVER_RELEASE;
    good &= retire_list();
    good &= stacks();
    return good ? 0 : 1;
}

__asm__(".globl _start\n"
        "_start:\n\t"
        "xorl %ebp, %ebp\n\t"
        "call run\n\t"
        "movl %eax, %edi\n\t"
        "movl $60, %eax\n\t"
        "syscall\n");
