/* What the measuring programs share: the proved calls as a host in C sees them, times of two calls in turns, and the stack of a call. */
#ifndef MEASURING_H
#define MEASURING_H

#include "plain/plain.h"

struct plain_table cart_table_start(const u8 *table, usize n);
struct plain_table cart_table_step(const u8 *table, usize n, usize state, u8 letter);
struct plain_live cart_live_start(const u8 *file, usize n, u8 *live, usize live_len);
struct plain_live cart_live_step(const u8 *file, usize n, u8 *live, usize live_len, u8 letter);
struct plain_compiled cart_compile_basic(const u8 *file, usize n, u8 *output, usize output_len, u8 *work, usize work_len);
struct plain_compiled cart_compile_adaptive(const u8 *file, usize n, u8 *output, usize output_len, u8 *work, usize work_len);

/* of the C library; the kit has no headers */
struct timespec {
    long seconds, nanoseconds;
};
int clock_gettime(int clock, struct timespec *now);
long read(int descriptor, void *to, usize most);
int printf(const char *format, ...);
int memcmp(const void *a, const void *b, usize n);
void *memset(void *to, int byte, usize n);
void *memcpy(void *to, const void *from, usize n);
void qsort(void *list, usize count, usize size, int (*order)(const void *, const void *));

enum { MOST_ROUNDS = 101, STACK = 1 << 20, PAINT = 0xa5 };

/* Nanoseconds of two calls: the medians, and the least. */
struct times {
    double first, second, first_least, second_least;
};

/* The processor's time of this process: what else runs on the machine does not count. */
static double now(void) {
    struct timespec t;
    clock_gettime(2, &t);
    return (double)t.seconds * 1e9 + (double)t.nanoseconds;
}

/* Nanoseconds of a call, over some. */
static double timed(void (*call)(void), usize calls) {
    double from = now();
    for (usize k = 0; k < calls; k++)
        call();
    return (now() - from) / (double)calls;
}

static int ascending(const void *a, const void *b) {
    double x = *(const double *)a, y = *(const double *)b;
    return (x > y) - (x < y);
}

/* The two in turns. */
static struct times in_turns(void (*first)(void), void (*second)(void), usize rounds, usize calls) {
    static double one[MOST_ROUNDS], two[MOST_ROUNDS];
    for (usize k = 0; k < rounds; k++) {
        one[k] = timed(first, calls);
        two[k] = timed(second, calls);
    }
    qsort(one, rounds, sizeof *one, ascending);
    qsort(two, rounds, sizeof *two, ascending);
    return (struct times){one[rounds / 2], two[rounds / 2], one[0], two[0]};
}

/* Bytes of stack that a call uses, the return address too: it runs on a painted one. */
static usize stack_of(void (*call)(void)) {
    static u8 stack[STACK] __attribute__((aligned(16)));
    memset(stack, PAINT, STACK);
    __asm__ volatile("movq %%rsp, %%rbx\n\tmovq %0, %%rsp\n\tcallq *%1\n\tmovq %%rbx, %%rsp"
                     :
                     : "r"(stack + STACK), "r"(call)
                     : "rbx", "rax", "rcx", "rdx", "rsi", "rdi", "r8", "r9", "r10", "r11", "xmm0", "xmm1", "xmm2", "xmm3", "xmm4", "xmm5",
                       "xmm6", "xmm7", "xmm8", "xmm9", "xmm10", "xmm11", "xmm12", "xmm13", "xmm14", "xmm15", "memory", "cc");
    usize clean = 0;
    while (clean < STACK && stack[clean] == PAINT)
        clean++;
    return STACK - clean;
}

#endif
