// What the programs of bench/ share: processor time, random numbers, records, and the stack that an operation uses, found by painting a stack of its
// own. C and C++; whoever includes it defines _GNU_SOURCE before anything else.
#ifndef BASICS_H
#define BASICS_H

#include <stddef.h>
#include <stdint.h>
#include <string.h>
#include <time.h>
#include <ucontext.h>

static inline double now(void) {
    struct timespec t;
    clock_gettime(CLOCK_PROCESS_CPUTIME_ID, &t);
    return (double)t.tv_sec + 1e-9 * (double)t.tv_nsec;
}

static uint64_t state;
static inline uint64_t rnd(void) {
    state ^= state << 13;
    state ^= state >> 7;
    state ^= state << 17;
    return state * 0x2545F4914F6CDD1Dull >> 11;
}

static inline uint8_t *number(uint8_t *at, uint64_t x, int bytes) {
    for (int i = 0; i < bytes; i++) *at++ = (uint8_t)(x >> (8 * i));
    return at;
}

static inline uint8_t *head(uint8_t *at, unsigned length, unsigned kind) { return number(number(at, length, 2), kind, 2); }

enum { STACK = 1 << 20 };

// Runs an operation on a stack of its own, painted before; the lowest byte that changed says how deep it went.
static inline size_t stack_used(void (*operation)(void)) {
    static uint8_t stack[STACK];
    static ucontext_t back, there;
    memset(stack, 0xA5, STACK);
    getcontext(&there);
    there.uc_stack.ss_sp = stack;
    there.uc_stack.ss_size = STACK;
    there.uc_link = &back;
    makecontext(&there, operation, 0);
    swapcontext(&back, &there);
    size_t i = 0;
    while (i < STACK && stack[i] == 0xA5) i++;
    return STACK - i;
}

#endif
