/*
 * How much of a stack a function takes. Included before any other header, since what it needs is not in C99.
 */
#ifndef STACK_H
#define STACK_H

#define _DEFAULT_SOURCE
#define _XOPEN_SOURCE 700
#include "check.h"

#include <ucontext.h>

/* The bytes that a function takes of a stack, with what the switch to it takes. The stack is filled with a pattern
 * first; what is left of the pattern was not used. */
static inline size_t stack_used(uint8_t *stack, size_t length, void (*function)(void)) {
    enum { PATTERN = 0xa5 };
    static ucontext_t here, there;
    size_t left = 0;
    memset(stack, PATTERN, length);
    getcontext(&there);
    there.uc_stack.ss_sp = stack;
    there.uc_stack.ss_size = length;
    there.uc_link = &here;
    makecontext(&there, function, 0);
    swapcontext(&here, &there);
    while (left < length && stack[left] == PATTERN) {
        left++;
    }
    return length - left;
}

#endif
