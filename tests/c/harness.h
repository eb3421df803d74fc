/*
 * Calls of exported functions on a stack that is filled with a byte before each call, so that what comes back can be held against what was said and
 * against that byte. Each call is made twice, with two bytes that have no bit in common: what differs between the two results came from the stack.
 */
#ifndef HARNESS_H
#define HARNESS_H

#include <stddef.h>
#include <stdint.h>
#include <string.h>

#include "lurmenize.h"

#define NO_ANSWER SIZE_MAX
#define PUSHED_BY_CALL 16 /* above the frame of a function that keeps a frame pointer: the pointer of the caller and the address to return to */
#define LENT_BYTES 20000  /* of the buffer that is lent to functions that write: more than the longest text */

/* An exported function, as tests/c/generate writes it from the header. */
typedef struct function {
    const char *name;
    void (*call)(int probed, const void *arguments, void *result);
    size_t arguments_size;
    size_t result_size;
    size_t answer;      /* where in the result the answer is, or NO_ANSWER where the result is a number alone */
    int takes_state;    /* and hands one back: both are the first in their structs */
    int writes;         /* to a buffer */
} function;

extern const function *const functions[];     /* all of the header, then NULL */
extern unsigned char *volatile stack_at_call; /* where the stack stood before the last call of a probe */
extern uint8_t lent[LENT_BYTES];              /* for the argument `out` */

/* Calls a function and finds fault with what comes back, unless its answer is the one that is expected, and all else is said: beside a refusal
 * zeros, or the state that was passed; in the buffer nothing past what a grant says is written. */
void attempt(const function *called, const void *arguments, lurm_answer expected);

/* The answers. */
lurm_answer granted(uint64_t value);
lurm_answer refused(uint32_t refusal);
lurm_answer refused_with(uint32_t refusal, uint64_t value);

/* All attempts there are: the cases under test say which. Those in `never_refused`, a list that ends in NULL, are granted whatever they are given. */
void attempts(void);
extern const char *const never_refused[];

#endif
