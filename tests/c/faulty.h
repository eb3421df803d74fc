/* Functions with faults that tests/c/harness.c has to find, and a struct that the layout of tests/c/generate has to refuse. */
#ifndef FAULTY_H
#define FAULTY_H

#include "lurmenize.h"

/* ---- Faults ---- */

/* The seven bytes after the flag belong to no field. */
typedef struct lurm_padded {
    lurm_answer answer;
    uint8_t flag;
    uint64_t numbers[2];
} lurm_padded;

/* Sets every field, and no byte between them. */
lurm_padded lurm_pads(uint64_t flag);

/* Sets no label beside a refusal. */
lurm_label_answer lurm_forgets(uint64_t refusal);

/* Answers a number that it finds in its own frame. */
lurm_answer lurm_leaks(uint64_t at);

/* Writes a byte more than it says. */
lurm_answer lurm_overwrites(uint8_t *out, size_t out_length);

/* Has no fault. */
lurm_answer lurm_answers(uint64_t value);

/* Takes twice LURM_STACK_BYTES of stack. */
lurm_answer lurm_sprawls(uint64_t at);

#endif
