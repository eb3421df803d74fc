/* What the cases of tests/c have in common: values to call functions with, and the attempt of one call. */
#ifndef CASES_H
#define CASES_H

#include <stdio.h>
#include <stdlib.h>

#include "calls.h"

/* ATTEMPT(function, the answer that the buyer's documents give, arguments...) */
#define ATTEMPT(name, expected, ...) attempt(&name##_function, &(name##_arguments){__VA_ARGS__}, expected)

#define ONE_TWO 6          /* the first word of the categories {1,2} */
#define PAST_BYTE 256      /* 0 in a byte */
#define ALL UINT64_MAX     /* a word of categories */

/* A label whose categories are all below 64. */
static inline lurm_label label(uint64_t hierarchy, uint64_t categories)
{
    lurm_label made = {0, {0, 0, 0, 0}};
    made.hierarchy = hierarchy;
    made.categories[0] = categories;
    return made;
}

/* The highest label there is. */
static inline lurm_label highest(void)
{
    lurm_label made = {LURM_MAX_HIERARCHY, {ALL, ALL, ALL, ALL}};
    return made;
}

static inline lurm_range range(lurm_label low, lurm_label high)
{
    lurm_range made;
    made.low = low;
    made.high = high;
    return made;
}

/* Who asks. */
static inline lurm_caller caller(lurm_label of, uint64_t read_override)
{
    lurm_caller made;
    made.label = of;
    made.read_override = read_override;
    return made;
}

/* Ends the program where a value that the cases need was refused. */
static inline void need(lurm_answer answer, const char *what)
{
    if (answer.refusal == 0)
        return;
    fprintf(stderr, "%s: refused, %s\n", what, lurm_strerror(answer.refusal));
    exit(2);
}

/* The tuple of a range. */
static inline lurm_tuple tuple(lurm_range of)
{
    lurm_tuple_answer split = lurm_range_split(of);
    need(split.answer, "a tuple");
    return split.tuple;
}

/* The tuple that has every label. */
static inline lurm_tuple every_label(void)
{
    return tuple(range(label(0, 0), highest()));
}

void label_cases(void);
void line_cases(void);
void text_cases(void);
void monitor_cases(void);
void state_cases(void);

#endif
