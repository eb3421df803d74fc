/* What tests/c/faulty.h says. The pointers are volatile so that a compiler does not see the faults, and warn of them. */
#include "faulty.h"

#include "calls.h"

#define FRAME 64 /* bytes */

const char *const never_refused[] = {"lurm_pads", "lurm_leaks", "lurm_overwrites", "lurm_answers", "lurm_sprawls", NULL};

lurm_padded lurm_pads(uint64_t flag)
{
    lurm_padded made;
    made.answer = granted(0);
    made.flag = (uint8_t)flag;
    made.numbers[0] = 0;
    made.numbers[1] = 0;
    return made;
}

lurm_label_answer lurm_forgets(uint64_t refusal)
{
    lurm_label_answer made;
    lurm_label_answer *volatile pointed = &made;
    pointed->answer = refused((uint32_t)refusal);
    return made;
}

lurm_answer lurm_leaks(uint64_t at)
{
    unsigned char frame[FRAME];
    unsigned char *volatile pointed = frame;
    pointed[at] = 0;
    return granted(pointed[at + 1] == 0x5a);
}

lurm_answer lurm_overwrites(uint8_t *out, size_t out_length)
{
    memset(out, 0, out_length);
    return granted(out_length - 1);
}

lurm_answer lurm_answers(uint64_t value)
{
    return granted(value);
}

lurm_answer lurm_sprawls(uint64_t at)
{
    unsigned char frame[2 * LURM_STACK_BYTES];
    unsigned char *volatile pointed = frame;
    pointed[at] = 0;
    return granted(pointed[at]);
}

void attempts(void)
{
    lurm_pads_arguments pads = {1};
    lurm_forgets_arguments forgets = {LURM_EINVAL};
    lurm_leaks_arguments leaks = {0};
    lurm_overwrites_arguments overwrites = {lent, FRAME};
    lurm_answers_arguments answers = {1};
    lurm_sprawls_arguments sprawls = {0};

    attempt(&lurm_pads_function, &pads, granted(0));
    attempt(&lurm_forgets_function, &forgets, refused(LURM_EINVAL));
    attempt(&lurm_leaks_function, &leaks, granted(0));
    attempt(&lurm_overwrites_function, &overwrites, granted(FRAME - 1));
    attempt(&lurm_answers_function, &answers, granted(1));
    attempt(&lurm_sprawls_function, &sprawls, granted(0));
}
