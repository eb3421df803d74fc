/*
 * What tests/c/harness.h says, and the program around it:
 *
 *     calls          makes all attempts, and fails where there is a fault: in what comes back, in a function that was left out, or in one that
 *                    takes more than LURM_STACK_BYTES of stack
 *     calls table    the same, and prints how much stack each function took at most
 *     calls threads  makes all attempts on threads with little more stack than LURM_STACK_BYTES
 */
#define _XOPEN_SOURCE 700
#include "harness.h"

#include <inttypes.h>
#include <pthread.h>
#include <stdio.h>
#include <stdlib.h>
#include <sys/mman.h>
#include <ucontext.h>
#include <unistd.h>

#ifndef MAP_ANONYMOUS
#define MAP_ANONYMOUS 0x20 /* Linux has it, though the standard that is asked for above has not */
#endif

#define PAINTS 2
#define MOST_FUNCTIONS 100
#define MOST_RESULT 8192         /* bytes of the largest result, and more */
#define OWN_STACK (1024 * 1024)  /* bytes: far more than any function takes */
#define GUARD (1024 * 1024)      /* bytes below a stack that can't be touched: more than any frame, so that no write passes over them */
#define THREAD_TAKES (2 * 4096)  /* what a thread has at the top of its stack: its record in the C library, the variables that each thread has, and
                                    the frames that lead to its function. 4.4 KB with glibc, which in whole pages is two */
#define CALLER_TAKES 1024        /* the frame of the function that makes the call: saved registers and what the compiler keeps in it, beside the
                                    copies of arguments and result, which are counted by their sizes */

typedef struct took {
    unsigned attempts;
    size_t most; /* bytes of stack */
} took;

static const unsigned char paints[PAINTS] = {0xa5, 0x5a};
static took grants[MOST_FUNCTIONS], refusals[MOST_FUNCTIONS];
static int faults, on_threads;

uint8_t lent[LENT_BYTES];
unsigned char *volatile stack_at_call;

/* ---- Faults and answers ---- */

static void fault(const function *called, lurm_answer expected, const char *what)
{
    fprintf(stderr, "%s, expected %" PRIu32 " (%s) with %" PRIu64 ": %s\n", called->name, expected.refusal, lurm_strerror(expected.refusal),
            expected.value, what);
    faults++;
}

static void must(int done, const char *what)
{
    if (done)
        return;
    perror(what);
    exit(2);
}

lurm_answer granted(uint64_t value)
{
    lurm_answer answer = {0, 0, 0};
    answer.value = value;
    return answer;
}

lurm_answer refused(uint32_t refusal)
{
    lurm_answer answer = {0, 0, 0};
    answer.refusal = refusal;
    return answer;
}

lurm_answer refused_with(uint32_t refusal, uint64_t value)
{
    lurm_answer answer = refused(refusal);
    answer.carries = 1;
    answer.value = value;
    return answer;
}

/* ---- A call on a stack of its own ---- */

typedef struct job {
    const function *called;
    int probed;
    const void *arguments;
    void *result;
} job;

static job now;
static ucontext_t here, there;

/* Memory for a stack that grows down to pages which can't be touched. */
static unsigned char *stack_of(size_t bytes)
{
    unsigned char *memory = mmap(NULL, GUARD + bytes, PROT_READ | PROT_WRITE, MAP_PRIVATE | MAP_ANONYMOUS, -1, 0);
    must(memory != MAP_FAILED, "mmap");
    must(mprotect(memory, GUARD, PROT_NONE) == 0, "mprotect");
    return memory + GUARD;
}

static void give_back(unsigned char *stack, size_t bytes)
{
    must(munmap(stack - GUARD, GUARD + bytes) == 0, "munmap");
}

static void work(void)
{
    now.called->call(now.probed, now.arguments, now.result);
}

/* Does `now` on a stack of one byte all over, and gives the lowest address that was written to. */
static const unsigned char *on_painted_stack(unsigned char paint)
{
    static unsigned char *stack;
    const unsigned char *deepest;

    if (stack == NULL)
        stack = stack_of(OWN_STACK);
    memset(stack, paint, OWN_STACK);
    must(getcontext(&there) == 0, "getcontext");
    there.uc_stack.ss_sp = stack;
    there.uc_stack.ss_size = OWN_STACK;
    there.uc_link = &here;
    makecontext(&there, work, 0);
    must(swapcontext(&here, &there) == 0, "swapcontext");
    for (deepest = stack; *deepest == paint; deepest++)
        continue;
    return deepest;
}

static void *thread(void *nothing)
{
    (void)nothing;
    work();
    return NULL;
}

static size_t whole_pages(size_t bytes)
{
    size_t page = (size_t)sysconf(_SC_PAGESIZE);
    return (bytes + page - 1) / page * page;
}

/* Does `now` on a thread that has what the header says, what the thread itself takes, and what the caller copies. */
static void on_thread(void)
{
    size_t copies = now.called->arguments_size + now.called->result_size;
    size_t bytes = whole_pages(LURM_STACK_BYTES) + THREAD_TAKES + whole_pages(CALLER_TAKES + copies);
    unsigned char *stack = stack_of(bytes);
    pthread_attr_t attributes;
    pthread_t id;

    fprintf(stderr, "%s on a thread with %zu bytes of stack\n", now.called->name, bytes);
    must(pthread_attr_init(&attributes) == 0, "pthread_attr_init");
    must(pthread_attr_setstack(&attributes, stack, bytes) == 0, "pthread_attr_setstack");
    must(pthread_create(&id, &attributes, thread, NULL) == 0, "pthread_create");
    must(pthread_join(id, NULL) == 0, "pthread_join");
    must(pthread_attr_destroy(&attributes) == 0, "pthread_attr_destroy");
    give_back(stack, bytes);
}

/* ---- What comes back ---- */

static int all_are(const unsigned char *bytes, size_t count, unsigned char byte)
{
    size_t i;
    for (i = 0; i < count; i++)
        if (bytes[i] != byte)
            return 0;
    return 1;
}

static void check_answer(const function *called, const unsigned char *result, lurm_answer expected)
{
    uint64_t number;
    if (called->answer != NO_ANSWER) {
        if (memcmp(result + called->answer, &expected, sizeof expected) != 0)
            fault(called, expected, "another answer");
        return;
    }
    memcpy(&number, result, sizeof number);
    if (number != expected.value)
        fault(called, expected, "another number");
}

static void check_beside_refusal(const function *called, const void *arguments, const unsigned char *result, lurm_answer expected)
{
    static unsigned char said[MOST_RESULT];
    memset(said, 0, sizeof said);
    if (called->takes_state)
        memcpy(said, arguments, sizeof(lurm_state));
    memcpy(said + called->answer, &expected, sizeof expected);
    if (memcmp(said, result, called->result_size) != 0)
        fault(called, expected, called->takes_state ? "beside the refusal is another state, or no zeros" : "beside the refusal are no zeros");
}

static void check_lent(const function *called, lurm_answer expected, unsigned char paint)
{
    size_t written = called->writes && expected.refusal == 0 ? (size_t)expected.value : 0;
    if (!all_are(lent + written, sizeof lent - written, paint))
        fault(called, expected, "a byte of the buffer was written that is not said");
}

/* ---- Attempts ---- */

static void note(took *least, const function *called, size_t bytes)
{
    size_t i;
    for (i = 0; functions[i] != called; i++)
        continue;
    least[i].attempts++;
    if (bytes > least[i].most)
        least[i].most = bytes;
}

/* How much stack a function takes: from where it stood before the call, which a probe tells that is called from the same frame. */
static size_t stack_taken(const unsigned char *deepest)
{
    static unsigned char ignored[MOST_RESULT];
    job probe = now;
    probe.probed = 1;
    probe.result = ignored;
    now = probe;
    (void)on_painted_stack(paints[0]);
    return deepest < stack_at_call ? (size_t)(stack_at_call - deepest) : 0;
}

/* One call: the memory for the result, the buffer and the stack are of one byte all over before it. */
static size_t painted_call(const function *called, const void *arguments, unsigned char paint, unsigned char *result, lurm_answer expected)
{
    job made = {0};
    size_t bytes = 0;

    made.called = called;
    made.arguments = arguments;
    made.result = result;
    memset(result, paint, MOST_RESULT);
    memset(lent, paint, sizeof lent);
    now = made;
    if (on_threads)
        on_thread(); /* a thread that overruns its stack ends the program: its function is the last that was named */
    else
        bytes = stack_taken(on_painted_stack(paint));
    check_answer(called, result, expected);
    check_lent(called, expected, paint);
    if (expected.refusal != 0)
        check_beside_refusal(called, arguments, result, expected);
    return bytes;
}

void attempt(const function *called, const void *arguments, lurm_answer expected)
{
    static unsigned char result[PAINTS][MOST_RESULT];
    static uint8_t written[LENT_BYTES];
    size_t length = called->writes && expected.refusal == 0 ? (size_t)expected.value : 0;
    size_t first, second;

    first = painted_call(called, arguments, paints[0], result[0], expected);
    memcpy(written, lent, sizeof written);
    second = painted_call(called, arguments, paints[1], result[1], expected);
    if (memcmp(result[0], result[1], called->result_size) != 0)
        fault(called, expected, "what comes back has bytes of the stack");
    if (memcmp(written, lent, length) != 0)
        fault(called, expected, "what is written has bytes of the stack");
    note(expected.refusal == 0 ? grants : refusals, called, first > second ? first : second);
}

/* ---- The whole ---- */

static int is_never_refused(const function *called)
{
    const char *const *name;
    for (name = never_refused; *name != NULL; name++)
        if (strcmp(*name, called->name) == 0)
            return 1;
    return 0;
}

static void check_sizes(void)
{
    size_t i;
    for (i = 0; functions[i] != NULL; i++)
        must(i < MOST_FUNCTIONS && functions[i]->result_size <= MOST_RESULT, "more functions or a larger result than there is memory for here");
}

static void check_function(size_t i)
{
    size_t most = grants[i].most > refusals[i].most ? grants[i].most : refusals[i].most;
    if (grants[i].attempts == 0)
        fault(functions[i], granted(0), "no attempt is granted");
    if ((refusals[i].attempts == 0) != is_never_refused(functions[i]))
        fault(functions[i], refused(LURM_EINVAL), "no attempt is refused, or one of a function that never refuses is");
    if (most > LURM_STACK_BYTES)
        fault(functions[i], granted(0), "it takes more than LURM_STACK_BYTES of stack");
}

static void print_row(size_t i)
{
    printf("%-26s %8zu %8zu %8zu %8zu\n", functions[i]->name, grants[i].most, refusals[i].most, functions[i]->arguments_size,
           functions[i]->result_size);
}

int main(int count, char **words)
{
    int table = count > 1 && strcmp(words[1], "table") == 0;
    size_t i;

    on_threads = count > 1 && strcmp(words[1], "threads") == 0;
    check_sizes();
    attempts();
    if (table)
        printf("%-26s %8s %8s %8s %8s\n", "function", "granted", "refused", "passed", "back");
    for (i = 0; functions[i] != NULL; i++) {
        check_function(i);
        if (table)
            print_row(i);
    }
    return faults == 0 ? EXIT_SUCCESS : EXIT_FAILURE;
}
