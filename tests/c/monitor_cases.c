/* The monitor: attempts for each of its steps, with who asks by request 2026-01 of document 02 and what is received by request 2026-03. */
#include "cases.h"

#define READ LURM_INTENT_READ
#define WRITE LURM_INTENT_WRITE
#define SET LURM_INTENT_SET_ATTRIBUTE

static lurm_object labelled(uint64_t type, uint64_t kind, lurm_label of)
{
    lurm_object made;
    memset(&made, 0, sizeof made);
    made.type = type;
    made.kind = kind;
    made.has_label = 1;
    made.label = of;
    return made;
}

static lurm_object cleared(uint64_t type, lurm_tuple of)
{
    lurm_object made;
    memset(&made, 0, sizeof made);
    made.type = type;
    made.has_tuple = 1;
    made.tuple = of;
    return made;
}

static lurm_credentials credentials(uint64_t read_override, uint64_t write_override, uint64_t relabel)
{
    lurm_credentials made;
    made.label = label(30, 0);
    made.range = range(label(20, 0), label(40, 0));
    made.read_override = read_override;
    made.write_override = write_override;
    made.relabel = relabel;
    return made;
}

static lurm_object neither(void)
{
    lurm_object made;
    memset(&made, 0, sizeof made);
    return made;
}

/* A shared memory segment that has the highest label, and a tuple with every label. */
static lurm_object both(void)
{
    lurm_object made = cleared(LURM_CLASS_SHARED_MEMORY, every_label());
    made.has_label = 1;
    made.label = highest();
    return made;
}

/* The intents, for a caller that sees every label. */
static void decided(void)
{
    lurm_caller top = caller(highest(), 0);
    lurm_credentials plain = credentials(0, 0, 0), all = credentials(1, 1, 1);
    lurm_object lower = labelled(LURM_CLASS_FILE, LURM_KIND_REGULAR, label(20, 0)), memory = cleared(LURM_CLASS_SHARED_MEMORY, every_label());
    lurm_object fifo = labelled(LURM_CLASS_FIFO, UINT64_MAX, label(30, 0)); /* the kind counts for files only */

    ATTEMPT(lurm_check, granted(0), top, plain, lower, READ, UINT64_MAX);
    ATTEMPT(lurm_check, granted(0), top, plain, fifo, READ, 0);
    ATTEMPT(lurm_check, granted(0), top, plain, memory, READ | WRITE, 0);
    ATTEMPT(lurm_check, granted(1), top, all, both(), READ | WRITE | SET | LURM_INTENT_GET_ATTRIBUTE, LURM_ATTRIBUTE_TUPLE);
    ATTEMPT(lurm_check, refused(LURM_EACCES), top, plain, lower, WRITE, 0);
    ATTEMPT(lurm_check, refused(LURM_EACCES), top, plain, both(), READ, 0);
    ATTEMPT(lurm_check, refused(LURM_EPERM), top, credentials(1, 1, 0), both(), SET, LURM_ATTRIBUTE_LABEL);
    ATTEMPT(lurm_check, refused(LURM_EINVAL), top, all, neither(), READ, 0);
    ATTEMPT(lurm_check, refused(LURM_EINVAL), top, all, lower, 0, 0);
    ATTEMPT(lurm_check, refused(LURM_EINVAL), top, all, lower, SET, 3);
    ATTEMPT(lurm_check, refused(LURM_EINVAL), top, all, labelled(LURM_CLASS_FILE, 7, label(20, 0)), READ, 0);
    ATTEMPT(lurm_check, refused(LURM_EINVAL), top, all, labelled(PAST_BYTE, 0, label(20, 0)), READ, 0);
    ATTEMPT(lurm_check, refused(LURM_EINVAL), top, credentials(2, 0, 0), lower, READ, 0);
}

/* To receive from a message queue is to read and to write it. The subject is at (30,{}); the queue has that label, one below, one above, or a
 * tuple. */
static void received(void)
{
    lurm_caller top = caller(highest(), 0);
    lurm_credentials plain = credentials(0, 0, 0), read = credentials(1, 0, 0), write = credentials(0, 1, 0), overrides = credentials(1, 1, 0);
    lurm_object same = labelled(LURM_CLASS_MESSAGE_QUEUE, 0, label(30, 0)), lower = labelled(LURM_CLASS_MESSAGE_QUEUE, 0, label(20, 0));
    lurm_object higher = labelled(LURM_CLASS_MESSAGE_QUEUE, 0, label(40, 0)), all = cleared(LURM_CLASS_MESSAGE_QUEUE, every_label());
    lurm_object none = same;

    none.has_label = 0; /* and its tuple is empty */
    none.has_tuple = 1;
    ATTEMPT(lurm_check, granted(0), top, plain, same, READ, 0);
    ATTEMPT(lurm_check, refused(LURM_EACCES), top, plain, lower, READ, 0);
    ATTEMPT(lurm_check, refused(LURM_EACCES), top, read, lower, READ, 0);
    ATTEMPT(lurm_check, granted(1), top, write, lower, READ, 0);
    ATTEMPT(lurm_check, refused(LURM_EACCES), top, read, higher, READ, 0);
    ATTEMPT(lurm_check, refused(LURM_EACCES), top, write, higher, READ, 0);
    ATTEMPT(lurm_check, granted(1), top, overrides, higher, READ, 0);
    ATTEMPT(lurm_check, granted(1), top, write, higher, WRITE, 0); /* to send is to write alone */
    ATTEMPT(lurm_check, granted(0), top, plain, all, READ, 0);
    ATTEMPT(lurm_check, refused(LURM_EACCES), top, write, none, READ, 0);
    ATTEMPT(lurm_check, granted(1), top, overrides, none, READ, 0);
    ATTEMPT(lurm_check, granted(0), top, plain, labelled(LURM_CLASS_SHARED_MEMORY, 0, label(20, 0)), READ, 0);
    ATTEMPT(lurm_check, granted(0), top, plain, labelled(LURM_CLASS_SEMAPHORE, 0, label(20, 0)), READ, 0);
}

/* Who asks. The subject is at (30,{}), between (20,{}) and (40,{}); what the caller has to see is the two labels and no end of a range or tuple. */
static void asked(void)
{
    lurm_caller own = caller(label(30, 0), 0), low = caller(label(20, 0), 0), sees_all = caller(label(0, 0), 1);
    lurm_credentials plain = credentials(0, 0, 0), all = credentials(1, 1, 1);
    lurm_object lower = labelled(LURM_CLASS_FILE, LURM_KIND_REGULAR, label(20, 0)), same = labelled(LURM_CLASS_SEMAPHORE, 0, label(30, 0));
    lurm_object aside = labelled(LURM_CLASS_PROCESS, 0, label(20, ONE_TWO)), memory = cleared(LURM_CLASS_SHARED_MEMORY, every_label());

    ATTEMPT(lurm_check, granted(0), own, plain, lower, READ, 0);
    ATTEMPT(lurm_check, granted(0), own, plain, same, READ | WRITE, 0);
    ATTEMPT(lurm_check, granted(0), own, plain, memory, READ | WRITE, 0);
    ATTEMPT(lurm_check, granted(1), caller(label(30, ONE_TWO), 0), all, aside, READ, 0);
    ATTEMPT(lurm_check, refused(LURM_EACCES), low, all, lower, READ, 0);   /* sees the object's label alone */
    ATTEMPT(lurm_check, refused(LURM_EACCES), own, all, aside, READ, 0);   /* sees the subject's alone */
    ATTEMPT(lurm_check, refused(LURM_EACCES), own, all, both(), WRITE, 0); /* so does who writes up for itself */
    ATTEMPT(lurm_check, refused(LURM_EACCES), low, all, memory, READ, 0);  /* of a tuple alone it is the subject's that counts */
    ATTEMPT(lurm_check, granted(0), sees_all, plain, lower, READ, 0);      /* never 1 by the caller's override */
    ATTEMPT(lurm_check, granted(0), sees_all, plain, memory, WRITE, 0);
    ATTEMPT(lurm_check, granted(1), sees_all, all, both(), READ, 0);
    ATTEMPT(lurm_check, refused(LURM_EACCES), sees_all, plain, both(), READ, 0); /* which is none of the subject's */
}

/* Of two reasons to refuse, the first in order: what is invalid, who asks, the intents, the privilege to relabel. */
static void in_order(void)
{
    lurm_caller own = caller(label(30, 0), 0), low = caller(label(20, 0), 0);
    lurm_credentials plain = credentials(0, 0, 0), all = credentials(1, 1, 1);
    lurm_object lower = labelled(LURM_CLASS_FILE, LURM_KIND_REGULAR, label(20, 0)), same = labelled(LURM_CLASS_SEMAPHORE, 0, label(30, 0));

    ATTEMPT(lurm_check, refused(LURM_EINVAL), caller(label(200, 0), 0), all, lower, READ, 0);
    ATTEMPT(lurm_check, refused(LURM_EINVAL), caller(label(200, 0), 1), all, lower, READ, 0);
    ATTEMPT(lurm_check, refused(LURM_EINVAL), caller(label(PAST_BYTE + 30, 0), 0), plain, lower, WRITE, 0);
    ATTEMPT(lurm_check, refused(LURM_EINVAL), caller(highest(), 2), all, lower, READ, 0);
    ATTEMPT(lurm_check, refused(LURM_EINVAL), caller(label(20, 0), UINT64_MAX), plain, lower, WRITE, 0);
    ATTEMPT(lurm_check, refused(LURM_EINVAL), low, all, neither(), READ, 0);
    ATTEMPT(lurm_check, refused(LURM_EINVAL), low, all, lower, 0, 0);
    ATTEMPT(lurm_check, refused(LURM_EINVAL), low, credentials(0, 0, 2), lower, SET, LURM_ATTRIBUTE_LABEL);
    ATTEMPT(lurm_check, refused(LURM_EACCES), low, plain, same, SET, LURM_ATTRIBUTE_LABEL);
    ATTEMPT(lurm_check, refused(LURM_EACCES), own, plain, lower, SET, LURM_ATTRIBUTE_LABEL);
    ATTEMPT(lurm_check, refused(LURM_EPERM), own, plain, same, SET, LURM_ATTRIBUTE_LABEL);
    ATTEMPT(lurm_check, granted(1), own, all, same, SET, LURM_ATTRIBUTE_LABEL);
}

void monitor_cases(void)
{
    decided();
    received();
    asked();
    in_order();
}
