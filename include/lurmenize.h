/*
 * lurmenize.h - labels for mandatory access control, a reference monitor, and an account of shared memory segments.
 *
 * Link with liblurmenize.a (`tools/library` builds it and puts it into target/staticlib/). x86-64 Linux, any C from C99 on, C++ too.
 *
 * Answers. Every function but lurm_version and lurm_strerror hands back a lurm_answer, alone or in a struct. LOOK AT ITS `refusal` BEFORE
 * ANYTHING ELSE:
 *
 *     refusal == 0   granted: `value` is what the function says it answers
 *     refusal != 0   refused: one of the LURM_E.. numbers. Where `carries` is 1, `value` is the one more number that LURM_E2BIG and a bad
 *                    alias table carry; else both are 0
 *
 * What stands beside a refusal (a label, a range, ..) is zeros, and zeros are a valid label, the lowest there is: whoever does not look at
 * the answer goes on with it. Compilers warn where an answer is not used at all (LURM_MUST_USE). A refusal writes nothing to a buffer and
 * hands a state back as it was. A grant of 1 and the refusal 1 are never the same: one is in `value`, the other in `refusal`.
 *
 * Input. No value of any argument stops these functions: labels, ranges, tuples, entries, callers, credentials, objects, calls and states are
 * tested at each call, and so is every flag (0 or 1) and every number that stands for a choice; what can't be is refused with LURM_EINVAL. A
 * program owes what C can't say: a pointer is not null and points to as many bytes as the length after it says, also where that is 0, and a buffer
 * to write to overlaps nothing else that is passed. Functions keep nothing between calls, allocate nothing, and may run in any number of threads.
 *
 * Structs are passed and returned by value, are numbers alone, and have no padding: every byte of what is handed back is said. Set every field:
 * `= {0}` (in C++ `= {}`) and then what is not zero.
 *
 * Stack. No function takes more than LURM_STACK_BYTES of stack. What is passed by value and handed back lies with the calling function, and is not
 * counted: 11,888 bytes at most. docs/LINKING.md has the figures of each function.
 */
#ifndef LURMENIZE_H
#define LURMENIZE_H

#include <stddef.h>
#include <stdint.h>
#include <string.h>

#ifdef __cplusplus
extern "C" {
#endif

/* ---- Version ---- */

#define LURM_VERSION_MAJOR 0
#define LURM_VERSION_MINOR 4
#define LURM_VERSION_PATCH 0
#define LURM_VERSION_STRING "0.4.0"
#define LURM_VERSION (LURM_VERSION_MAJOR * 1000000 + LURM_VERSION_MINOR * 1000 + LURM_VERSION_PATCH)

/* The LURM_VERSION of the library that is linked. Structs of another minor version may differ, until 1.0.0. */
uint64_t lurm_version(void);

/* ---- Refusals, by their POSIX numbers ---- */

#define LURM_EPERM 1   /* no privilege or clearance */
#define LURM_ENOENT 2  /* no name */
#define LURM_E2BIG 7   /* buffer short; carries the length that is needed */
#define LURM_ENOMEM 12 /* no pages */
#define LURM_EACCES 13 /* denied */
#define LURM_EBUSY 16  /* in use */
#define LURM_EINVAL 22 /* invalid; where an alias table is bad it carries the number of the first bad line, from 0 */
#define LURM_ENOSPC 28 /* no place */
#define LURM_EDOM 33   /* no common label */

/* ---- Sizes ---- */

#define LURM_WORDS 4            /* words of a category set */
#define LURM_CATEGORIES 256     /* categories 0 to 255 */
#define LURM_MAX_HIERARCHY 199  /* hierarchies 0 to 199 */
#define LURM_REGIONS 3          /* 0 virus prevention, 1 user, 2 administrative */
#define LURM_MAX_LINE 403       /* the longest hex line, its LF included */
#define LURM_MAX_NAME 31        /* bytes of the longest name */
#define LURM_MAX_ABBREVIATION 15
#define LURM_NAME_BYTES 32      /* with the zero that ends it */
#define LURM_ABBREVIATION_BYTES 16
#define LURM_MAX_ALIAS_LINES 512 /* of an alias table */
#define LURM_TENANTS 8
#define LURM_SLOTS 64
#define LURM_MAX_PAGES 1048576
#define LURM_STACK_BYTES 24576  /* the most stack that a function takes */

/* A compiler that can warns where an answer is not used. */
#if defined(__GNUC__) || defined(__clang__)
#define LURM_MUST_USE __attribute__((warn_unused_result))
#else
#define LURM_MUST_USE
#endif

/* ---- Values ---- */

/* A label: a hierarchy, 0 to 199, and a set of categories, 0 to 255. Category c is bit c % 64 of categories[c / 64]. */
typedef struct lurm_label {
    uint64_t hierarchy;
    uint64_t categories[LURM_WORDS];
} lurm_label;

/* The labels that dominate `low` and that `high` dominates. Valid where both ends are and high dominates low. */
typedef struct lurm_range {
    lurm_label low;
    lurm_label high;
} lurm_range;

/* The range of one region, where `present` is 1. Where it is 0 there is none, and the range is zeros. No other number is valid. */
typedef struct lurm_region_range {
    uint64_t present;
    lurm_range range;
} lurm_region_range;

/* For each region a range whose ends lie in it, or none: ranges[0] for region 0, and so on. */
typedef struct lurm_tuple {
    lurm_region_range ranges[LURM_REGIONS];
} lurm_tuple;

/* ---- Answers ---- */

/* `refusal` is 0 for a grant, else the number of the refusal. `carries` is 1 where a refusal carries one more number, else 0. `value` is what a
 * grant answers or what a refusal carries, else 0. */
typedef struct lurm_answer {
    uint32_t refusal;
    uint32_t carries;
    uint64_t value;
} lurm_answer;

typedef struct lurm_label_answer {
    lurm_answer answer;
    lurm_label label;
} lurm_label_answer;

typedef struct lurm_range_answer {
    lurm_answer answer;
    lurm_range range;
} lurm_range_answer;

typedef struct lurm_tuple_answer {
    lurm_answer answer;
    lurm_tuple tuple;
} lurm_tuple_answer;

/* ---- Labels. An invalid label is LURM_EINVAL. ---- */

/* value: 1 if a dominates b, else 0. */
LURM_MUST_USE lurm_answer lurm_dominates(lurm_label a, lurm_label b);

/* value: 1 if a and b are equal, else 0. */
LURM_MUST_USE lurm_answer lurm_equal(lurm_label a, lurm_label b);

/* label: the least label that dominates a and b. value: 0. */
LURM_MUST_USE lurm_label_answer lurm_upper_bound(lurm_label a, lurm_label b);

/* label: the greatest label that a and b dominate. value: 0. */
LURM_MUST_USE lurm_label_answer lurm_lower_bound(lurm_label a, lurm_label b);

/* value: the region of a: 0 virus prevention, 1 user, 2 administrative. */
LURM_MUST_USE lurm_answer lurm_region_of(lurm_label a);

/* value: 1 if a has the category, else 0. A category of LURM_CATEGORIES or more is LURM_EINVAL. */
LURM_MUST_USE lurm_answer lurm_has_category(lurm_label a, uint64_t category);

/* label: a with the category, which it may have already. A category of LURM_CATEGORIES or more is LURM_EINVAL. value: 0. */
LURM_MUST_USE lurm_label_answer lurm_with_category(lurm_label a, uint64_t category);

/* value: the least category of a that is `from` or more; LURM_CATEGORIES where there is none. `from` may be any number. */
LURM_MUST_USE lurm_answer lurm_next_category(lurm_label a, uint64_t from);

/* ---- Ranges and tuples. An invalid label, range or tuple is LURM_EINVAL. ---- */

/* value: 1 if l is in x, else 0. */
LURM_MUST_USE lurm_answer lurm_range_contains(lurm_range x, lurm_label l);

/* range: the labels that are in x and in y; LURM_EDOM where there is none. value: 0. */
LURM_MUST_USE lurm_range_answer lurm_range_meet(lurm_range x, lurm_range y);

/* tuple: the tuple that has the same labels as x. value: 0. */
LURM_MUST_USE lurm_tuple_answer lurm_range_split(lurm_range x);

/* value: 1 if t has no range, else 0. */
LURM_MUST_USE lurm_answer lurm_tuple_is_empty(lurm_tuple t);

/* value: 1 if l is in t, else 0. */
LURM_MUST_USE lurm_answer lurm_tuple_contains(lurm_tuple t, lurm_label l);

/* value: 1 if each label of t is in u, else 0. */
LURM_MUST_USE lurm_answer lurm_tuple_within(lurm_tuple t, lurm_tuple u);

/* tuple: the labels that are in t and in u; it may be empty. value: 0. */
LURM_MUST_USE lurm_tuple_answer lurm_tuple_meet(lurm_tuple t, lurm_tuple u);

/* ---- Hex lines. A reader takes one whole line with its LF. ---- */

#define LURM_LINE_LABEL 1
#define LURM_LINE_RANGE 2
#define LURM_LINE_TUPLE 3
#define LURM_LINE_ENTRY 4

/* A name: `length` bytes, 1 to 31, then zeros. The last byte is always zero, so that a name is a C string. */
typedef struct lurm_name {
    uint8_t bytes[LURM_NAME_BYTES];
    size_t length;
} lurm_name;

/* An abbreviation: `length` bytes, 0 to 15, then zeros; none where length is 0. A C string too. */
typedef struct lurm_abbreviation {
    uint8_t bytes[LURM_ABBREVIATION_BYTES];
    size_t length;
} lurm_abbreviation;

#define LURM_NAMES_HIERARCHY 1
#define LURM_NAMES_CATEGORY 2
#define LURM_NAMES_LABEL 3

/* An alias entry: what stands for a hierarchy, a category or a whole label. `names` is LURM_NAMES_..; `number` is the hierarchy or the category,
 * and 0 for a label; `label` is zeros but for a label. */
typedef struct lurm_entry {
    uint64_t names;
    uint64_t number;
    lurm_label label;
    lurm_name name;
    lurm_abbreviation abbreviation;
} lurm_entry;

typedef struct lurm_entry_answer {
    lurm_answer answer;
    lurm_entry entry;
} lurm_entry_answer;

/* value: which reader the line is for, LURM_LINE_..; LURM_EINVAL where it is no line of a known kind, or longer than any has. */
LURM_MUST_USE lurm_answer lurm_line_kind(const uint8_t *line, size_t line_length);

/* Each writes a line to the front of out; the bytes past it stay. value: the line's length, its LF included. LURM_EINVAL: what is to be written is
 * invalid. LURM_E2BIG: out is too short. */
LURM_MUST_USE lurm_answer lurm_write_label(lurm_label l, uint8_t *out, size_t out_length);
LURM_MUST_USE lurm_answer lurm_write_range(lurm_range x, uint8_t *out, size_t out_length);
LURM_MUST_USE lurm_answer lurm_write_tuple(lurm_tuple t, uint8_t *out, size_t out_length);
LURM_MUST_USE lurm_answer lurm_write_entry(lurm_entry e, uint8_t *out, size_t out_length);

/* What a line says. LURM_EINVAL: it is not the line that the writer makes of a valid one. value: 0. */
LURM_MUST_USE lurm_label_answer lurm_read_label(const uint8_t *line, size_t line_length);
LURM_MUST_USE lurm_range_answer lurm_read_range(const uint8_t *line, size_t line_length);
LURM_MUST_USE lurm_tuple_answer lurm_read_tuple(const uint8_t *line, size_t line_length);
LURM_MUST_USE lurm_entry_answer lurm_read_entry(const uint8_t *line, size_t line_length);

/* ---- Who asks ---- */

/* The process on whose behalf a text is written or read, or a decision is asked for. It sees the labels that its own dominates, and with the read
 * override, which is 0 or 1, every label. */
typedef struct lurm_caller {
    lurm_label label;
    uint64_t read_override;
} lurm_caller;

/* ---- Names and text. An alias table is 0 to 512 lines of entries, one after another. ---- */

#define LURM_FORM_DEFINITION 0 /* hierarchy and categories are named */
#define LURM_FORM_ALIAS 1      /* the whole label where it has a name, else as above */
#define LURM_VARIANT_NAMES 0
#define LURM_VARIANT_ABBREVIATIONS 1 /* where there is one */

/* How a text is written: LURM_FORM_.. and LURM_VARIANT_.. */
typedef struct lurm_style {
    uint64_t form;
    uint64_t variant;
} lurm_style;

/* The answer to a range that is written as text, and its status. */
typedef struct lurm_range_written {
    lurm_answer answer;
    uint64_t status;
} lurm_range_written;

/* `more`, here and below, is 1 where the alias table is cut off and more lines follow: it is then bad at the end. Else 0. A flag or a style that
 * can't be is refused first, and carries nothing; then a bad alias table, with the number of its first bad line. */

/* value: the number of lines. LURM_EINVAL: the alias table is bad, and its first bad line is carried; or `more` is no flag, and nothing is. */
LURM_MUST_USE lurm_answer lurm_check_alias_table(const uint8_t *aliases, size_t aliases_length, uint64_t more);

/* Writes a label as text to the front of out, without an LF or a zero after it. value: its length. LURM_EINVAL: a bad alias table, or an invalid
 * label or caller. LURM_EACCES: the caller may not see the label. LURM_ENOENT: a number that has no name. LURM_E2BIG: out is too short. */
LURM_MUST_USE lurm_answer lurm_write_label_text(const uint8_t *aliases, size_t aliases_length, uint64_t more, lurm_caller caller,
                                                lurm_style style, lurm_label label, uint8_t *out, size_t out_length);

/* The same of a range. status: 0 with both ends; 1 where the caller may see the low end only, and `?` stands for the high one; 0 beside a
 * refusal. */
LURM_MUST_USE lurm_range_written lurm_write_range_text(const uint8_t *aliases, size_t aliases_length, uint64_t more, lurm_caller caller,
                                                       lurm_style style, lurm_range range, uint8_t *out, size_t out_length);

/* The label, or the range, that a text says. LURM_EINVAL: a bad alias table, which carries its line; an invalid caller, a malformed text, an
 * unknown name, or a label that the caller may not see, which carry nothing. value: 0. */
LURM_MUST_USE lurm_label_answer lurm_read_label_text(const uint8_t *aliases, size_t aliases_length, uint64_t more, lurm_caller caller,
                                                     const uint8_t *text, size_t text_length);
LURM_MUST_USE lurm_range_answer lurm_read_range_text(const uint8_t *aliases, size_t aliases_length, uint64_t more, lurm_caller caller,
                                                     const uint8_t *text, size_t text_length);

/* ---- The monitor ---- */

/* The subject that is asked about, which may be the caller itself or another. The label has to be in the range; each privilege is 0 or 1. */
typedef struct lurm_credentials {
    lurm_label label;
    lurm_range range;
    uint64_t read_override;
    uint64_t write_override;
    uint64_t relabel;
} lurm_credentials;

/* To read a fifo, or to receive from a message queue, takes away what is read: LURM_INTENT_READ of one is a read and a write together. */
#define LURM_CLASS_FILE 0
#define LURM_CLASS_FIFO 1
#define LURM_CLASS_PROCESS 2
#define LURM_CLASS_MESSAGE_QUEUE 3
#define LURM_CLASS_SHARED_MEMORY 4
#define LURM_CLASS_SEMAPHORE 5

#define LURM_KIND_REGULAR 0
#define LURM_KIND_DIRECTORY 1
#define LURM_KIND_OTHER 2

/* An object has a label, a tuple or both; a label governs. `type` is LURM_CLASS_..; `kind` is LURM_KIND_.., and counts for a file only;
 * `has_label` and `has_tuple` are 0 or 1. What is not there, and the kind of what is no file, is not looked at. */
typedef struct lurm_object {
    uint64_t type;
    uint64_t kind;
    uint64_t has_label;
    uint64_t has_tuple;
    lurm_label label;
    lurm_tuple tuple;
} lurm_object;

#define LURM_INTENT_WRITE 1
#define LURM_INTENT_READ 2
#define LURM_INTENT_EXECUTE 4
#define LURM_INTENT_SEARCH 8
#define LURM_INTENT_GET_ATTRIBUTE 16
#define LURM_INTENT_SET_ATTRIBUTE 32

#define LURM_ATTRIBUTE_LABEL 1
#define LURM_ATTRIBUTE_TUPLE 2

/* value: 0 where no privilege of the subject was needed, 1 where one was. LURM_EINVAL: what is asked can't be decided, a flag can't be, or the
 * caller's label is invalid, even with the read override. LURM_EACCES: the caller may not see the subject's label, or the object's where it has
 * one; or, which is tried after that, what is intended is denied. LURM_EPERM: to set an attribute takes the privilege to relabel. The subject's
 * privileges do not help the caller, nor does the caller's read override help the subject. `intents` is a sum of LURM_INTENT_..; `attribute`
 * counts with an attribute intent only. */
LURM_MUST_USE lurm_answer lurm_check(lurm_caller caller, lurm_credentials credentials, lurm_object object, uint64_t intents, uint64_t attribute);

/* ---- Shared memory segments: the state, passed in and handed back ---- */

/* A tenant's number, 0 to 7, and a slot's, 0 to 63: two types, so that neither is taken for the other. `(lurm_tenant_id){3}` is tenant 3, in C++
 * `lurm_tenant_id{3}`. */
typedef struct lurm_tenant_id {
    uint64_t number;
} lurm_tenant_id;

typedef struct lurm_slot {
    uint64_t number;
} lurm_slot;

/* A tenant's record. Zeros where the tenant is not admitted. */
typedef struct lurm_tenant {
    uint64_t ceiling;
    lurm_tuple clearance;
} lurm_tenant;

/* What a slot holds. Zeros where it is empty. */
typedef struct lurm_segment {
    lurm_label label;
    uint64_t pages;
    uint64_t version;
} lurm_segment;

/* The state. Tenant t has the slots 8t to 8t + 7. Start with lurm_make. */
typedef struct lurm_state {
    uint64_t pool;
    lurm_tenant tenants[LURM_TENANTS];
    lurm_segment segments[LURM_SLOTS];
} lurm_state;

/* The state that a call leaves, its answer, and what a look shows: zeros for any other call and beside a refusal. */
typedef struct lurm_outcome {
    lurm_state state;
    lurm_answer answer;
    lurm_segment shown;
} lurm_outcome;

/* Every function below refuses an unsound state, a tenant or slot that there is not, an invalid label and pages out of bounds with LURM_EINVAL. A
 * refusal hands back the state as it was. */

/* A state with this pool, 1 to LURM_MAX_PAGES, and no tenants. A refused make hands back a state of zeros. value: 0. */
LURM_MUST_USE lurm_outcome lurm_make(uint64_t pool);

/* Admits a tenant with a ceiling on its pages and a clearance, which is not empty. LURM_EBUSY: admitted already. LURM_ENOMEM: the pool has no room.
 * value: 0. */
LURM_MUST_USE lurm_outcome lurm_admit(lurm_state state, lurm_tenant_id tenant, uint64_t ceiling, lurm_tuple clearance);

/* Gives an admitted tenant another ceiling. LURM_EBUSY: more pages than that are in use. LURM_ENOMEM: the pool has no room. value: 0. */
LURM_MUST_USE lurm_outcome lurm_set_ceiling(lurm_state state, lurm_tenant_id tenant, uint64_t ceiling);

/* The calls of a tenant, made by a subject with that label. LURM_EPERM: the label is not in the tenant's clearance. */

/* A new segment in the tenant's lowest empty slot. value: the number of the slot. LURM_ENOSPC: no empty slot. LURM_ENOMEM: past the ceiling. */
LURM_MUST_USE lurm_outcome lurm_open(lurm_state state, lurm_tenant_id tenant, lurm_label label, uint64_t pages);

/* The slot gets another number of pages, or another version, or is emptied. LURM_EACCES: it is not the tenant's own, or empty, or its label is not
 * the subject's. LURM_ENOMEM: past the ceiling. value: 0. */
LURM_MUST_USE lurm_outcome lurm_size(lurm_state state, lurm_tenant_id tenant, lurm_label label, lurm_slot slot, uint64_t pages);
LURM_MUST_USE lurm_outcome lurm_post(lurm_state state, lurm_tenant_id tenant, lurm_label label, lurm_slot slot, uint64_t version);
LURM_MUST_USE lurm_outcome lurm_close(lurm_state state, lurm_tenant_id tenant, lurm_label label, lurm_slot slot);

/* shown: what a slot holds, whoever's it is. LURM_EACCES: it is empty, or the subject's label does not dominate its label. value: 0. */
LURM_MUST_USE lurm_outcome lurm_look(lurm_state state, lurm_tenant_id tenant, lurm_label label, lurm_slot slot);

/* value: 1 if the state keeps the rules that every call asks of it, else 0. Never refused. */
LURM_MUST_USE lurm_answer lurm_sound(lurm_state state);

/* value: the pages that an admitted tenant has in use. */
LURM_MUST_USE lurm_answer lurm_pages_in_use(lurm_state state, lurm_tenant_id tenant);

/* ---- Inline C: not proved, as the rest of this page is not; tested ---- */

/* The words of a refusal's number; "granted" for 0. The text is constant. */
static inline const char *lurm_strerror(uint32_t refusal)
{
    switch (refusal) {
    case 0: return "granted";
    case LURM_EPERM: return "no privilege or clearance";
    case LURM_ENOENT: return "no name";
    case LURM_E2BIG: return "buffer short";
    case LURM_ENOMEM: return "no pages";
    case LURM_EACCES: return "denied";
    case LURM_EBUSY: return "in use";
    case LURM_EINVAL: return "invalid";
    case LURM_ENOSPC: return "no place";
    case LURM_EDOM: return "no common label";
    default: return "no refusal of this library";
    }
}

/* entry: the entry with this name and abbreviation, which are C strings and not null; "" where there is no abbreviation. LURM_EINVAL, with zeros:
 * one of them is too long for any entry. What else is wrong with it is told where it is written. value: 0. */
LURM_MUST_USE static inline lurm_entry_answer lurm_entry_from_strings(uint64_t names, uint64_t number, lurm_label label, const char *name,
                                                                      const char *abbreviation)
{
    lurm_entry_answer made;
    size_t name_length = strlen(name), abbreviation_length = strlen(abbreviation);
    memset(&made, 0, sizeof made);
    if (name_length > LURM_MAX_NAME || abbreviation_length > LURM_MAX_ABBREVIATION) {
        made.answer.refusal = LURM_EINVAL;
        return made;
    }
    made.entry.names = names;
    made.entry.number = number;
    made.entry.label = label;
    memcpy(made.entry.name.bytes, name, name_length);
    made.entry.name.length = name_length;
    memcpy(made.entry.abbreviation.bytes, abbreviation, abbreviation_length);
    made.entry.abbreviation.length = abbreviation_length;
    return made;
}

#ifdef __cplusplus
}
#endif

#endif
