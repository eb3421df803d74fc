/*
 * What a daemon for two tenants asks of the library: it takes their labels from hex lines, compares them, has accesses decided, writes a label by
 * name, and keeps the account of their shared memory segments. Each answer is looked at before anything that stands beside it is used.
 *
 * `make -C examples` builds it, `make -C examples test` runs it and compares what it prints with two_tenants.out.
 */
#include <inttypes.h>
#include <stdio.h>
#include <stdlib.h>
#include <string.h>

#include "lurmenize.h"

/* ---- Answers ---- */

/* Ends a line with a refusal, and with the number that it carries. */
static void print_refusal(FILE *file, lurm_answer answer)
{
    fprintf(file, "refused, %" PRIu32 " %s", answer.refusal, lurm_strerror(answer.refusal));
    if (answer.carries == 1 && answer.refusal == LURM_E2BIG)
        fprintf(file, ", %" PRIu64 " bytes are needed", answer.value);
    if (answer.carries == 1 && answer.refusal == LURM_EINVAL)
        fprintf(file, ", line %" PRIu64 " is bad", answer.value);
    fprintf(file, "\n");
}

/* Begins the line of a question. Gives 1 where it was granted; else ends the line with the refusal. */
static int granted(const char *question, lurm_answer answer)
{
    printf("%s: ", question);
    if (answer.refusal == 0)
        return 1;
    print_refusal(stdout, answer);
    return 0;
}

/* For a question that can't be refused here: if it is, there is a fault in this program, and nothing can be built on the answer. */
static void must(const char *question, lurm_answer answer)
{
    if (answer.refusal == 0)
        return;
    fprintf(stderr, "%s: ", question);
    print_refusal(stderr, answer);
    exit(EXIT_FAILURE);
}

static void print_test(const char *question, lurm_answer answer)
{
    if (granted(question, answer))
        printf("%s\n", answer.value == 1 ? "yes" : "no");
}

static void print_number(const char *question, lurm_answer answer)
{
    if (granted(question, answer))
        printf("%" PRIu64 "\n", answer.value);
}

/* ---- Labels ---- */

/* The label of a hierarchy and some categories. */
static lurm_label label_of(uint64_t hierarchy, const uint64_t *categories, size_t count)
{
    lurm_label_answer made = {0};
    size_t i;

    made.label.hierarchy = hierarchy;
    for (i = 0; i < count; i++) {
        made = lurm_with_category(made.label, categories[i]);
        must("a label", made.answer);
    }
    return made.label;
}

/* Prints a label as (30,{1,2}). */
static void print_label(lurm_label label)
{
    lurm_answer next = lurm_next_category(label, 0);
    const char *before = "";

    printf("(%" PRIu64 ",{", label.hierarchy);
    while (next.refusal == 0 && next.value < LURM_CATEGORIES) {
        printf("%s%" PRIu64, before, next.value);
        before = ",";
        next = lurm_next_category(label, next.value + 1);
    }
    must("a category", next);
    printf("})");
}

/* Gives 1 where there is a label. */
static int print_label_answer(const char *question, lurm_label_answer found)
{
    if (!granted(question, found.answer))
        return 0;
    print_label(found.label);
    printf("\n");
    return 1;
}

static lurm_label_answer read_line(const char *line)
{
    return lurm_read_label((const uint8_t *)line, strlen(line));
}

static const char first_line[] = "011e0200000000000000000000000000000000000000000000000000000000000000df\n";
static const char second_line[] = "011e0400000000000000000000000000000000000000000000000000000000000000dd\n";
static const char bad_line[] = "011e0400000000000000000000000000000000000000000000000000000000000000df\n";

/* The label that a line says which this program can't go on without. */
static lurm_label tenant_label(const char *question, const char *line)
{
    lurm_label_answer read = read_line(line);
    must(question, read.answer);
    (void)print_label_answer(question, read);
    return read.label;
}

/* Gives the least label that dominates both. */
static lurm_label compare(lurm_label first, lurm_label second)
{
    lurm_label_answer both = lurm_upper_bound(first, second);
    lurm_range only_first, only_second;
    uint8_t line[LURM_MAX_LINE];
    lurm_answer written;

    must("what dominates both", both.answer);
    print_test("the first dominates the second", lurm_dominates(first, second));
    (void)print_label_answer("what dominates both", both);
    print_test("that dominates the second", lurm_dominates(both.label, second));
    written = lurm_write_label(both.label, line, sizeof line);
    if (granted("as a line", written))
        printf("%.*s", (int)written.value, (const char *)line);
    only_first.low = only_first.high = first;
    only_second.low = only_second.high = second;
    if (granted("labels of both", lurm_range_meet(only_first, only_second).answer))
        printf("some\n");
    return both.label;
}

/* ---- The monitor ---- */

static void decide(const char *question, lurm_caller caller, lurm_credentials subject, lurm_object object, uint64_t intents, uint64_t attribute)
{
    lurm_answer answer = lurm_check(caller, subject, object, intents, attribute);
    if (granted(question, answer))
        printf("%s\n", answer.value == 0 ? "granted" : "granted by privilege");
}

/* A receive takes the message off the queue, so that it is a read and a write: the subject's own label grants it, and a lower one alone does not. */
static void receiving(lurm_caller caller, lurm_credentials subject, lurm_label lower)
{
    lurm_object queue = {0};

    queue.type = LURM_CLASS_MESSAGE_QUEUE;
    queue.has_label = 1;
    queue.label = subject.label;
    subject.write_override = 0;
    decide("the first receives from a queue at its own label", caller, subject, queue, LURM_INTENT_READ, 0);
    queue.label = lower;
    decide("the first receives from a queue at (20,{1})", caller, subject, queue, LURM_INTENT_READ, 0);
}

/* The first tenant asks about itself: the caller has the label and the read override of the subject. The second may not see the first. */
static void decisions(lurm_label first, lurm_label second)
{
    static const uint64_t categories[] = {1};
    lurm_caller self = {0}, other = {0};
    lurm_credentials subject = {0};
    lurm_object file = {0};

    self.label = first;
    other.label = second;
    subject.label = first;
    subject.range.low = first;
    subject.range.high = first;
    file.type = LURM_CLASS_FILE;
    file.kind = LURM_KIND_REGULAR;
    decide("the first reads a file that has no label", self, subject, file, LURM_INTENT_READ, 0);
    file.has_label = 1;
    file.label = label_of(20, categories, 1);
    decide("the first reads a file at (20,{1})", self, subject, file, LURM_INTENT_READ, 0);
    decide("the second asks whether the first reads it", other, subject, file, LURM_INTENT_READ, 0);
    decide("the first writes it", self, subject, file, LURM_INTENT_WRITE, 0);
    subject.write_override = 1;
    decide("the first writes it with the write override", self, subject, file, LURM_INTENT_WRITE, 0);
    decide("the first sets its label", self, subject, file, LURM_INTENT_SET_ATTRIBUTE, LURM_ATTRIBUTE_LABEL);
    subject.relabel = 1;
    decide("the first sets its label with the privilege to relabel", self, subject, file, LURM_INTENT_SET_ATTRIBUTE, LURM_ATTRIBUTE_LABEL);
    receiving(self, subject, file.label);
}

/* ---- Names and text ---- */

typedef struct alias_table {
    uint8_t lines[4 * LURM_MAX_LINE];
    size_t length;
} alias_table;

static void add_name(alias_table *aliases, uint64_t names, uint64_t number, const char *name, const char *abbreviation)
{
    static const lurm_label none = {0};
    lurm_entry_answer made = lurm_entry_from_strings(names, number, none, name, abbreviation);
    lurm_answer written;

    must(name, made.answer);
    written = lurm_write_entry(made.entry, aliases->lines + aliases->length, sizeof aliases->lines - aliases->length);
    must(name, written);
    aliases->length += (size_t)written.value;
}

static void write_text(const char *question, const alias_table *aliases, lurm_caller caller, lurm_label label, size_t capacity)
{
    lurm_style style = {LURM_FORM_DEFINITION, LURM_VARIANT_ABBREVIATIONS};
    uint8_t text[64];
    size_t room = capacity < sizeof text ? capacity : sizeof text;
    lurm_answer written = lurm_write_label_text(aliases->lines, aliases->length, 0, caller, style, label, text, room);
    lurm_label_answer read;

    if (!granted(question, written))
        return;
    printf("%.*s\n", (int)written.value, (const char *)text);
    read = lurm_read_label_text(aliases->lines, aliases->length, 0, caller, text, (size_t)written.value);
    (void)print_label_answer("read back", read);
}

static void texts(lurm_label first, lurm_label both)
{
    static alias_table aliases;
    lurm_caller caller = {0};

    add_name(&aliases, LURM_NAMES_HIERARCHY, 30, "internal", "int");
    add_name(&aliases, LURM_NAMES_CATEGORY, 1, "north", "n");
    add_name(&aliases, LURM_NAMES_CATEGORY, 2, "south", "");
    print_number("lines of the alias table", lurm_check_alias_table(aliases.lines, aliases.length, 0));
    caller.label = both;
    write_text("as text in 5 bytes", &aliases, caller, both, 5);
    write_text("as text in 64 bytes", &aliases, caller, both, 64);
    caller.label = first;
    write_text("as text for the first", &aliases, caller, both, 64);
    caller.read_override = 1;
    write_text("as text for the first with the read override", &aliases, caller, both, 64);
    both.hierarchy = 20;
    write_text("as text at hierarchy 20", &aliases, caller, both, 64);
    add_name(&aliases, LURM_NAMES_CATEGORY, 3, "west", "n");
    print_number("lines of an alias table with a name twice", lurm_check_alias_table(aliases.lines, aliases.length, 0));
}

/* ---- Segments ---- */

static const lurm_tenant_id first_tenant = {0}, second_tenant = {1}, unknown_tenant = {7};

/* Keeps the state that a call leaves, which after a refusal is the one before, and gives 1 where it was granted. */
static int keep(const char *question, lurm_state *state, const lurm_outcome *outcome)
{
    *state = outcome->state;
    return granted(question, outcome->answer);
}

/* For calls that answer nothing more. */
static void keep_done(const char *question, lurm_state *state, lurm_outcome outcome)
{
    if (keep(question, state, &outcome))
        printf("done\n");
}

/* Admits a tenant that is cleared for the labels from (20,{}) to `high`. */
static void admit(const char *question, lurm_state *state, lurm_tenant_id tenant, uint64_t ceiling, lurm_label high)
{
    lurm_tuple_answer clearance;
    lurm_range range;

    range.low = label_of(20, NULL, 0);
    range.high = high;
    clearance = lurm_range_split(range);
    must("a clearance", clearance.answer);
    keep_done(question, state, lurm_admit(*state, tenant, ceiling, clearance.tuple));
}

/* Gives 1 where there is a new segment, and its slot. */
static int open_segment(const char *question, lurm_state *state, lurm_tenant_id tenant, lurm_label label, uint64_t pages, lurm_slot *slot)
{
    lurm_outcome outcome = lurm_open(*state, tenant, label, pages);
    if (!keep(question, state, &outcome))
        return 0;
    slot->number = outcome.answer.value;
    printf("slot %" PRIu64 "\n", slot->number);
    return 1;
}

static void look(const char *question, lurm_state *state, lurm_tenant_id tenant, lurm_label label, lurm_slot slot)
{
    lurm_outcome outcome = lurm_look(*state, tenant, label, slot);
    if (!keep(question, state, &outcome))
        return;
    print_label(outcome.shown.label);
    printf(" pages %" PRIu64 " version %" PRIu64 "\n", outcome.shown.pages, outcome.shown.version);
}

/* Two tenants share a pool of 100 pages. */
static lurm_state admitted(lurm_label first, lurm_label second)
{
    lurm_outcome made = lurm_make(100);
    must("make", made.answer);
    admit("the first is admitted with 60 pages", &made.state, first_tenant, 60, first);
    admit("the second is admitted with 50 pages", &made.state, second_tenant, 50, second);
    admit("the second is admitted with 40 pages", &made.state, second_tenant, 40, second);
    admit("the second is admitted again", &made.state, second_tenant, 1, second);
    return made.state;
}

/* One segment of the first tenant, and what each of them may do to it. */
static void share(lurm_state *state, lurm_label first, lurm_label second, lurm_slot slot)
{
    keep_done("the first posts version 7", state, lurm_post(*state, first_tenant, first, slot, 7));
    look("the first looks", state, first_tenant, first, slot);
    look("the second looks", state, second_tenant, second, slot);
    look("the second looks with the first's label", state, second_tenant, first, slot);
    keep_done("the second closes it", state, lurm_close(*state, second_tenant, second, slot));
    keep_done("the first sizes it to 61 pages", state, lurm_size(*state, first_tenant, first, slot, 61));
    keep_done("the first sizes it to 50 pages", state, lurm_size(*state, first_tenant, first, slot, 50));
    print_number("pages of the first", lurm_pages_in_use(*state, first_tenant));
    print_number("pages of a tenant that is not there", lurm_pages_in_use(*state, unknown_tenant));
    keep_done("the first's ceiling is set to 40 pages", state, lurm_set_ceiling(*state, first_tenant, 40));
    keep_done("the first closes it", state, lurm_close(*state, first_tenant, first, slot));
    look("the first looks again", state, first_tenant, first, slot);
}

static void segments(lurm_label first, lurm_label second)
{
    lurm_state state = admitted(first, second);
    lurm_slot slot;

    if (!open_segment("the first opens 60 pages", &state, first_tenant, first, 60, &slot))
        return;
    share(&state, first, second, slot);
    if (open_segment("the second opens 40 pages", &state, second_tenant, second, 40, &slot))
        look("the second looks at them", &state, second_tenant, second, slot);
    while (open_segment("the first opens 1 page", &state, first_tenant, first, 1, &slot))
        continue;
    print_test("the state is sound", lurm_sound(state));
}

int main(void)
{
    lurm_label first, second, both;

    if (lurm_version() != LURM_VERSION) {
        fprintf(stderr, "this program was compiled for version %s of the library, and another is linked\n", LURM_VERSION_STRING);
        return EXIT_FAILURE;
    }
    first = tenant_label("the first tenant", first_line);
    second = tenant_label("the second tenant", second_line);
    (void)print_label_answer("a line with a wrong sum", read_line(bad_line));
    both = compare(first, second);
    decisions(first, second);
    texts(first, both);
    segments(first, second);
    return EXIT_SUCCESS;
}
