/* Hex lines. Lengths are of document 01's layouts: a label has 35 bytes of two digits, a range 68, a full tuple 201. */
#include "cases.h"

#define LABEL_LINE 71
#define RANGE_LINE 137
#define TUPLE_LINE 403
#define EMPTY_TUPLE_LINE 7
#define LONGEST_ENTRY_LINE 169

typedef struct text {
    uint8_t bytes[LURM_MAX_LINE];
    size_t length;
} text;

static const char longest_name[] = "abcdefghijklmnopqrstuvwxyz_-.09";
static const char longest_abbreviation[] = "ABCDEFGHIJKLMNO";

static text line_of(const char *digits)
{
    text made;
    made.length = strlen(digits);
    memcpy(made.bytes, digits, made.length);
    return made;
}

static lurm_entry longest_entry(void)
{
    lurm_entry_answer made = lurm_entry_from_strings(LURM_NAMES_LABEL, 0, highest(), longest_name, longest_abbreviation);
    need(made.answer, "an entry");
    return made.entry;
}

static void written(void)
{
    lurm_range upside_down = range(label(40, 0), label(20, 0));
    lurm_tuple empty = {{{0, {{0, {0}}, {0, {0}}}}}}, doubtful = every_label();
    lurm_entry entry = longest_entry(), unended = longest_entry();

    doubtful.ranges[1].present = UINT64_MAX;
    unended.name.bytes[LURM_MAX_NAME] = 'x';
    ATTEMPT(lurm_write_label, granted(LABEL_LINE), highest(), lent, LABEL_LINE);
    ATTEMPT(lurm_write_label, refused_with(LURM_E2BIG, LABEL_LINE), highest(), lent, LABEL_LINE - 1);
    ATTEMPT(lurm_write_label, refused(LURM_EINVAL), label(PAST_BYTE, 0), lent, sizeof lent);
    ATTEMPT(lurm_write_range, granted(RANGE_LINE), range(label(0, 0), highest()), lent, sizeof lent);
    ATTEMPT(lurm_write_range, refused_with(LURM_E2BIG, RANGE_LINE), range(label(0, 0), highest()), lent, 0);
    ATTEMPT(lurm_write_range, refused(LURM_EINVAL), upside_down, lent, 0);
    ATTEMPT(lurm_write_tuple, granted(TUPLE_LINE), every_label(), lent, sizeof lent);
    ATTEMPT(lurm_write_tuple, granted(EMPTY_TUPLE_LINE), empty, lent, sizeof lent);
    ATTEMPT(lurm_write_tuple, refused_with(LURM_E2BIG, TUPLE_LINE), every_label(), lent, 1);
    ATTEMPT(lurm_write_tuple, refused(LURM_EINVAL), doubtful, lent, sizeof lent);
    ATTEMPT(lurm_write_entry, granted(LONGEST_ENTRY_LINE), entry, lent, sizeof lent);
    ATTEMPT(lurm_write_entry, refused_with(LURM_E2BIG, LONGEST_ENTRY_LINE), entry, lent, LONGEST_ENTRY_LINE - 1);
    ATTEMPT(lurm_write_entry, refused(LURM_EINVAL), unended, lent, sizeof lent);
}

/* Lines that the writers make of what is longest. */
static text written_line(lurm_answer answer, const uint8_t *bytes)
{
    text made;
    need(answer, "a line");
    made.length = (size_t)answer.value;
    memcpy(made.bytes, bytes, made.length);
    return made;
}

/* A frame of kind 01 that fills the buffer, with a body of zeros: its check byte is ff. */
static void of_zeros(uint8_t *line, size_t length)
{
    memset(line, '0', length);
    line[1] = '1';
    line[length - 3] = line[length - 2] = 'f';
    line[length - 1] = '\n';
}

static void read_back(void)
{
    uint8_t bytes[LURM_MAX_LINE], longer[LURM_MAX_LINE + 2];
    text of_label = written_line(lurm_write_label(highest(), bytes, sizeof bytes), bytes);
    text of_range = written_line(lurm_write_range(range(label(0, 0), highest()), bytes, sizeof bytes), bytes);
    text of_tuple = written_line(lurm_write_tuple(every_label(), bytes, sizeof bytes), bytes);
    text of_entry = written_line(lurm_write_entry(longest_entry(), bytes, sizeof bytes), bytes);
    text east = line_of("04020704656173740165dc\n"), wrong_sum = line_of("04020804656173740165dc\n");

    ATTEMPT(lurm_line_kind, granted(LURM_LINE_LABEL), of_label.bytes, of_label.length);
    ATTEMPT(lurm_line_kind, granted(LURM_LINE_RANGE), of_range.bytes, of_range.length);
    ATTEMPT(lurm_line_kind, granted(LURM_LINE_TUPLE), of_tuple.bytes, of_tuple.length);
    ATTEMPT(lurm_line_kind, granted(LURM_LINE_ENTRY), of_entry.bytes, of_entry.length);
    ATTEMPT(lurm_line_kind, refused(LURM_EINVAL), of_entry.bytes, 0);
    of_zeros(bytes, sizeof bytes);
    ATTEMPT(lurm_line_kind, granted(LURM_LINE_LABEL), bytes, sizeof bytes);
    of_zeros(longer, sizeof longer);
    ATTEMPT(lurm_line_kind, refused(LURM_EINVAL), longer, sizeof longer);
    ATTEMPT(lurm_read_label, granted(0), of_label.bytes, of_label.length);
    ATTEMPT(lurm_read_label, refused(LURM_EINVAL), of_label.bytes, of_label.length - 1);
    ATTEMPT(lurm_read_label, refused(LURM_EINVAL), of_range.bytes, of_range.length);
    ATTEMPT(lurm_read_range, granted(0), of_range.bytes, of_range.length);
    ATTEMPT(lurm_read_range, refused(LURM_EINVAL), of_tuple.bytes, of_tuple.length);
    ATTEMPT(lurm_read_tuple, granted(0), of_tuple.bytes, of_tuple.length);
    ATTEMPT(lurm_read_tuple, refused(LURM_EINVAL), of_tuple.bytes, 0);
    ATTEMPT(lurm_read_entry, granted(0), of_entry.bytes, of_entry.length);
    ATTEMPT(lurm_read_entry, granted(0), east.bytes, east.length);
    ATTEMPT(lurm_read_entry, refused(LURM_EINVAL), wrong_sum.bytes, wrong_sum.length);
}

void line_cases(void)
{
    written();
    read_back();
}
