/* Names and text: document 01's two lines, and an alias table as large as there is one, with the longest names. */
#include "cases.h"

#define LONGEST_LABEL 8223  /* a hierarchy's name of 31 bytes, then 256 names of categories with as many `:` and `,` */
#define SHORTER_LABEL 4111  /* the same with abbreviations of 15 bytes */
#define LONGEST_RANGE 16453 /* two of them after `-L ` and ` -H ` */
#define SEVEN 128           /* the first word of the categories {7} */

typedef struct alias_table {
    uint8_t bytes[(LURM_MAX_ALIAS_LINES + 1) * LURM_MAX_LINE];
    size_t length;
} alias_table;

static const uint8_t low_and_east[] = "040114036c6f770092\n04020704656173740165dc\n";
static const size_t low_and_east_length = sizeof low_and_east - 1;
static alias_table largest;

static void add(alias_table *aliases, lurm_entry_answer made)
{
    lurm_answer written;
    need(made.answer, "an entry");
    written = lurm_write_entry(made.entry, aliases->bytes + aliases->length, sizeof aliases->bytes - aliases->length);
    need(written, "a line");
    aliases->length += (size_t)written.value;
}

/* An entry with the longest name and abbreviation, which no other letter and number have. */
static lurm_entry_answer entry(uint64_t names, uint64_t number, lurm_label of, char letter, unsigned row)
{
    char name[LURM_MAX_NAME + 1], abbreviation[LURM_MAX_ABBREVIATION + 1];
    sprintf(name, "%c%030u", letter, row);
    sprintf(abbreviation, "%c%014u", letter, row);
    return lurm_entry_from_strings(names, number, of, name, abbreviation);
}

/* Every hierarchy and category, and the highest label last. A line more would be one too many. */
static void fill(alias_table *aliases)
{
    const unsigned hierarchies = LURM_MAX_HIERARCHY + 1, numbers = hierarchies + LURM_CATEGORIES;
    unsigned line;

    for (line = 0; line < LURM_MAX_ALIAS_LINES; line++)
        add(aliases, line < hierarchies ? entry(LURM_NAMES_HIERARCHY, line, label(0, 0), 'h', line)
                     : line < numbers   ? entry(LURM_NAMES_CATEGORY, line - hierarchies, label(0, 0), 'c', line)
                                        : entry(LURM_NAMES_LABEL, 0, highest(), 'l', line));
}

static lurm_style style(uint64_t form, uint64_t variant)
{
    lurm_style made;
    made.form = form;
    made.variant = variant;
    return made;
}

static void checked(void)
{
    alias_table longer = largest;
    size_t last = largest.length;

    add(&longer, entry(LURM_NAMES_LABEL, 0, highest(), 'x', 0));
    ATTEMPT(lurm_check_alias_table, granted(2), low_and_east, low_and_east_length, 0);
    ATTEMPT(lurm_check_alias_table, granted(0), low_and_east, 0, 0);
    ATTEMPT(lurm_check_alias_table, granted(LURM_MAX_ALIAS_LINES), largest.bytes, last, 0);
    ATTEMPT(lurm_check_alias_table, refused_with(LURM_EINVAL, LURM_MAX_ALIAS_LINES), longer.bytes, longer.length, 0);
    ATTEMPT(lurm_check_alias_table, refused_with(LURM_EINVAL, LURM_MAX_ALIAS_LINES - 1), largest.bytes, last - 1, 0);
    ATTEMPT(lurm_check_alias_table, refused_with(LURM_EINVAL, 2), low_and_east, low_and_east_length, 1);
    ATTEMPT(lurm_check_alias_table, refused_with(LURM_EINVAL, 0), low_and_east + 1, low_and_east_length - 1, 0);
    ATTEMPT(lurm_check_alias_table, refused(LURM_EINVAL), low_and_east, low_and_east_length, 2);
}

static void labels_written(void)
{
    const uint8_t *aliases = low_and_east;
    const size_t length = low_and_east_length;
    lurm_style names = style(LURM_FORM_DEFINITION, LURM_VARIANT_NAMES), short_alias = style(LURM_FORM_ALIAS, LURM_VARIANT_ABBREVIATIONS);
    lurm_label l = label(20, SEVEN), top = highest();
    lurm_caller self = caller(l, 0), all = caller(top, 0), lower = caller(label(20, 0), 0);

    ATTEMPT(lurm_write_label_text, granted(8), aliases, length, 0, self, names, l, lent, sizeof lent);
    ATTEMPT(lurm_write_label_text, granted(8), aliases, length, 0, caller(label(0, 0), 1), names, l, lent, 8);
    ATTEMPT(lurm_write_label_text, granted(LONGEST_LABEL), largest.bytes, largest.length, 0, all, names, top, lent, sizeof lent);
    ATTEMPT(lurm_write_label_text, granted(SHORTER_LABEL), largest.bytes, largest.length, 0, all, style(0, 1), top, lent, sizeof lent);
    ATTEMPT(lurm_write_label_text, granted(LURM_MAX_ABBREVIATION), largest.bytes, largest.length, 0, all, short_alias, top, lent, sizeof lent);
    ATTEMPT(lurm_write_label_text, refused_with(LURM_E2BIG, 8), aliases, length, 0, self, names, l, lent, 7);
    ATTEMPT(lurm_write_label_text, refused(LURM_ENOENT), aliases, length, 0, all, names, label(20, ONE_TWO), lent, sizeof lent);
    ATTEMPT(lurm_write_label_text, refused(LURM_EACCES), aliases, length, 0, lower, names, l, lent, sizeof lent);
    ATTEMPT(lurm_write_label_text, refused(LURM_EINVAL), aliases, length, 0, caller(label(200, 0), 1), names, l, lent, sizeof lent);
    ATTEMPT(lurm_write_label_text, refused(LURM_EINVAL), aliases, length, 0, caller(l, UINT64_MAX), names, l, lent, sizeof lent);
    ATTEMPT(lurm_write_label_text, refused(LURM_EINVAL), aliases, length, 0, self, style(2, 0), l, lent, sizeof lent);
    ATTEMPT(lurm_write_label_text, refused_with(LURM_EINVAL, 1), aliases, length - 1, 0, self, names, l, lent, sizeof lent);
}

static void ranges_written(void)
{
    const uint8_t *aliases = low_and_east;
    const size_t length = low_and_east_length;
    lurm_style names = style(LURM_FORM_DEFINITION, LURM_VARIANT_NAMES);
    lurm_label bottom = label(20, 0), l = label(20, SEVEN), top = highest();
    lurm_range one = range(top, top), x = range(bottom, l);

    ATTEMPT(lurm_write_range_text, granted(18), aliases, length, 0, caller(l, 0), names, x, lent, sizeof lent);
    ATTEMPT(lurm_write_range_text, granted(11), aliases, length, 0, caller(bottom, 0), names, x, lent, sizeof lent);
    ATTEMPT(lurm_write_range_text, granted(LONGEST_RANGE), largest.bytes, largest.length, 0, caller(bottom, 1), names, one, lent, LONGEST_RANGE);
    ATTEMPT(lurm_write_range_text, refused_with(LURM_E2BIG, LONGEST_RANGE), largest.bytes, largest.length, 0, caller(top, 0), names, one, lent, 0);
    ATTEMPT(lurm_write_range_text, refused(LURM_EACCES), aliases, length, 0, caller(label(0, 0), 0), names, x, lent, sizeof lent);
    ATTEMPT(lurm_write_range_text, refused(LURM_ENOENT), aliases, length, 0, caller(top, 0), names, one, lent, sizeof lent);
    ATTEMPT(lurm_write_range_text, refused(LURM_EINVAL), aliases, length, 0, caller(top, 0), names, range(l, bottom), lent, sizeof lent);
    ATTEMPT(lurm_write_range_text, refused_with(LURM_EINVAL, 0), aliases, 1, 0, caller(top, 0), names, x, lent, sizeof lent);
}

static void labels_read(void)
{
    static uint8_t longest[LONGEST_LABEL];
    const uint8_t *aliases = low_and_east, *text = (const uint8_t *)"low:e";
    const size_t length = low_and_east_length;
    lurm_caller self = caller(label(20, SEVEN), 0), all = caller(highest(), 0);

    need(lurm_write_label_text(largest.bytes, largest.length, 0, all, style(0, 0), highest(), longest, sizeof longest), "a text");
    ATTEMPT(lurm_read_label_text, granted(0), aliases, length, 0, self, text, 5);
    ATTEMPT(lurm_read_label_text, granted(0), largest.bytes, largest.length, 0, all, longest, sizeof longest);
    ATTEMPT(lurm_read_label_text, refused(LURM_EINVAL), aliases, length, 0, self, text, 4);
    ATTEMPT(lurm_read_label_text, refused(LURM_EINVAL), aliases, length, 0, self, longest, sizeof longest);
    ATTEMPT(lurm_read_label_text, refused(LURM_EINVAL), aliases, length, 0, caller(label(20, 0), 0), text, 5);
    ATTEMPT(lurm_read_label_text, refused(LURM_EINVAL), aliases, length, UINT64_MAX, self, text, 5);
    ATTEMPT(lurm_read_label_text, refused_with(LURM_EINVAL, 2), aliases, length, 1, self, text, 5);
}

static void ranges_read(void)
{
    static uint8_t longest[LONGEST_RANGE];
    const uint8_t *aliases = low_and_east, *text = (const uint8_t *)"-L low -H low:east", *hidden = (const uint8_t *)"-L low -H ?";
    const size_t length = low_and_east_length;
    lurm_caller self = caller(label(20, SEVEN), 0), all = caller(highest(), 0);
    lurm_range one = range(highest(), highest());

    need(lurm_write_range_text(largest.bytes, largest.length, 0, all, style(0, 0), one, longest, sizeof longest).answer, "a text");
    ATTEMPT(lurm_read_range_text, granted(0), aliases, length, 0, self, text, 18);
    ATTEMPT(lurm_read_range_text, granted(0), largest.bytes, largest.length, 0, all, longest, sizeof longest);
    ATTEMPT(lurm_read_range_text, refused(LURM_EINVAL), aliases, length, 0, self, hidden, 11);
    ATTEMPT(lurm_read_range_text, refused(LURM_EINVAL), aliases, length, 0, caller(label(20, 0), 0), text, 18);
    ATTEMPT(lurm_read_range_text, refused(LURM_EINVAL), aliases, length, 0, caller(label(20, 0), 2), text, 18);
    ATTEMPT(lurm_read_range_text, refused_with(LURM_EINVAL, 0), aliases + 2, length - 2, 0, self, text, 18);
}

void text_cases(void)
{
    fill(&largest);
    checked();
    labels_written();
    ranges_written();
    labels_read();
    ranges_read();
}
