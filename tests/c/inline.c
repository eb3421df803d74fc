/* The header's inline C and its version, as C and as C++: words, numbers, and strings of every odd kind. What an entry says, document 01 decides. */
#include <stdio.h>
#include <stdlib.h>

#include "lurmenize.h"
#include "words.h"

#define LONG_STRING 100000
#define MOST_REFUSALS 200

static int faults;

static void check(int holds, const char *what)
{
    if (holds)
        return;
    fprintf(stderr, "not so: %s\n", what);
    faults++;
}

static int is_zeros(const void *memory, size_t length)
{
    const unsigned char *bytes = (const unsigned char *)memory;
    size_t i;
    for (i = 0; i < length; i++)
        if (bytes[i] != 0)
            return 0;
    return 1;
}

/* ---- Version and words ---- */

static void versions(void)
{
    char numbers[32];
    sprintf(numbers, "%d.%d.%d", LURM_VERSION_MAJOR, LURM_VERSION_MINOR, LURM_VERSION_PATCH);
    check(lurm_version() == LURM_VERSION, "the library has the header's version");
    check(strcmp(numbers, LURM_VERSION_STRING) == 0, "LURM_VERSION_STRING has the three numbers");
}

/* The words of a number by its comment, or those for what is no refusal. */
static const char *said(uint32_t number)
{
    size_t i;
    for (i = 0; i < sizeof refusals / sizeof refusals[0]; i++)
        if (refusals[i].refusal == number)
            return refusals[i].words;
    return number == 0 ? "granted" : "no refusal of this library";
}

static void words(void)
{
    uint32_t number;
    for (number = 0; number < MOST_REFUSALS; number++)
        check(strcmp(lurm_strerror(number), said(number)) == 0, said(number));
    check(strcmp(lurm_strerror(UINT32_MAX), said(UINT32_MAX)) == 0, "the words of no refusal");
}

/* ---- Entries from strings ---- */

static const lurm_label none = {0, {0, 0, 0, 0}};
static char names_32[] = "abcdefghijklmnopqrstuvwxyz_-.098";
static char abbreviation_16[] = "abcdefghij_-.098";

static lurm_entry_answer category(const char *name, const char *abbreviation)
{
    return lurm_entry_from_strings(LURM_NAMES_CATEGORY, 7, none, name, abbreviation);
}

/* The refusal that the line of an entry gets, or 0. */
static uint32_t written(lurm_entry_answer made)
{
    uint8_t line[LURM_MAX_LINE];
    if (made.answer.refusal != 0)
        return made.answer.refusal;
    return lurm_write_entry(made.entry, line, sizeof line).refusal;
}

static void as_told(void)
{
    lurm_entry_answer east = category("east", "e");
    lurm_entry expected;
    uint8_t line[LURM_MAX_LINE];
    static const char document[] = "04020704656173740165dc\n";
    lurm_answer answer = lurm_write_entry(east.entry, line, sizeof line);
    lurm_entry_answer read = lurm_read_entry((const uint8_t *)document, sizeof document - 1);

    memset(&expected, 0, sizeof expected);
    expected.names = LURM_NAMES_CATEGORY;
    expected.number = 7;
    memcpy(expected.name.bytes, "east", 4);
    expected.name.length = 4;
    memcpy(expected.abbreviation.bytes, "e", 1);
    expected.abbreviation.length = 1;
    check(is_zeros(&east.answer, sizeof east.answer), "east: granted with 0");
    check(memcmp(&east.entry, &expected, sizeof expected) == 0, "east: each byte of the entry");
    check(answer.refusal == 0 && answer.value == sizeof document - 1, "east: the length of its line");
    check(memcmp(line, document, sizeof document - 1) == 0, "east: document 01's line");
    check(memcmp(&read, &east, sizeof east) == 0, "east: what the line says is what the strings make");
    check(strcmp((const char *)read.entry.name.bytes, "east") == 0, "east: a name that was read is a C string");
}

/* At the longest, and a byte longer. */
static void lengths(void)
{
    static char long_string[LONG_STRING];
    lurm_entry_answer name_32 = category(names_32, "e"), short_16 = category("east", abbreviation_16);

    memset(long_string, 'a', sizeof long_string - 1);
    check(strlen(names_32) == LURM_NAME_BYTES && strlen(abbreviation_16) == LURM_ABBREVIATION_BYTES, "the strings are one byte too long");
    check(name_32.answer.refusal == LURM_EINVAL && is_zeros(&name_32.entry, sizeof name_32.entry), "a name of 32 bytes: refused, with zeros");
    check(short_16.answer.refusal == LURM_EINVAL && is_zeros(&short_16.entry, sizeof short_16.entry), "an abbreviation of 16 bytes: the same");
    check(name_32.answer.carries == 0 && name_32.answer.value == 0, "such a refusal carries nothing");
    check(category(long_string, "").answer.refusal == LURM_EINVAL, "a very long name");
    check(category("east", long_string).answer.refusal == LURM_EINVAL, "a very long abbreviation");
    check(written(category(names_32 + 1, abbreviation_16 + 1)) == 0, "31 and 15 bytes are written");
    check(category(names_32 + 1, "").entry.name.bytes[LURM_MAX_NAME] == 0, "the byte that ends the longest name");
    check(written(category("a", "")) == 0, "a name of one byte, and no abbreviation");
    check(category("", "").answer.refusal == 0 && written(category("", "")) == LURM_EINVAL, "no name: told where it is written");
}

/* Bytes that no name may have. A string ends at its first zero byte. */
static void bytes(void)
{
    static const char *const bad[] = {" ",     "1east", "-east",  "_east",  ".east",       "ea st", "ea:st",
                                      "ea,st", "east\n", "ea\tst", "e/east", "\xc3\xa9st", "e\xff", "?"};
    lurm_entry_answer cut = category("ea\0st", "e\0f");
    size_t i;

    for (i = 0; i < sizeof bad / sizeof bad[0]; i++) {
        check(category(bad[i], "").answer.refusal == 0 && written(category(bad[i], "")) == LURM_EINVAL, bad[i]);
        check(category("east", bad[i]).answer.refusal == 0 && written(category("east", bad[i])) == LURM_EINVAL, bad[i]);
    }
    check(cut.entry.name.length == 2 && is_zeros(cut.entry.name.bytes + 2, LURM_NAME_BYTES - 2), "nothing after a zero byte is taken");
    check(cut.entry.abbreviation.length == 1 && written(cut) == 0, "what stands before it is");
}

/* Numbers are taken as they are, and told where the entry is written. */
static void numbers(void)
{
    static const struct {
        uint64_t names, number, hierarchy;
        uint32_t refusal;
    } cases[] = {
        {LURM_NAMES_HIERARCHY, 199, 0, 0}, {LURM_NAMES_HIERARCHY, 200, 0, LURM_EINVAL}, {LURM_NAMES_HIERARCHY, 256, 0, LURM_EINVAL},
        {LURM_NAMES_CATEGORY, 255, 0, 0},  {LURM_NAMES_CATEGORY, 256, 0, LURM_EINVAL},  {LURM_NAMES_CATEGORY, UINT64_MAX, 0, LURM_EINVAL},
        {LURM_NAMES_LABEL, 0, 199, 0},     {LURM_NAMES_LABEL, 0, 256, LURM_EINVAL},     {LURM_NAMES_LABEL, 1, 0, LURM_EINVAL},
        {LURM_NAMES_CATEGORY, 7, 1, LURM_EINVAL}, {0, 0, 0, LURM_EINVAL}, {4, 0, 0, LURM_EINVAL}, {UINT64_MAX, 7, 0, LURM_EINVAL},
        {UINT64_C(0x100000002), 7, 0, LURM_EINVAL},
    };
    lurm_label label = none;
    size_t i;

    for (i = 0; i < sizeof cases / sizeof cases[0]; i++) {
        lurm_entry_answer made;
        label.hierarchy = cases[i].hierarchy;
        made = lurm_entry_from_strings(cases[i].names, cases[i].number, label, "east", "e");
        check(made.answer.refusal == 0, "no number is refused where the entry is made");
        check(made.entry.names == cases[i].names && made.entry.number == cases[i].number, "numbers are taken as they are");
        check(written(made) == cases[i].refusal, "and judged where the entry is written");
    }
}

/* Entries that no string makes: a byte past the length, a length past the bytes, a zero in a name. */
static void by_hand(void)
{
    lurm_entry_answer past = category("east", ""), ending = category(names_32 + 1, ""), length = category("east", ""), most = category("east", "");
    lurm_entry_answer zero = category("east", ""), abbreviation = category("east", abbreviation_16 + 1);

    past.entry.name.bytes[4] = 'x';
    ending.entry.name.bytes[LURM_MAX_NAME] = 'x';
    ending.entry.name.length = LURM_NAME_BYTES;
    length.entry.name.length = 5;
    most.entry.name.length = SIZE_MAX;
    zero.entry.name.bytes[1] = 0;
    abbreviation.entry.abbreviation.bytes[LURM_MAX_ABBREVIATION] = 'x';
    abbreviation.entry.abbreviation.length = LURM_ABBREVIATION_BYTES;
    check(written(past) == LURM_EINVAL, "a byte past the length");
    check(written(ending) == LURM_EINVAL, "a name of 32 bytes");
    check(written(length) == LURM_EINVAL, "a length past the name");
    check(written(most) == LURM_EINVAL, "the largest length");
    check(written(zero) == LURM_EINVAL, "a zero in a name");
    check(written(abbreviation) == LURM_EINVAL, "an abbreviation of 16 bytes");
}

/* An abbreviation may be its name in an entry, and not in an alias table. */
static void repeated(void)
{
    uint8_t line[LURM_MAX_LINE];
    lurm_answer answer = lurm_write_entry(category("east", "east").entry, line, sizeof line), table;

    check(answer.refusal == 0, "an abbreviation that is its name");
    table = lurm_check_alias_table(line, (size_t)answer.value, 0);
    check(table.refusal == LURM_EINVAL && table.carries == 1 && table.value == 0, "an alias table with it: line 0");
}

int main(void)
{
    versions();
    words();
    as_told();
    lengths();
    bytes();
    numbers();
    by_hand();
    repeated();
    return faults == 0 ? EXIT_SUCCESS : EXIT_FAILURE;
}
