/* Labels, ranges and tuples. The answers are document 01's; the values are its examples, the ends of what is valid, and what lies past them. */
#include "cases.h"

const char *const never_refused[] = {"lurm_version", "lurm_sound", NULL};

void attempts(void)
{
    ATTEMPT(lurm_version, granted(LURM_VERSION), 0);
    label_cases();
    line_cases();
    text_cases();
    monitor_cases();
    state_cases();
}

static void comparisons(void)
{
    lurm_label high = label(30, ONE_TWO), low = label(20, 4);

    ATTEMPT(lurm_dominates, granted(1), high, low);
    ATTEMPT(lurm_dominates, granted(0), low, label(30, 0));
    ATTEMPT(lurm_dominates, granted(1), highest(), highest());
    ATTEMPT(lurm_dominates, refused(LURM_EINVAL), label(200, 0), low);
    ATTEMPT(lurm_dominates, refused(LURM_EINVAL), high, label(PAST_BYTE, 0));
    ATTEMPT(lurm_equal, granted(1), highest(), highest());
    ATTEMPT(lurm_equal, granted(0), high, low);
    ATTEMPT(lurm_equal, refused(LURM_EINVAL), label(PAST_BYTE + 30, 0), label(30, 0));
    ATTEMPT(lurm_upper_bound, granted(0), label(20, 2), label(30, 4));
    ATTEMPT(lurm_upper_bound, refused(LURM_EINVAL), label(20, 2), label(UINT64_MAX, 4));
    ATTEMPT(lurm_lower_bound, granted(0), label(20, 2), label(30, 4));
    ATTEMPT(lurm_lower_bound, refused(LURM_EINVAL), label(200, 2), label(30, 4));
}

static void regions_and_categories(void)
{
    ATTEMPT(lurm_region_of, granted(0), label(19, 0));
    ATTEMPT(lurm_region_of, granted(1), label(20, ALL));
    ATTEMPT(lurm_region_of, granted(2), highest());
    ATTEMPT(lurm_region_of, refused(LURM_EINVAL), label(200, 0));
    ATTEMPT(lurm_has_category, granted(1), highest(), 255);
    ATTEMPT(lurm_has_category, granted(0), label(30, ONE_TWO), 3);
    ATTEMPT(lurm_has_category, refused(LURM_EINVAL), highest(), LURM_CATEGORIES);
    ATTEMPT(lurm_has_category, refused(LURM_EINVAL), label(UINT64_MAX, 0), 1);
    ATTEMPT(lurm_with_category, granted(0), label(30, ONE_TWO), 255);
    ATTEMPT(lurm_with_category, granted(0), highest(), 0);
    ATTEMPT(lurm_with_category, refused(LURM_EINVAL), label(30, 0), LURM_CATEGORIES);
    ATTEMPT(lurm_with_category, refused(LURM_EINVAL), label(200, 0), 0);
    ATTEMPT(lurm_next_category, granted(2), label(30, ONE_TWO), 2);
    ATTEMPT(lurm_next_category, granted(LURM_CATEGORIES), label(30, ONE_TWO), 3);
    ATTEMPT(lurm_next_category, granted(255), highest(), 255);
    ATTEMPT(lurm_next_category, granted(LURM_CATEGORIES), highest(), UINT64_MAX);
    ATTEMPT(lurm_next_category, refused(LURM_EINVAL), label(200, ONE_TWO), 0);
}

static void ranges(void)
{
    lurm_range x = range(label(20, 0), label(40, ONE_TWO)), y = range(label(30, 4), label(50, 12));
    lurm_range all = range(label(0, 0), highest()), upside_down = range(label(40, 0), label(20, 0));

    ATTEMPT(lurm_range_contains, granted(1), x, label(30, 2));
    ATTEMPT(lurm_range_contains, granted(0), x, label(50, 0));
    ATTEMPT(lurm_range_contains, refused(LURM_EINVAL), upside_down, label(30, 0));
    ATTEMPT(lurm_range_contains, refused(LURM_EINVAL), x, label(PAST_BYTE + 30, 0));
    ATTEMPT(lurm_range_meet, granted(0), x, y);
    ATTEMPT(lurm_range_meet, granted(0), all, all);
    ATTEMPT(lurm_range_meet, refused(LURM_EDOM), range(label(20, 2), label(40, 2)), range(label(20, 0), label(40, 4)));
    ATTEMPT(lurm_range_meet, refused(LURM_EINVAL), x, upside_down);
    ATTEMPT(lurm_range_split, granted(0), range(label(10, 0), label(30, 16)));
    ATTEMPT(lurm_range_split, granted(0), all);
    ATTEMPT(lurm_range_split, refused(LURM_EINVAL), upside_down);
}

static void tuples(void)
{
    lurm_tuple empty = {{{0, {{0, {0}}, {0, {0}}}}}}, all = every_label(), user = tuple(range(label(20, 0), label(40, ONE_TWO)));
    lurm_tuple absent = empty, doubtful = all;

    absent.ranges[0].range.high.hierarchy = 1; /* no range is there, though not of zeros */
    doubtful.ranges[2].present = 2;
    ATTEMPT(lurm_tuple_is_empty, granted(1), empty);
    ATTEMPT(lurm_tuple_is_empty, granted(0), all);
    ATTEMPT(lurm_tuple_is_empty, refused(LURM_EINVAL), absent);
    ATTEMPT(lurm_tuple_is_empty, refused(LURM_EINVAL), doubtful);
    ATTEMPT(lurm_tuple_contains, granted(1), all, highest());
    ATTEMPT(lurm_tuple_contains, granted(0), user, label(30, 8));
    ATTEMPT(lurm_tuple_contains, refused(LURM_EINVAL), absent, label(30, 0));
    ATTEMPT(lurm_tuple_contains, refused(LURM_EINVAL), all, label(200, 0));
    ATTEMPT(lurm_tuple_within, granted(1), all, all);
    ATTEMPT(lurm_tuple_within, granted(0), all, user);
    ATTEMPT(lurm_tuple_within, refused(LURM_EINVAL), user, doubtful);
    ATTEMPT(lurm_tuple_meet, granted(0), all, all);
    ATTEMPT(lurm_tuple_meet, granted(0), user, empty);
    ATTEMPT(lurm_tuple_meet, refused(LURM_EINVAL), absent, user);
}

void label_cases(void)
{
    comparisons();
    regions_and_categories();
    ranges();
    tuples();
}
