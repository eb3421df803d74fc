/* Shared memory segments. Pool 100 with ceilings of 60 and 40 is document 01's example; the full state has every tenant and every slot in use. */
#include "cases.h"

#define POOL 100
#define FULL_POOL (LURM_TENANTS * 8)

static lurm_tenant_id tenant(uint64_t number)
{
    lurm_tenant_id made;
    made.number = number;
    return made;
}

static lurm_slot slot(uint64_t number)
{
    lurm_slot made;
    made.number = number;
    return made;
}

/* The state that a call leaves which the cases need to be granted. */
static lurm_state after(lurm_outcome outcome, const char *what)
{
    need(outcome.answer, what);
    return outcome.state;
}

/* Tenant 0 with a ceiling of 60 pages and 10 in slot 0 at (30,{1,2}), tenant 1 with 40 and nothing open. */
static lurm_state two_tenants(void)
{
    lurm_tuple clearance = tuple(range(label(20, 0), label(40, ONE_TWO)));
    lurm_state state = after(lurm_make(POOL), "make");
    state = after(lurm_admit(state, tenant(0), 60, clearance), "admit");
    state = after(lurm_admit(state, tenant(1), 40, clearance), "admit");
    return after(lurm_open(state, tenant(0), label(30, ONE_TWO), 10), "open");
}

static lurm_state full_tenant(lurm_state state, uint64_t number)
{
    unsigned i;
    state = after(lurm_admit(state, tenant(number), 8, every_label()), "admit");
    for (i = 0; i < 8; i++)
        state = after(lurm_open(state, tenant(number), highest(), 1), "open");
    return state;
}

static lurm_state full(void)
{
    lurm_state state = after(lurm_make(FULL_POOL), "make");
    unsigned i;
    for (i = 0; i < LURM_TENANTS; i++)
        state = full_tenant(state, i);
    return state;
}

static void operator_calls(lurm_state two, lurm_state all, lurm_state unsound)
{
    lurm_tuple empty = {{{0, {{0, {0}}, {0, {0}}}}}}, every = every_label();

    ATTEMPT(lurm_make, granted(0), LURM_MAX_PAGES);
    ATTEMPT(lurm_make, refused(LURM_EINVAL), 0);
    ATTEMPT(lurm_make, refused(LURM_EINVAL), LURM_MAX_PAGES + 1);
    ATTEMPT(lurm_admit, granted(0), after(lurm_make(POOL), "make"), tenant(7), POOL, every);
    ATTEMPT(lurm_admit, refused(LURM_ENOMEM), two, tenant(2), 1, every);
    ATTEMPT(lurm_admit, refused(LURM_ENOMEM), two, tenant(2), UINT64_MAX, every);
    ATTEMPT(lurm_admit, refused(LURM_EBUSY), two, tenant(1), 1, every);
    ATTEMPT(lurm_admit, refused(LURM_EINVAL), two, tenant(8), 1, every);
    ATTEMPT(lurm_admit, refused(LURM_EINVAL), two, tenant(2), 1, empty);
    ATTEMPT(lurm_admit, refused(LURM_EINVAL), unsound, tenant(2), 1, every);
    ATTEMPT(lurm_set_ceiling, granted(0), two, tenant(0), 10);
    ATTEMPT(lurm_set_ceiling, granted(0), all, tenant(7), 8);
    ATTEMPT(lurm_set_ceiling, refused(LURM_EBUSY), two, tenant(0), 9);
    ATTEMPT(lurm_set_ceiling, refused(LURM_ENOMEM), two, tenant(0), 61);
    ATTEMPT(lurm_set_ceiling, refused(LURM_EINVAL), two, tenant(UINT64_MAX), 1);
    ATTEMPT(lurm_set_ceiling, refused(LURM_EINVAL), unsound, tenant(0), 10);
}

static void opened_and_sized(lurm_state two, lurm_state all, lurm_state unsound)
{
    lurm_label own = label(30, ONE_TWO);

    ATTEMPT(lurm_open, granted(1), two, tenant(0), own, 50);
    ATTEMPT(lurm_open, granted(8), two, tenant(1), label(20, 0), 40);
    ATTEMPT(lurm_open, refused(LURM_ENOMEM), two, tenant(1), label(20, 0), 41);
    ATTEMPT(lurm_open, refused(LURM_ENOSPC), all, tenant(7), highest(), 1);
    ATTEMPT(lurm_open, refused(LURM_EPERM), two, tenant(0), highest(), 1);
    ATTEMPT(lurm_open, refused(LURM_EINVAL), two, tenant(2), own, 1);
    ATTEMPT(lurm_open, refused(LURM_EINVAL), two, tenant(0), label(PAST_BYTE + 30, 0), 1);
    ATTEMPT(lurm_open, refused(LURM_EINVAL), unsound, tenant(0), own, 1);
    ATTEMPT(lurm_size, granted(0), two, tenant(0), own, slot(0), 60);
    ATTEMPT(lurm_size, granted(0), all, tenant(7), highest(), slot(63), 1);
    ATTEMPT(lurm_size, refused(LURM_ENOMEM), two, tenant(0), own, slot(0), 61);
    ATTEMPT(lurm_size, refused(LURM_EACCES), two, tenant(0), own, slot(1), 1);
    ATTEMPT(lurm_size, refused(LURM_EPERM), two, tenant(0), label(50, 0), slot(0), 1);
    ATTEMPT(lurm_size, refused(LURM_EINVAL), two, tenant(0), own, slot(0), LURM_MAX_PAGES + 1);
    ATTEMPT(lurm_size, refused(LURM_EINVAL), unsound, tenant(0), own, slot(0), 1);
}

static void posted_and_closed(lurm_state two, lurm_state all, lurm_state unsound)
{
    lurm_label own = label(30, ONE_TWO);

    ATTEMPT(lurm_post, granted(0), two, tenant(0), own, slot(0), UINT64_MAX);
    ATTEMPT(lurm_post, granted(0), all, tenant(7), highest(), slot(63), 1);
    ATTEMPT(lurm_post, refused(LURM_EACCES), two, tenant(1), own, slot(0), 1);
    ATTEMPT(lurm_post, refused(LURM_EPERM), two, tenant(0), label(0, 0), slot(0), 1);
    ATTEMPT(lurm_post, refused(LURM_EINVAL), two, tenant(0), own, slot(64), 1);
    ATTEMPT(lurm_post, refused(LURM_EINVAL), unsound, tenant(0), own, slot(0), 1);
    ATTEMPT(lurm_close, granted(0), two, tenant(0), own, slot(0));
    ATTEMPT(lurm_close, granted(0), all, tenant(7), highest(), slot(63));
    ATTEMPT(lurm_close, refused(LURM_EACCES), all, tenant(7), highest(), slot(0));
    ATTEMPT(lurm_close, refused(LURM_EPERM), two, tenant(0), highest(), slot(0));
    ATTEMPT(lurm_close, refused(LURM_EINVAL), two, tenant(0), own, slot(UINT64_MAX));
    ATTEMPT(lurm_close, refused(LURM_EINVAL), unsound, tenant(0), own, slot(0));
}

static void looked_at(lurm_state two, lurm_state all, lurm_state unsound)
{
    lurm_label own = label(30, ONE_TWO);
    lurm_state nothing;

    memset(&nothing, 0, sizeof nothing);
    ATTEMPT(lurm_look, granted(0), two, tenant(1), own, slot(0));
    ATTEMPT(lurm_look, granted(0), all, tenant(0), highest(), slot(63));
    ATTEMPT(lurm_look, refused(LURM_EACCES), two, tenant(1), label(40, 2), slot(0));
    ATTEMPT(lurm_look, refused(LURM_EPERM), two, tenant(1), highest(), slot(0));
    ATTEMPT(lurm_look, refused(LURM_EINVAL), two, tenant(1), own, slot(64));
    ATTEMPT(lurm_look, refused(LURM_EINVAL), unsound, tenant(1), own, slot(0));
    ATTEMPT(lurm_sound, granted(1), two);
    ATTEMPT(lurm_sound, granted(1), all);
    ATTEMPT(lurm_sound, granted(0), unsound);
    ATTEMPT(lurm_sound, granted(0), nothing);
    ATTEMPT(lurm_pages_in_use, granted(10), two, tenant(0));
    ATTEMPT(lurm_pages_in_use, granted(8), all, tenant(7));
    ATTEMPT(lurm_pages_in_use, refused(LURM_EINVAL), two, tenant(2));
    ATTEMPT(lurm_pages_in_use, refused(LURM_EINVAL), unsound, tenant(0));
}

void state_cases(void)
{
    lurm_state two = two_tenants(), all = full(), unsound = two_tenants();

    unsound.tenants[0].clearance.ranges[1].present = 2;
    operator_calls(two, all, unsound);
    opened_and_sized(two, all, unsound);
    posted_and_closed(two, all, unsound);
    looked_at(two, all, unsound);
}
