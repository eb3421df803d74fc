/* Dominance as libsepol decides it, for labels of this library. */

#include <stddef.h>
#include <stdint.h>
#include <stdlib.h>

#include <sepol/policydb/mls_types.h>

/* A level with that hierarchy as its sensitivity and these categories; null where there is no memory. */
struct mls_level *bench_sepol_level(uint32_t hierarchy, const uint8_t *categories, size_t count)
{
    struct mls_level *level = malloc(sizeof *level);
    if (!level)
        return NULL;
    mls_level_init(level);
    level->sens = hierarchy;
    for (size_t i = 0; i < count; i++) {
        if (ebitmap_set_bit(&level->cat, categories[i], 1) < 0) {
            mls_level_destroy(level);
            free(level);
            return NULL;
        }
    }
    return level;
}

void bench_sepol_free(struct mls_level *level)
{
    mls_level_destroy(level);
    free(level);
}

/* What is timed. It stands in an object file of its own, so that no call of it is inlined. */
int bench_sepol_dominates(const struct mls_level *a, const struct mls_level *b)
{
    return mls_level_dom(a, b);
}
