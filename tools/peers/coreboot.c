/* coreboot: its solution for a map of the address space. */
#include "judge.h"
#include "kernel.h"

typedef uint64_t resource_t;
typedef struct {
    uint32_t lo, hi;
} msr_t;

struct device;
struct resource;

#define CONFIG(option) 0
#define ENV_PAYLOAD_LOADER 0
#define printk(...) ((void)0)
#define fls(x) ((x) ? __builtin_ctz(x) : 32)
#define fms(x) ((x) ? 31 - __builtin_clz(x) : 0)
#undef ALIGN

#include "mtrr.inc"
#include "helpers.inc"
#include "space.inc"
#include "memrange.inc"
#include "solution.inc"

/* As get_physical_address_space makes it: all below 4 GB, and above it what isn't UC and what lies between. */
static void describe(const struct registers *r, const struct run *runs, size_t count, struct memranges *space)
{
    size_t known = count;
    while (known && runs[known - 1].type == MTRR_TYPE_UNCACHEABLE) known--;
    for (size_t i = 0; i < known; i++) {
        uint64_t end = i + 1 < count ? runs[i + 1].first : 1ULL << (r->width - 12);
        memranges_insert(space, runs[i].first << 12, (end - runs[i].first) << 12, runs[i].type);
    }
    if (!space->entries) memranges_insert(space, 0, 1 << 20, MTRR_TYPE_UNCACHEABLE);
    memranges_fill_holes_up_to(space, RANGE_TO_PHYS_ADDR(RANGE_4GB), MTRR_TYPE_UNCACHEABLE);
}

static const char *pairs(const struct registers *r, const struct run *runs, size_t count, struct answer *a)
{
    static struct range_entry entries[4 * JUDGE_RUNS];
    static struct var_mtrr_solution solution;
    struct memranges space;
    memranges_init_empty_with_alignment(&space, entries, 4 * JUDGE_RUNS, 12);
    describe(r, runs, count, &space);
    memset(&solution, 0, sizeof solution);
    total_mtrrs = NUM_MTRR_STATIC_STORAGE;
    solution.mtrr_default_type = calc_var_mtrrs(&space, 1, r->width);
    prepare_var_mtrrs(&space, solution.mtrr_default_type, 1, r->width, &solution);
    if (solution.num_used > total_mtrrs) return "more than sixteen pairs";
    a->def_type = solution.mtrr_default_type;
    a->count = solution.num_used;
    for (int i = 0; i < solution.num_used; i++) {
        a->base[i] = (uint64_t)solution.regs[i].base.hi << 32 | solution.regs[i].base.lo;
        a->mask[i] = (uint64_t)solution.regs[i].mask.hi << 32 | solution.regs[i].mask.lo;
    }
    return NULL;
}

const struct judge judge = {.pairs = pairs};
