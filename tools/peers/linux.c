/* Linux: the type of a page, what it asks of the PAT over an MTRR type, and its cleanup of the variable ranges. */
#include "judge.h"
#include "kernel.h"

static const struct registers *told;
static struct registers copy;

static uint64_t msr(unsigned number)
{
    if (number == 0x2ff) return told->def_type;
    return number & 1 ? told->mask[(number - 0x200) / 2] : told->base[(number - 0x200) / 2];
}

#define __ffs(x) ((unsigned long)__builtin_ctzl(x))
#define __fls(x) ((unsigned long)(63 - __builtin_clzl(x)))
#define fls64(x) ((x) ? 64 - __builtin_clzll(x) : 0)

#define rdmsr(number, low, high) ((low) = (u32)msr(number), (high) = msr(number) >> 32)
#define get_cpu() ((void)0)
#define put_cpu() ((void)0)
#define add_taint(flag, lock) ((void)0)
#define is_cpu(vendor) 1
#define simple_strtoul strtoul
#define memparse(text, end) strtoull(text, end, 0)
#define EINVAL 22
#define sort(list, count, size, compare, swap) qsort(list, count, size, compare)

/* The cleanup is built in and on. It keeps no register free, as `tidy spare=0` doesn't. */
#define CONFIG_MTRR_SANITIZER 1
#define CONFIG_MTRR_SANITIZER_ENABLE_DEFAULT 1
#define CONFIG_MTRR_SANITIZER_SPARE_REG_NR_DEFAULT 0

static u64 size_or_mask;
static unsigned int num_var_ranges;

#include "mtrr.inc"
#include "state.inc"
#include "msr.inc"
#include "generic.inc"
#include "range.inc"
#include "ranges.inc"

static const struct {
    void (*get)(unsigned int, unsigned long *, unsigned long *, mtrr_type *);
} ops = {generic_get_mtrr}, *mtrr_if = &ops;

static struct answer *asked;

/* Takes the answer of the cleanup, which writes each register once. */
static void fill_mtrr_var_range(unsigned int index, u32 base_lo, u32 base_hi, u32 mask_lo, u32 mask_hi)
{
    if (!(mask_lo & 0x800)) return;
    asked->base[asked->count] = (u64)base_hi << 32 | base_lo;
    asked->mask[asked->count++] = (u64)mask_hi << 32 | mask_lo;
}

#include "cleanup.inc"
#include "modes.inc"
#include "memtype.inc"

static void set(const struct registers *r)
{
    copy = *r;
    told = &copy;
    memset(&mtrr_state, 0, sizeof mtrr_state);
    num_var_ranges = r->count;
    size_or_mask = ~((1ULL << (r->width - PAGE_SHIFT)) - 1);
    for (unsigned i = 0; i < r->count; i++) {
        struct mtrr_var_range *pair = &mtrr_state.var_ranges[i];
        pair->base_lo = r->base[i];
        pair->base_hi = r->base[i] >> 32;
        pair->mask_lo = r->mask[i];
        pair->mask_hi = r->mask[i] >> 32;
    }
    memcpy(mtrr_state.fixed_ranges, r->fixed, sizeof r->fixed);
    mtrr_state.have_fixed = r->cap >> 8 & 1;
    mtrr_state.def_type = r->def_type;
    mtrr_state.enabled = r->def_type >> 10 & 3;
    mtrr_state_set = 1;
}

static unsigned type(uint64_t page)
{
    u8 uniform;
    return mtrr_type_lookup(page << PAGE_SHIFT, (page + 1) << PAGE_SHIFT, &uniform);
}

/* The PAT type that Linux asks for, of which the caller makes the effective type. */
static unsigned effective(unsigned kind, unsigned entry)
{
    static const unsigned char bytes[] = {6, 1, 7, 0, 4, 5}; /* by enum page_cache_mode */
    static const struct registers none = {.width = 36};
    struct registers r = none;
    unsigned mode = 0;
    r.def_type = 0x800 | kind;
    set(&r);
    while (bytes[mode] != entry) mode++;
    return bytes[pat_x_mtrr_type(0x100000, 0x101000, mode)];
}

/* Why the cleanup has no answer: it works on files of one kind alone. */
static const char *why_none(const struct registers *r)
{
    int others = 0, holes = 0;
    for (unsigned i = 0; i < r->count; i++) {
        if (!(r->mask[i] & 0x800)) continue;
        holes += (r->base[i] & 0xff) == MTRR_TYPE_UNCACHABLE;
        others += (r->base[i] & 0xff) != MTRR_TYPE_UNCACHABLE && (r->base[i] & 0xff) != MTRR_TYPE_WRBACK;
    }
    if ((r->def_type & 0xff) != MTRR_TYPE_UNCACHABLE) return "not its kind: the default type isn't UC";
    if (others) return "not its kind: a range is neither WB nor UC";
    return holes ? "none that loses nothing" : "not its kind: no range is UC";
}

static const char *pairs(const struct registers *r, const struct run *runs, size_t count, struct answer *a)
{
    set(r);
    asked = a;
    a->def_type = r->def_type & 0xff;
    return mtrr_cleanup(r->width) ? NULL : why_none(r);
}

const struct judge judge = {.set = set, .type = type, .effective = effective, .pairs = pairs};
