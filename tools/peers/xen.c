/* Xen: the type of a page of a guest, its table of effective types, and which values a guest may write. */
#include "judge.h"
#include "kernel.h"

typedef uint64_t paddr_t;
typedef bool bool_t;

#define MASK_EXTR(value, mask) (((value) & (mask)) / ((mask) & -(mask)))
#define HVM_DBG_LOG(...) ((void)0)
#define ASSERT_UNREACHABLE() abort()
#define cf_check
#define alternative_call(function, ...) 0
#define _PAGE_PWT 0x08
#define _PAGE_PCD 0x10
#define _PAGE_PAT 0x80

struct domain;
struct vcpu;

#include "msr.inc"
#include "mtrr.inc"

struct domain {
    struct {
        struct {
            struct {
                unsigned maxphysaddr;
            } extd;
        } *cpuid;
    } arch;
};

struct vcpu {
    struct domain *domain;
    struct {
        struct {
            uint64_t pat_cr;
        } hvm;
    } arch;
};

static __typeof__(*((struct domain *)0)->arch.cpuid) policy;
static struct domain domain = {.arch.cpuid = &policy};
static struct vcpu vcpu = {.domain = &domain}, *current = &vcpu;
static unsigned paddr_bits;

#include "overlap.inc"
#include "guest.inc"
#include "pat.inc"

static struct mtrr_var_range ranges[JUDGE_PAIRS];
static struct mtrr_state state;
static int allowed;

static void blank(const struct registers *r)
{
    memset(ranges, 0, sizeof ranges);
    memset(&state, 0, sizeof state);
    state.var_ranges = ranges;
    state.mtrr_cap = r->cap;
    policy.extd.maxphysaddr = paddr_bits = r->width;
}

static int write_register(const struct registers *r, unsigned number, uint64_t value)
{
    static const unsigned first_of_4k = 0x268;
    if (number == 0x277) return hvm_set_guest_pat(&vcpu, value);
    if (number == 0x2ff) return mtrr_def_type_msr_set(&domain, &state, value);
    if (number < 0x250) return mtrr_var_range_msr_set(&domain, &state, number, value);
    return mtrr_fix_range_msr_set(&domain, &state, number == 0x250 ? 0 : number < 0x260 ? number - 0x257 : number - first_of_4k + 3, value);
}

static void set(const struct registers *r)
{
    blank(r);
    allowed = 1;
    for (unsigned i = 0; i < r->count; i++) {
        allowed &= write_register(r, 0x200 + 2 * i, r->base[i]);
        allowed &= write_register(r, 0x201 + 2 * i, r->mask[i]);
    }
    for (int i = 0; i < JUDGE_FIXED && (r->cap & 0x100); i++) allowed &= mtrr_fix_range_msr_set(&domain, &state, i, r->fixed[i]);
    allowed &= write_register(r, 0x2ff, r->def_type);
}

static unsigned type(uint64_t page)
{
    return allowed ? mtrr_get_type(&state, page << PAGE_SHIFT, 0) : JUDGE_REFUSES;
}

static int allows(const struct registers *r, unsigned number, uint64_t value)
{
    blank(r);
    return write_register(r, number, value);
}

/* By the PAT's entry 0, which has the type; the MTRR type is handed over. */
static unsigned effective(unsigned kind, unsigned entry)
{
    return effective_mm_type(&state, entry, 0, 0, kind);
}

const struct judge judge = {.set = set, .type = type, .allows = allows, .effective = effective};
