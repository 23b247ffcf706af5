/* KVM: the type of a page of a guest, and which values a guest may write. */
#include "judge.h"
#include "kernel.h"

#define KVM_NR_VAR_MTRR JUDGE_PAIRS /* KVM gives a guest eight; the functions are the same for more */
#define KVM_NR_FIXED_MTRR_REGION 88
#define MSR_IA32_CR_PAT 0x277
#define X86_FEATURE_MTRR 0

typedef u64 gfn_t;

struct list_head {
    struct list_head *next, *prev;
};

#define list_entry(at, type, field) ((type *)((char *)(at) - offsetof(type, field)))
#define list_for_each_entry(at, head, field) \
    for (at = list_entry((head)->next, __typeof__(*at), field); &at->field != (head); \
         at = list_entry(at->field.next, __typeof__(*at), field))
#define list_for_each_entry_continue(at, head, field) \
    for (at = list_entry(at->field.next, __typeof__(*at), field); &at->field != (head); \
         at = list_entry(at->field.next, __typeof__(*at), field))
#define list_prepare_entry(at, head, field) ((at) ?: list_entry(head, __typeof__(*at), field))

static void INIT_LIST_HEAD(struct list_head *list)
{
    list->next = list->prev = list;
}

static void list_add_tail(struct list_head *one, struct list_head *head)
{
    one->next = head;
    one->prev = head->prev;
    head->prev->next = one;
    head->prev = one;
}

static void list_del(struct list_head *one)
{
    one->prev->next = one->next;
    one->next->prev = one->prev;
}

#include "mtrr.inc"
#include "msr.inc"
#include "kvm_host.inc"

struct kvm_vcpu {
    struct {
        struct kvm_mtrr mtrr_state;
        u64 pat;
    } arch;
    void *kvm;
    unsigned width;
};

#define tdp_enabled 0
#define kvm_arch_has_noncoherent_dma(kvm) 0
#define kvm_zap_gfn_range(kvm, from, to) ((void)0)
#define guest_cpuid_has(vcpu, feature) true
#define kvm_vcpu_reserved_gpa_bits_raw(vcpu) (~((1ULL << (vcpu)->width) - 1))
#define array_index_nospec(index, size) (index)
#define gfn_to_gpa(gfn) ((gfn) << PAGE_SHIFT)
#define gpa_to_gfn(gpa) ((gpa) >> PAGE_SHIFT)

#include "x86.inc"
#include "guest.inc"

static const unsigned fixed_numbers[JUDGE_FIXED] = {
    MSR_MTRRfix64K_00000, MSR_MTRRfix16K_80000, MSR_MTRRfix16K_A0000, MSR_MTRRfix4K_C0000, MSR_MTRRfix4K_C8000, MSR_MTRRfix4K_D0000,
    MSR_MTRRfix4K_D8000, MSR_MTRRfix4K_E0000, MSR_MTRRfix4K_E8000, MSR_MTRRfix4K_F0000, MSR_MTRRfix4K_F8000,
};

static struct kvm_vcpu vcpu;
static int refused;

static void blank(const struct registers *r)
{
    memset(&vcpu, 0, sizeof vcpu);
    vcpu.width = r->width;
    kvm_vcpu_mtrr_init(&vcpu);
}

static void set(const struct registers *r)
{
    blank(r);
    refused = 0;
    for (unsigned i = 0; i < r->count; i++) {
        refused |= kvm_mtrr_set_msr(&vcpu, 0x200 + 2 * i, r->base[i]);
        refused |= kvm_mtrr_set_msr(&vcpu, 0x201 + 2 * i, r->mask[i]);
    }
    for (int i = 0; i < JUDGE_FIXED && (r->cap & 0x100); i++) refused |= kvm_mtrr_set_msr(&vcpu, fixed_numbers[i], r->fixed[i]);
    refused |= kvm_mtrr_set_msr(&vcpu, MSR_MTRRdefType, r->def_type);
}

static unsigned type(uint64_t page)
{
    return refused ? JUDGE_REFUSES : kvm_mtrr_get_guest_memory_type(&vcpu, page);
}

static int allows(const struct registers *r, unsigned number, uint64_t value)
{
    blank(r);
    return !kvm_mtrr_set_msr(&vcpu, number, value);
}

const struct judge judge = {.set = set, .type = type, .allows = allows};
