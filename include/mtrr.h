/*
 * Questions to a file of x86 range registers (MTRRs) and its PAT.
 *
 * There are two archives with the same calls:
 *
 *   libmtrr-kernel.a  for kernels and firmware. It uses general registers
 *                     alone, stores nothing below the stack pointer, and
 *                     needs no symbol of its caller's. It may be called in a
 *                     kernel, in firmware, with interrupts on, and from
 *                     within an interrupt.
 *   libmtrr.a         for programs with an operating system beneath them. It
 *                     uses the red zone and SSE, and needs memcpy and memset.
 *                     Don't call it in a kernel, firmware or interrupt.
 *
 * Stack, at most, of libmtrr-kernel.a: mtrr_is_file, mtrr_due and mtrr_did
 * take 256 bytes, mtrr_tidy and mtrr_gran 8 KB, the others 4 KB.
 *
 * No call allocates, keeps state, prints, waits or calls back. A call reads
 * the structs that it is given and writes only what it says. Several may run
 * at once on any threads, if none writes what another one uses.
 *
 * Each pointer must be valid and aligned. It must not be null, except that
 * `runs` and `parts` may be null where `room` is 0. What a call writes through
 * one pointer may not overlap what another points to.
 *
 * A page is 4,096 bytes, and a page's number is its physical address / 4096.
 */
#ifndef MTRR_H
#define MTRR_H

/* The version. */
#define MTRR_VERSION_MAJOR 1
#define MTRR_VERSION_MINOR 0
#define MTRR_VERSION_PATCH 0

/* Rises when a call, a struct or a number changes or goes: then callers are compiled again. */
#define MTRR_ABI 2

#if defined(__KERNEL__) /* Linux, which has no <stdint.h> */
#include <linux/stddef.h>
#include <linux/types.h>
#elif defined(__XEN__)
#include <xen/types.h>
#else
#include <stdbool.h>
#include <stddef.h>
#include <stdint.h>
#endif

#ifdef __cplusplus
extern "C" {
#endif

/* Memory types, by the bytes that the registers hold. */
#define MTRR_UC 0u
#define MTRR_WC 1u
#define MTRR_WT 4u
#define MTRR_WP 5u
#define MTRR_WB 6u

/* Where a run of a type map has pages of no defined type. */
#define MTRR_NO_TYPE 255u

/* What the calls answer. */
#define MTRR_DONE 0u      /* done; of mtrr_first_fault: there is no fault */
#define MTRR_FAULT 1u     /* a register is at fault; mtrr_first_fault wrote the first fault */
#define MTRR_NO_FILE 2u   /* the words are no register file's */
#define MTRR_NO_PAGE 3u   /* the page is beyond the physical address space */
#define MTRR_UNDEFINED 4u /* the ranges that meet at the page have no defined type */
#define MTRR_NO_ENTRY 5u  /* the PAT has entries 0 to 7 */
#define MTRR_NO_ROOM 6u   /* the array is too small for the type map, or for the parts */
#define MTRR_WAITS 7u     /* the processor has nothing to do */
#define MTRR_NO_PHASE 8u  /* there is no such phase or word, or a flag is above 1 */
#define MTRR_DISABLED 9u  /* the range registers are off */
#define MTRR_TOO_FEW 10u  /* more pairs are needed than may be used */
#define MTRR_NO_GRANULE 11u /* the size isn't a power of two from 4 KB to 1 TB */
#define MTRR_NOT_DUE 12u  /* the step isn't due, or a count has no room: nothing was changed */

/* What is wrong with a register. */
#define MTRR_RESERVED_BIT 1u
#define MTRR_UNSUPPORTED_TYPE 2u
#define MTRR_BROKEN_MASK 3u      /* a valid mask that isn't one run of ones from the top */
#define MTRR_UNDEFINED_OVERLAP 4u

/* Numbers of the registers. */
#define MTRR_MSR_CAPABILITIES 0xfeu
#define MTRR_MSR_PHYSBASE(n) (0x200u + 2u * (n))
#define MTRR_MSR_PHYSMASK(n) (0x201u + 2u * (n))
#define MTRR_MSR_FIX64K_00000 0x250u
#define MTRR_MSR_FIX16K_80000 0x258u
#define MTRR_MSR_FIX16K_A0000 0x259u
#define MTRR_MSR_FIX4K_C0000 0x268u /* and seven more, up to 0x26f */
#define MTRR_MSR_PAT 0x277u
#define MTRR_MSR_DEF_TYPE 0x2ffu

/* What the coordinator of an update has said. */
#define MTRR_NOTHING_YET 0u
#define MTRR_GO 1u
#define MTRR_CANCELLED 2u

/* Where a processor stands in an update: what it did last. */
#define MTRR_RUNNING 0u       /* it has not begun, has left or is through */
#define MTRR_TAKEN 1u         /* interrupts are off, write-combining buffers are empty */
#define MTRR_ARRIVED 2u       /* it waits at the first barrier */
#define MTRR_PASSED 3u
#define MTRR_NO_FILL 4u       /* CR0.CD is 1, NW is 0 */
#define MTRR_FLUSHED 5u       /* caches are empty */
#define MTRR_TLB_FLUSHED 6u   /* PGE is 0, or CR3 was reloaded */
#define MTRR_WRITING 7u       /* E of the default type is 0; registers are written */
#define MTRR_ENABLED 8u       /* the default type is written, and E with it */
#define MTRR_FLUSHED_2 9u
#define MTRR_TLB_FLUSHED_2 10u
#define MTRR_NORMAL 11u       /* CR0.CD is 0 */
#define MTRR_RESTORED 12u     /* PGE is as before */
#define MTRR_ARRIVED_2 13u    /* it waits at the second barrier */

/* The steps. */
#define MTRR_TAKE 1u          /* turn interrupts off, and fence */
#define MTRR_ARRIVE 2u        /* nothing: mtrr_did adds 1 to `arrived` */
#define MTRR_LEAVE 3u         /* interrupts on; mtrr_did takes 1 from `arrived` if it was added */
#define MTRR_PASS 4u          /* nothing: go on */
#define MTRR_SET_NO_FILL 5u   /* CR0.CD = 1, CR0.NW = 0 */
#define MTRR_FLUSH_CACHES 6u  /* WBINVD */
#define MTRR_FLUSH_TLB 7u     /* the first time CR4.PGE = 0 where it is 1; else reload CR3 */
#define MTRR_DISABLE 8u       /* clear E of the default type */
#define MTRR_WRITE 9u         /* write the register at `place` */
#define MTRR_ENABLE 10u       /* write the default type, E with it */
#define MTRR_SET_NORMAL 11u   /* CR0.CD = 0 */
#define MTRR_RESTORE_PGE 12u  /* CR4.PGE as before */
#define MTRR_ARRIVE_AGAIN 13u /* nothing: mtrr_did adds 1 to `arrived_again` */
#define MTRR_RELEASE 14u      /* interrupts on: the processor is through */

#define MTRR_MAX_PAIRS 32
#define MTRR_FIXED_REGISTERS 11
#define MTRR_MAX_RUNS 153 /* no type map has more runs */
#define MTRR_MAX_PARTS 306 /* no rounding loses more parts */

/* A variable range: IA32_MTRR_PHYSBASEn and IA32_MTRR_PHYSMASKn. */
struct mtrr_pair {
    uint64_t base;
    uint64_t mask;
};

/*
 * The range registers of a processor, by their values.
 * A pair beyond VCNT (bits 7:0 of the capabilities) is zero, and so are the
 * fixed-range registers where FIX (bit 8 of the capabilities) is clear.
 */
struct mtrr_registers {
    uint64_t width;        /* bits of a physical address, 32 to 52 */
    uint64_t capabilities; /* IA32_MTRRCAP */
    struct mtrr_pair pairs[MTRR_MAX_PAIRS];
    uint64_t fixed[MTRR_FIXED_REGISTERS]; /* by ascending register number */
    uint64_t pat;          /* IA32_PAT */
    uint64_t default_type; /* IA32_MTRR_DEF_TYPE */
};

/* A register at fault. */
struct mtrr_fault {
    uint32_t number; /* of the register */
    uint32_t reason; /* MTRR_RESERVED_BIT and the like */
};

/* The `pages` pages from page `first` on, which have one type. */
struct mtrr_run {
    uint64_t first;
    uint64_t pages;
    uint32_t kind; /* MTRR_UC and the like, or MTRR_NO_TYPE */
};

/* How many pairs the pages' types need, and how many may be used. */
struct mtrr_need {
    uint64_t needs;
    uint64_t has;
};

/*
 * Room for mtrr_tidy and mtrr_gran to work in. It may hold any bytes when the call begins, and
 * holds any when it ends. The result doesn't depend on them.
 */
struct mtrr_work {
    uint64_t words[6719];
};

/* What a rounding to granules loses. */
struct mtrr_loss {
    uint64_t pages; /* how many pages had WB and get UC */
    uint64_t parts; /* how many parts lose a type */
};

/* An update of the range registers of all processors. */
struct mtrr_update {
    uint32_t word;          /* MTRR_NOTHING_YET and the like */
    uint32_t processors;    /* how many take part */
    uint32_t arrived;       /* of these, at the first barrier or past it */
    uint32_t arrived_again; /* at the second barrier or past it */
};

/* Where a processor stands in it. A flag is 0 or 1. */
struct mtrr_processor {
    uint32_t phase;     /* MTRR_RUNNING and the like */
    uint32_t place;     /* MTRR_WRITING: of the next register */
    uint32_t registers; /* how many it has, as below */
    uint8_t self_snoop; /* CPUID.1:EDX bit 27 */
    uint8_t finished;   /* it is through with this update */
};

/* A step, and where the processor stands after it. */
struct mtrr_step {
    uint32_t number; /* MTRR_TAKE and the like */
    uint32_t place;  /* MTRR_WRITE: of the register that is written */
    uint32_t next_phase;
    uint32_t next_place;
};

/* The layout, which the library was built for. C99 has no assertions, so there nothing is tested. */
#if defined(__cplusplus) && __cplusplus >= 201103L
#define MTRR_ASSERT(holds, what) static_assert(holds, what);
#define MTRR_ALIGNMENT(name) alignof(name)
#elif defined(__STDC_VERSION__) && __STDC_VERSION__ >= 201112L
#define MTRR_ASSERT(holds, what) _Static_assert(holds, what);
#define MTRR_ALIGNMENT(name) _Alignof(struct name)
#else
#define MTRR_ASSERT(holds, what)
#endif
#define MTRR_HAS_SIZE(name, size, alignment)                                  \
    MTRR_ASSERT(sizeof(struct name) == size, "size of " #name)                \
    MTRR_ASSERT(MTRR_ALIGNMENT(name) == alignment, "alignment of " #name)
#define MTRR_IS_AT(name, field, offset)                                       \
    MTRR_ASSERT(offsetof(struct name, field) == offset, #name "." #field)
MTRR_HAS_SIZE(mtrr_pair, 16, 8)
MTRR_IS_AT(mtrr_pair, base, 0)
MTRR_IS_AT(mtrr_pair, mask, 8)
MTRR_HAS_SIZE(mtrr_registers, 632, 8)
MTRR_IS_AT(mtrr_registers, width, 0)
MTRR_IS_AT(mtrr_registers, capabilities, 8)
MTRR_IS_AT(mtrr_registers, pairs, 16)
MTRR_IS_AT(mtrr_registers, fixed, 528)
MTRR_IS_AT(mtrr_registers, pat, 616)
MTRR_IS_AT(mtrr_registers, default_type, 624)
MTRR_HAS_SIZE(mtrr_fault, 8, 4)
MTRR_IS_AT(mtrr_fault, number, 0)
MTRR_IS_AT(mtrr_fault, reason, 4)
MTRR_HAS_SIZE(mtrr_run, 24, 8)
MTRR_IS_AT(mtrr_run, first, 0)
MTRR_IS_AT(mtrr_run, pages, 8)
MTRR_IS_AT(mtrr_run, kind, 16)
MTRR_HAS_SIZE(mtrr_need, 16, 8)
MTRR_IS_AT(mtrr_need, needs, 0)
MTRR_IS_AT(mtrr_need, has, 8)
MTRR_HAS_SIZE(mtrr_work, 53752, 8)
MTRR_IS_AT(mtrr_work, words, 0)
MTRR_HAS_SIZE(mtrr_loss, 16, 8)
MTRR_IS_AT(mtrr_loss, pages, 0)
MTRR_IS_AT(mtrr_loss, parts, 8)
MTRR_HAS_SIZE(mtrr_update, 16, 4)
MTRR_IS_AT(mtrr_update, word, 0)
MTRR_IS_AT(mtrr_update, processors, 4)
MTRR_IS_AT(mtrr_update, arrived, 8)
MTRR_IS_AT(mtrr_update, arrived_again, 12)
MTRR_HAS_SIZE(mtrr_processor, 16, 4)
MTRR_IS_AT(mtrr_processor, phase, 0)
MTRR_IS_AT(mtrr_processor, place, 4)
MTRR_IS_AT(mtrr_processor, registers, 8)
MTRR_IS_AT(mtrr_processor, self_snoop, 12)
MTRR_IS_AT(mtrr_processor, finished, 13)
MTRR_HAS_SIZE(mtrr_step, 16, 4)
MTRR_IS_AT(mtrr_step, number, 0)
MTRR_IS_AT(mtrr_step, place, 4)
MTRR_IS_AT(mtrr_step, next_phase, 8)
MTRR_IS_AT(mtrr_step, next_place, 12)
MTRR_ASSERT(sizeof(size_t) == 8, "size of size_t")
#undef MTRR_IS_AT
#undef MTRR_HAS_SIZE
#undef MTRR_ALIGNMENT
#undef MTRR_ASSERT

/*
 * Whether the words are a register file's: a width of 32 to 52 bits, VCNT at
 * most 32, zeros in the pairs beyond, and zeros in the fixed-range registers
 * where FIX is clear. What else is wrong with the values is a fault.
 */
bool mtrr_is_file(const struct mtrr_registers *registers);

/*
 * The first register at fault, by ascending number: one with a reserved bit,
 * a type that the processor hasn't, or a valid mask with a gap. Where no
 * register has such a fault, but valid ranges meet at a page at which their
 * types have no defined result: the base of the lowest pair that matches
 * such a page.
 *
 * MTRR_DONE: there is no fault, and each page has a defined type.
 * MTRR_FAULT: *fault was written. MTRR_NO_FILE: see mtrr_is_file.
 * *fault is as before unless the answer is MTRR_FAULT.
 */
uint32_t mtrr_first_fault(const struct mtrr_registers *registers,
                          struct mtrr_fault *fault);

/*
 * The type that the range registers give a page, whether or not the file has
 * a fault. A byte that is no memory type counts as UC.
 *
 * MTRR_DONE: *kind is MTRR_UC and the like. MTRR_NO_FILE, MTRR_NO_PAGE,
 * MTRR_UNDEFINED: *kind is as before. They are looked for in this order.
 */
uint32_t mtrr_page_type(const struct mtrr_registers *registers, uint64_t page,
                        uint32_t *kind);

/*
 * The type in effect for a page whose mapping chooses entry `index` of the
 * PAT. MTRR_DONE, MTRR_NO_FILE, MTRR_NO_PAGE, MTRR_NO_ENTRY (index above 7),
 * MTRR_UNDEFINED, in this order; *kind is written at MTRR_DONE alone.
 */
uint32_t mtrr_effective_type(const struct mtrr_registers *registers,
                             uint64_t page, uint32_t index, uint32_t *kind);

/*
 * The type map: runs in ascending order that cover each page once, neighbours
 * of different types. The runs go into `runs`, which has room for `room` of
 * them, and their number into *count. MTRR_MAX_RUNS of them always suffice;
 * `room` may be 0 to ask for the number alone.
 *
 * MTRR_DONE: all runs were written. MTRR_NO_ROOM: the first `room` were.
 * What stands behind them is as before. MTRR_NO_FILE, and MTRR_FAULT where a
 * register is at fault by itself (mtrr_first_fault says which): the array and
 * *count are as before. An undefined overlap is no such fault: its pages are
 * runs of MTRR_NO_TYPE.
 */
uint32_t mtrr_type_map(const struct mtrr_registers *registers,
                       struct mtrr_run *runs, size_t room, size_t *count);

/*
 * The registers with the same type for each page in the fewest valid pairs:
 * no list of ranges is shorter, of all in which the larger of two that share
 * a page has at most `chunk` bytes (1 << 52 bounds nothing). Only the pairs
 * differ from `registers`. The valid ones stand first, by ascending first
 * page; the others are zeros. `spare` pairs stay unused, or all where there
 * are fewer.
 *
 * MTRR_DONE: *tidied and *need were written, and need->needs pairs are valid.
 * MTRR_TOO_FEW: *need alone was. MTRR_NO_FILE, MTRR_FAULT (mtrr_first_fault
 * says which), MTRR_DISABLED: neither was.
 */
uint32_t mtrr_tidy(const struct mtrr_registers *registers, uint8_t spare,
                   uint64_t chunk, struct mtrr_work *work,
                   struct mtrr_registers *tidied, struct mtrr_need *need);

/*
 * The registers for types rounded to granules of `size` bytes, in the fewest
 * valid pairs: a granule whose pages have several types gets UC, and each
 * other page keeps its type. `size` is a power of two from 4,096 to 1 << 40.
 * Pages whose types the fixed-range registers give count for nothing: they
 * keep their types, and break no granule. `spare`, `chunk` and the pairs are
 * as for mtrr_tidy.
 *
 * A part is a run of pages of one type other than UC that get UC. Parts
 * are as long as may be and ascend; they go into `parts`, which has room for
 * `room` of them, and their number into loss->parts. MTRR_MAX_PARTS of them
 * always suffice.
 *
 * MTRR_DONE: *rounded, *need, *loss and all parts were written, and
 * need->needs pairs are valid. MTRR_NO_ROOM: the same, but of the parts the
 * first `room` alone. What stands behind them is as before. MTRR_TOO_FEW:
 * *need alone was written. MTRR_NO_FILE, MTRR_NO_GRANULE, MTRR_FAULT
 * (mtrr_first_fault says which), MTRR_DISABLED: nothing was. They are looked
 * for in this order, and then MTRR_TOO_FEW.
 */
uint32_t mtrr_gran(const struct mtrr_registers *registers, uint64_t size,
                   uint8_t spare, uint64_t chunk, struct mtrr_work *work,
                   struct mtrr_registers *rounded, struct mtrr_need *need,
                   struct mtrr_loss *loss, struct mtrr_run *parts,
                   size_t room);

/*
 * The next step of a processor in an update, in the order of the manual
 * (volume 3A, "MTRR Considerations in MP Systems"). A self-snooping processor
 * leaves out the first flush of its caches. The registers are those that can
 * be written, by ascending number: the pairs by VCNT, base and mask, the
 * fixed-range registers where the processor has them, IA32_PAT, and last the
 * default type. `place` counts them from 0; MTRR_ENABLE writes the last.
 *
 * The caller carries the step out and then calls mtrr_did. Where another
 * program keeps the order, the call checks it: what that does next must be
 * what this returns.
 *
 * MTRR_DONE: *step was written. MTRR_WAITS: the processor waits at a barrier,
 * is through, or has left. MTRR_NO_PHASE: the phase is above MTRR_ARRIVED_2,
 * the word above MTRR_CANCELLED, or a flag above 1. *step is written at
 * MTRR_DONE alone.
 */
uint32_t mtrr_due(const struct mtrr_update *update,
                  const struct mtrr_processor *processor,
                  struct mtrr_step *step);

/*
 * Books a step that the processor has carried out: the counts of the update,
 * and the processor's phase, place and `finished`.
 *
 * An update begins with the word MTRR_NOTHING_YET and both counts 0, and each
 * processor with the phase MTRR_RUNNING, the place 0 and `finished` 0. From
 * then on these words change by mtrr_did alone, and the word once, by the
 * coordinator, from MTRR_NOTHING_YET to MTRR_GO or MTRR_CANCELLED. One of
 * these at a time, under a lock that the calls of mtrr_due hold too; steps
 * are carried out without it.
 *
 * MTRR_DONE: the step is the one that is due, and was booked. MTRR_NOT_DUE:
 * it isn't, or a count has no room for it, as words of no update have it. It
 * is no longer due where the update was cancelled after mtrr_due wrote
 * MTRR_TAKE or MTRR_ARRIVE: ask mtrr_due again, and where the step was
 * MTRR_TAKE turn interrupts on. MTRR_NO_PHASE: see mtrr_due. Nothing is
 * changed unless the answer is MTRR_DONE.
 */
uint32_t mtrr_did(struct mtrr_update *update, struct mtrr_processor *processor,
                  const struct mtrr_step *step);

#ifdef __cplusplus
}
#endif

#endif
