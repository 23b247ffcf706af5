/* What a judge is asked: one line of standard input a question, one line of standard output an answer. See judge.c. */
#ifndef JUDGE_H
#define JUDGE_H

#include <stddef.h>
#include <stdint.h>

#define JUDGE_PAIRS 32
#define JUDGE_FIXED 11
#define JUDGE_RUNS 512

/* In place of a type byte. */
#define JUDGE_NO_TYPE 0xff /* the judge has no type for the page */
#define JUDGE_ASSERTS 0xee /* an assertion of the judge fails */
#define JUDGE_REFUSES 0xdd /* the judge refuses a register of the file */

struct registers {
    unsigned width;
    uint64_t cap, pat, def_type;
    uint64_t fixed[JUDGE_FIXED]; /* by ascending number */
    unsigned count;              /* of pairs: VCNT */
    uint64_t base[JUDGE_PAIRS], mask[JUDGE_PAIRS];
};

/* The pages from `first` up to the next run's first have one type. */
struct run {
    uint64_t first;
    unsigned type;
};

/* A judge's pairs for a map, and the default type with them. */
struct answer {
    unsigned def_type;
    unsigned count;
    uint64_t base[JUDGE_PAIRS * 8], mask[JUDGE_PAIRS * 8];
};

struct judge {
    /* Makes these the machine's registers, for `type`. */
    void (*set)(const struct registers *r);
    unsigned (*type)(uint64_t page);
    /* Whether the value may be written to the register of this number. */
    int (*allows)(const struct registers *r, unsigned number, uint64_t value);
    /* The effective type of a page, by the type byte of its MTRR and of the PAT entry. */
    unsigned (*effective)(unsigned type, unsigned entry);
    /* Pairs for the registers' map, whose runs are told too. NULL, or why there is no answer. */
    const char *(*pairs)(const struct registers *r, const struct run *runs, size_t count, struct answer *a);
};

extern const struct judge judge;

#endif
