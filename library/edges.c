/* The edges of the calls: words that are no file's, null with room 0, bytes
 * that are no flags, and books. */
#include <stdio.h>
#include <string.h>

#include "mtrr.h"

static int failures;

static void expect(int holds, const char *what)
{
    if (!holds) {
        failures++;
        printf("not so: %s\n", what);
    }
}

static struct mtrr_registers plain(void)
{
    struct mtrr_registers r;
    memset(&r, 0, sizeof r);
    r.width = 36;
    r.capabilities = 0x508;
    r.pat = 0x0007040600070406u;
    r.pairs[0].base = 6;
    r.pairs[0].mask = 0xf00000800u;
    r.default_type = 0x800;
    return r;
}

static void files(void)
{
    struct mtrr_registers r = plain();
    struct mtrr_fault fault = {9, 9};
    expect(mtrr_is_file(&r), "a file");
    expect(mtrr_first_fault(&r, &fault) == MTRR_DONE && fault.number == 9,
           "no fault, and nothing written");
    r.pairs[3].mask = 0x800000c00u;
    expect(mtrr_first_fault(&r, &fault) == MTRR_FAULT &&
               fault.number == MTRR_MSR_PHYSMASK(3) &&
               fault.reason == MTRR_RESERVED_BIT,
           "a reserved bit");
    r = plain();
    r.pairs[8].base = 1;
    expect(!mtrr_is_file(&r) && mtrr_first_fault(&r, &fault) == MTRR_NO_FILE,
           "a pair beyond VCNT");
    memset(&r, 0xff, sizeof r);
    expect(!mtrr_is_file(&r), "ones alone");
}

static void pages(void)
{
    struct mtrr_registers r = plain();
    uint32_t kind = 9;
    expect(mtrr_page_type(&r, (1u << 20) - 1, &kind) == MTRR_DONE &&
               kind == MTRR_WB,
           "the last page of a range");
    expect(mtrr_page_type(&r, 1u << 20, &kind) == MTRR_DONE && kind == MTRR_UC,
           "the page behind it");
    kind = 9;
    expect(mtrr_page_type(&r, 1u << 24, &kind) == MTRR_NO_PAGE && kind == 9,
           "no such page");
    expect(mtrr_page_type(&r, UINT64_MAX, &kind) == MTRR_NO_PAGE && kind == 9,
           "the last number");
    expect(mtrr_effective_type(&r, 0, 8, &kind) == MTRR_NO_ENTRY && kind == 9,
           "no such entry");
    expect(mtrr_effective_type(&r, 0, 7, &kind) == MTRR_DONE && kind == MTRR_UC,
           "the last entry");
}

/* The last structs lie at the end of their array, so a sanitizer sees what is
 * written behind them. */
static void arrays(void)
{
    struct mtrr_registers r = plain();
    static struct mtrr_work work;
    struct mtrr_registers rounded;
    struct mtrr_need need;
    struct mtrr_loss loss;
    struct mtrr_run runs[2];
    size_t count = 9;
    expect(mtrr_type_map(&r, NULL, 0, &count) == MTRR_NO_ROOM && count == 2,
           "the number of runs, with no array");
    expect(mtrr_type_map(&r, runs, 1, &count) == MTRR_NO_ROOM && count == 2 &&
               runs[0].pages == 1u << 20,
           "room for one run");
    expect(mtrr_type_map(&r, runs, 2, &count) == MTRR_DONE &&
               runs[1].kind == MTRR_UC,
           "room for all runs");
    r.pairs[1].base = 0xe0000000u;
    r.pairs[1].mask = 0xffff00800u;
    expect(mtrr_gran(&r, 0x10000000, 1, 1ull << 52, &work, &rounded, &need,
                     &loss, NULL, 0) == MTRR_NO_ROOM &&
               loss.parts == 1,
           "the number of parts, with no array");
    expect(mtrr_gran(&r, 4096, 1, 1ull << 52, &work, &rounded, &need, &loss,
                     NULL, 0) == MTRR_DONE &&
               loss.parts == 0,
           "no parts, and no array");
    expect(mtrr_gran(&r, 4097, 1, 1ull << 52, &work, &rounded, &need, &loss,
                     NULL, 0) == MTRR_NO_GRANULE,
           "no granule");
    memset(&work, 0xff, sizeof work);
    expect(mtrr_tidy(&r, 255, 0, &work, &rounded, &need) == MTRR_TOO_FEW &&
               need.has == 0,
           "all pairs spare");
}

/* The library reads and writes each field where the header has it. */
static void layout(void)
{
    struct mtrr_registers r = plain();
    static struct mtrr_work work;
    struct mtrr_registers tidied;
    struct mtrr_need need = {9, 9};
    struct mtrr_loss loss = {9, 9};
    struct mtrr_run run;
    uint32_t kind = 9;
    r.pairs[1].base = 0xe0000000u;
    r.pairs[1].mask = 0xffff00800u;
    memset(&work, 0xa5, sizeof work);
    memset(&tidied, 0xa5, sizeof tidied);
    expect(mtrr_gran(&r, 0x10000000, 2, 1ull << 52, &work, &tidied, &need,
                     &loss, &run, 1) == MTRR_DONE &&
               need.needs == 2 && need.has == 6 && loss.parts == 1 &&
               run.first == 0xe0100 && run.pages == 0xff00 &&
               loss.pages == 0xff00 && run.kind == MTRR_WB,
           "the fields of a need, a loss and a run");
    expect(tidied.width == r.width && tidied.capabilities == r.capabilities &&
               tidied.pairs[0].base == 6 && tidied.pairs[0].mask != 0 &&
               tidied.fixed[0] == 0 && tidied.fixed[10] == 0 &&
               tidied.pat == r.pat && tidied.default_type == r.default_type,
           "the fields of the registers");
    r.capabilities = 0x108;
    r.default_type = 0xc00;
    r.fixed[10] = 6ull << 56;
    expect(mtrr_page_type(&r, 255, &kind) == MTRR_DONE && kind == MTRR_WB,
           "the last fixed-range register");
}

static void books(void)
{
    struct mtrr_update update = {MTRR_GO, 1, 0, 0};
    struct mtrr_processor me = {MTRR_TAKEN, 0, 2, 0, 0};
    struct mtrr_step step, other;
    expect(mtrr_due(&update, &me, &step) == MTRR_DONE &&
               step.number == MTRR_ARRIVE,
           "it arrives");
    other = step;
    other.number = MTRR_PASS;
    expect(mtrr_did(&update, &me, &other) == MTRR_NOT_DUE &&
               update.arrived == 0 && me.phase == MTRR_TAKEN,
           "another step is refused");
    expect(mtrr_did(&update, &me, &step) == MTRR_DONE && update.arrived == 1 &&
               me.phase == MTRR_ARRIVED,
           "it has arrived");
    expect(mtrr_did(&update, &me, &step) == MTRR_NOT_DUE && update.arrived == 1,
           "not twice");
    update.word = MTRR_CANCELLED;
    expect(mtrr_due(&update, &me, &step) == MTRR_DONE &&
               step.number == MTRR_LEAVE,
           "it leaves");
    update.arrived = 0;
    expect(mtrr_did(&update, &me, &step) == MTRR_NOT_DUE && update.arrived == 0,
           "an arrival that was never counted");
    update.arrived = 1;
    expect(mtrr_did(&update, &me, &step) == MTRR_DONE && update.arrived == 0 &&
               me.phase == MTRR_RUNNING,
           "it has left");
    expect(mtrr_due(&update, &me, &step) == MTRR_WAITS, "it is through");
    me.phase = MTRR_TAKEN;
    update.word = MTRR_GO;
    update.arrived = UINT32_MAX;
    update.processors = UINT32_MAX;
    expect(mtrr_due(&update, &me, &step) == MTRR_DONE &&
               mtrr_did(&update, &me, &step) == MTRR_NOT_DUE,
           "no sum that wraps");
    for (int flag = 2; flag < 256; flag++) {
        struct mtrr_processor odd = {MTRR_RUNNING, 0, 2, (uint8_t)flag, 0};
        struct mtrr_processor odder = {MTRR_RUNNING, 0, 2, 0, (uint8_t)flag};
        step.number = 99;
        expect(mtrr_due(&update, &odd, &step) == MTRR_NO_PHASE &&
                   mtrr_due(&update, &odder, &step) == MTRR_NO_PHASE &&
                   step.number == 99,
               "a byte that is no flag");
        expect(mtrr_did(&update, &odd, &step) == MTRR_NO_PHASE &&
                   odd.self_snoop == flag,
               "nor when it books");
    }
}

int main(void)
{
    files();
    pages();
    arrays();
    layout();
    books();
    return failures != 0;
}
