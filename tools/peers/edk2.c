/*
 * EDK2: the type of a page, and its solver. MtrrLib.c is compiled as it is, with its own headers and what it calls of BaseLib;
 * its assertions are on, and one that fails is told.
 */
#include "judge.h"

#include <setjmp.h>
#include <stdlib.h>
#include <string.h>

#include <Uefi.h>
#include <Library/PcdLib.h>

#include "MtrrLib.c"

#include "GetPowerOfTwo32.c"
#include "GetPowerOfTwo64.c"
#include "HighBitSet32.c"
#include "HighBitSet64.c"
#include "LShiftU64.c"
#include "LowBitSet32.c"
#include "LowBitSet64.c"
#include "Math64.c"
#include "MultU64x32.c"
#include "RShiftU64.c"
#include "SwapBytes16.c"
#include "SwapBytes32.c"

static struct registers told;
static jmp_buf failed;

BOOLEAN EFIAPI DebugAssertEnabled(VOID) { return TRUE; }
BOOLEAN EFIAPI DebugPrintEnabled(VOID) { return FALSE; }
BOOLEAN EFIAPI DebugPrintLevelEnabled(CONST UINTN level) { return FALSE; }
BOOLEAN EFIAPI DebugCodeEnabled(VOID) { return FALSE; }
VOID EFIAPI DebugPrint(UINTN level, CONST CHAR8 *format, ...) {}
VOID EFIAPI DebugAssert(CONST CHAR8 *file, UINTN line, CONST CHAR8 *what) { longjmp(failed, 1); }

VOID *EFIAPI CopyMem(VOID *to, CONST VOID *from, UINTN length) { return memmove(to, from, length); }
VOID *EFIAPI ZeroMem(VOID *at, UINTN length) { return memset(at, 0, length); }
VOID *EFIAPI SetMem(VOID *at, UINTN length, UINT8 value) { return memset(at, value, length); }

UINT32 EFIAPI AsmCpuid(UINT32 leaf, UINT32 *eax, UINT32 *ebx, UINT32 *ecx, UINT32 *edx)
{
    if (eax) *eax = leaf == CPUID_EXTENDED_FUNCTION ? CPUID_VIR_PHY_ADDRESS_SIZE : told.width;
    if (edx) *edx = BIT12; /* of leaf 1: MTRR */
    return leaf;
}

UINT64 EFIAPI AsmReadMsr64(UINT32 number)
{
    if (number == MSR_IA32_MTRRCAP) return told.cap;
    if (number == MSR_IA32_MTRR_DEF_TYPE) return told.def_type;
    if (number < MSR_IA32_MTRR_FIX64K_00000) return number & 1 ? told.mask[(number - 0x200) / 2] : told.base[(number - 0x200) / 2];
    for (int i = 0; i < JUDGE_FIXED; i++)
        if (mMtrrLibFixedMtrrTable[i].Msr == number) return told.fixed[i];
    abort();
}

/* Nothing is written to registers here: settings stand in memory. */
UINT64 EFIAPI AsmWriteMsr64(UINT32 number, UINT64 value) { abort(); }
UINT64 EFIAPI AsmMsrAndThenOr64(UINT32 number, UINT64 and, UINT64 or) { abort(); }
UINTN EFIAPI AsmReadCr4(VOID) { abort(); }
UINTN EFIAPI AsmWriteCr4(UINTN value) { abort(); }
VOID EFIAPI AsmDisableCache(VOID) { abort(); }
VOID EFIAPI AsmEnableCache(VOID) { abort(); }
VOID EFIAPI CpuFlushTlb(VOID) { abort(); }
BOOLEAN EFIAPI SaveAndDisableInterrupts(VOID) { abort(); }
BOOLEAN EFIAPI SetInterruptState(BOOLEAN state) { abort(); }

static void set(const struct registers *r)
{
    told = *r;
}

static unsigned type(uint64_t page)
{
    if (setjmp(failed)) return JUDGE_ASSERTS;
    return MtrrGetMemoryAttribute(page << 12);
}

/* The map without its default type, as ranges that are set in settings without a pair. */
static const char *pairs(const struct registers *r, const struct run *runs, size_t count, struct answer *a)
{
    static char scratch[1 << 24];
    static MTRR_MEMORY_RANGE ranges[JUDGE_RUNS];
    static MTRR_SETTINGS settings;
    UINTN room = sizeof scratch, wanted = 0;
    told = *r;
    memset(&settings, 0, sizeof settings);
    settings.MtrrDefType = r->def_type;
    for (size_t i = 0; i < count; i++) {
        uint64_t first = runs[i].first << 12, end = (i + 1 < count ? runs[i + 1].first : 1ULL << (r->width - 12)) << 12;
        if (first < BASE_1MB) first = BASE_1MB;
        if (first >= end || runs[i].type == (r->def_type & 0xff)) continue;
        ranges[wanted++] = (MTRR_MEMORY_RANGE){first, end - first, runs[i].type};
    }
    if (setjmp(failed)) return "an assertion fails";
    RETURN_STATUS status = MtrrSetMemoryAttributesInMtrrSettings(&settings, scratch, &room, ranges, wanted);
    if (status == RETURN_OUT_OF_RESOURCES) return "more pairs or runs than it has room for";
    if (RETURN_ERROR(status)) return "refused";
    a->def_type = settings.MtrrDefType & 0xff;
    for (unsigned i = 0; i < r->count; i++) {
        if (!(settings.Variables.Mtrr[i].Mask & BIT11)) continue;
        a->base[a->count] = settings.Variables.Mtrr[i].Base;
        a->mask[a->count++] = settings.Variables.Mtrr[i].Mask;
    }
    return NULL;
}

const struct judge judge = {.set = set, .type = type, .pairs = pairs};
