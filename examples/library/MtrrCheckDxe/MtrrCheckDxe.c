/** @file
  Asks libmtrr-kernel.a for the first fault of the range registers that MtrrLib reads, and for their fewest pairs.
**/
#include <Uefi.h>
#include <Library/BaseLib.h>
#include <Library/BaseMemoryLib.h>
#include <Library/DebugLib.h>
#include <Library/MtrrLib.h>

#include "mtrr.h"

#define CPUID_ADDRESS_SIZES  0x80000008
#define ANY_CHUNK            (1ull << 52)

STATIC struct mtrr_registers  mRegisters;
STATIC struct mtrr_registers  mTidied;
STATIC struct mtrr_work       mWork;

/** Fills in the library's struct by MtrrLib, CPUID and the PAT. **/
STATIC
VOID
ReadRegisters (
  OUT struct mtrr_registers  *Registers
  )
{
  MTRR_SETTINGS  Settings;
  UINT32         AddressSizes;
  UINTN          Index;

  MtrrGetAllMtrrs (&Settings);
  AsmCpuid (CPUID_ADDRESS_SIZES, &AddressSizes, NULL, NULL, NULL);
  ZeroMem (Registers, sizeof (*Registers));
  Registers->width        = AddressSizes & 0xff;
  Registers->capabilities = AsmReadMsr64 (MTRR_MSR_CAPABILITIES);
  Registers->pat          = AsmReadMsr64 (MTRR_MSR_PAT);
  Registers->default_type = Settings.MtrrDefType;
  for (Index = 0; Index < (Registers->capabilities & 0xff) && Index < MTRR_MAX_PAIRS; Index++) {
    Registers->pairs[Index].base = Settings.Variables.Mtrr[Index].Base;
    Registers->pairs[Index].mask = Settings.Variables.Mtrr[Index].Mask;
  }

  for (Index = 0; (Registers->capabilities & BIT8) != 0 && Index < MTRR_FIXED_REGISTERS; Index++) {
    Registers->fixed[Index] = Settings.Fixed.Mtrr[Index];
  }
}

/** Says how many pairs are enough for registers without a fault. **/
STATIC
VOID
SayPairs (
  IN CONST struct mtrr_registers  *Registers
  )
{
  struct mtrr_need  Need;

  if (mtrr_tidy (Registers, 0, ANY_CHUNK, &mWork, &mTidied, &Need) == MTRR_DONE) {
    DEBUG ((DEBUG_INFO, "MTRRs: %lu of %lu pairs are enough\n", Need.needs, Need.has));
  }
}

EFI_STATUS
EFIAPI
MtrrCheckEntryPoint (
  IN EFI_HANDLE        ImageHandle,
  IN EFI_SYSTEM_TABLE  *SystemTable
  )
{
  struct mtrr_fault  Fault;

  ReadRegisters (&mRegisters);
  switch (mtrr_first_fault (&mRegisters, &Fault)) {
    case MTRR_DONE:
      DEBUG ((DEBUG_INFO, "MTRRs: no fault\n"));
      SayPairs (&mRegisters);
      break;
    case MTRR_FAULT:
      DEBUG ((DEBUG_ERROR, "MTRRs: register %x is at fault: %u\n", Fault.number, Fault.reason));
      break;
    default:
      DEBUG ((DEBUG_ERROR, "MTRRs: these are no registers\n"));
      break;
  }

  return EFI_SUCCESS;
}
