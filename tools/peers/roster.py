"""The judges: of which package each is, and which definitions of which files it takes."""
from packages import Judge

MTRR_TYPES = ["MTRR_TYPE_UNCACHABLE", "MTRR_TYPE_WRCOMB", "MTRR_TYPE_WRTHROUGH", "MTRR_TYPE_WRPROT", "MTRR_TYPE_WRBACK", "MTRR_NUM_TYPES"]
FIXED_NUMBERS = [
    "MSR_MTRRfix64K_00000", "MSR_MTRRfix16K_80000", "MSR_MTRRfix16K_A0000", "MSR_MTRRfix4K_C0000", "MSR_MTRRfix4K_C8000",
    "MSR_MTRRfix4K_D0000", "MSR_MTRRfix4K_D8000", "MSR_MTRRfix4K_E0000", "MSR_MTRRfix4K_E8000", "MSR_MTRRfix4K_F0000",
    "MSR_MTRRfix4K_F8000",
]

X86 = "arch/x86"
LINUX_PATHS = [
    f"{X86}/include/asm/kvm_host.h", f"{X86}/include/asm/msr-index.h", f"{X86}/include/asm/mtrr.h",
    f"{X86}/include/asm/pgtable_types.h", f"{X86}/include/uapi/asm/mtrr.h", f"{X86}/kernel/cpu/mtrr/cleanup.c",
    f"{X86}/kernel/cpu/mtrr/generic.c", f"{X86}/kvm/mtrr.c", f"{X86}/kvm/x86.h", f"{X86}/mm/pat/memtype.c",
    "include/linux/range.h", "kernel/range.c",
]
LINUX = Judge("linux", "linux", LINUX_PATHS, [
    ("mtrr.inc", f"{X86}/include/uapi/asm/mtrr.h", [
        "mtrr_type", "mtrr_var_range", "MTRR_NUM_FIXED_RANGES", "MTRR_MAX_VAR_RANGES", "mtrr_state_type", "MTRRphysBase_MSR",
        "MTRRphysMask_MSR", *MTRR_TYPES, "MTRR_TYPE_INVALID"]),
    ("state.inc", f"{X86}/include/asm/mtrr.h", ["MTRR_STATE_MTRR_FIXED_ENABLED", "MTRR_STATE_MTRR_ENABLED"]),
    ("msr.inc", f"{X86}/include/asm/msr-index.h", ["MSR_MTRRdefType"]),
    ("generic.inc", f"{X86}/kernel/cpu/mtrr/generic.c", [
        "mtrr_state_set", "mtrr_tom2", "mtrr_state", "get_mtrr_size", "check_type_overlap", "mtrr_type_lookup_fixed",
        "mtrr_type_lookup_variable", "mtrr_type_lookup", "generic_get_mtrr"]),
    ("range.inc", "include/linux/range.h", ["range"]),
    ("ranges.inc", "kernel/range.c", None),
    ("cleanup.inc", f"{X86}/kernel/cpu/mtrr/cleanup.c", "static int disable_mtrr_trim;"),
    ("modes.inc", f"{X86}/include/asm/pgtable_types.h", ["page_cache_mode"]),
    ("memtype.inc", f"{X86}/mm/pat/memtype.c", ["pat_x_mtrr_type"]),
])

KVM = Judge("kvm", "linux", LINUX_PATHS, [
    ("mtrr.inc", f"{X86}/include/uapi/asm/mtrr.h", ["mtrr_type", *MTRR_TYPES]),
    ("msr.inc", f"{X86}/include/asm/msr-index.h", ["MSR_MTRRcap", "MSR_MTRRdefType", *FIXED_NUMBERS]),
    ("kvm_host.inc", f"{X86}/include/asm/kvm_host.h", ["kvm_mtrr_range", "kvm_mtrr"]),
    ("x86.inc", f"{X86}/kvm/x86.h", ["kvm_pat_valid"]),
    ("guest.inc", f"{X86}/kvm/mtrr.c", None),
])

XEN_PATHS = [f"xen/{X86}/{path}" for path in (
    "cpu/mtrr/generic.c", "hvm/hvm.c", "hvm/mtrr.c", "include/asm/msr-index.h", "include/asm/mtrr.h")]
XEN = Judge("xen", "xen", XEN_PATHS, [
    ("msr.inc", f"xen/{X86}/include/asm/msr-index.h", [
        "MTRRcap_VCNT", "MTRRdefType_FE", "MTRRdefType_E", "MSR_IA32_MTRR_PHYSBASE", "MSR_MTRRfix64K_00000"]),
    ("mtrr.inc", f"xen/{X86}/include/asm/mtrr.h", None),
    ("overlap.inc", f"xen/{X86}/cpu/mtrr/generic.c", ["is_var_mtrr_overlapped"]),
    ("guest.inc", f"xen/{X86}/hvm/mtrr.c", [
        "pat_cr_2_paf", "mm_type_tbl", "mtrr_get_type", "page_pat_type", "effective_mm_type", "valid_mtrr_type",
        "mtrr_def_type_msr_set", "mtrr_fix_range_msr_set", "mtrr_var_range_msr_set"]),
    ("pat.inc", f"xen/{X86}/hvm/hvm.c", ["hvm_set_guest_pat"]),
])

EDK2 = Judge("edk2", "edk2", ["MdePkg/Include", "MdePkg/Library/BaseLib", "UefiCpuPkg/Include", "UefiCpuPkg/Library/MtrrLib"], [], [
    "-I@/MdePkg/Include", "-I@/MdePkg/Include/X64", "-I@/MdePkg/Library/BaseLib", "-I@/UefiCpuPkg/Include",
    "-I@/UefiCpuPkg/Library/MtrrLib", "-D_PCD_GET_MODE_32_PcdCpuNumberOfReservedVariableMtrrs=0",
    "-D_PCD_GET_MODE_32_PcdMaximumUnicodeStringLength=0", "-D_PCD_GET_MODE_32_PcdMaximumAsciiStringLength=0", "-fshort-wchar"])

COREBOOT = Judge("coreboot", "coreboot", [
    "src/commonlib/bsd/include/commonlib/bsd/helpers.h", "src/cpu/x86/mtrr/mtrr.c", "src/include/cpu/x86/mtrr.h",
    "src/include/memrange.h", "src/lib/memrange.c"], [
    ("mtrr.inc", "src/include/cpu/x86/mtrr.h", [
        "MTRR_TYPE_UNCACHEABLE", "MTRR_TYPE_WRCOMB", "MTRR_TYPE_WRBACK", "MTRR_PHYS_MASK_VALID"]),
    ("helpers.inc", "src/commonlib/bsd/include/commonlib/bsd/helpers.h", [
        "ALIGN", "__ALIGN_MASK", "ALIGN_UP", "ALIGN_DOWN", "POWER_OF_2"]),
    ("space.inc", "src/include/memrange.h", None),
    ("memrange.inc", "src/lib/memrange.c", [
        "range_entry_link", "range_entry_unlink", "range_entry_unlink_and_free", "alloc_range", "range_list_add",
        "merge_neighbor_entries", "remove_memranges", "merge_add_memranges", "memranges_update_tag", "range_action_t", "do_action",
        "memranges_insert", "memranges_init_empty_with_alignment", "memranges_fill_holes_up_to", "memranges_next_entry"]),
    ("solution.inc", "src/cpu/x86/mtrr/mtrr.c", [
        "NUM_MTRR_STATIC_STORAGE", "total_mtrrs", "RANGE_SHIFT", "ADDR_SHIFT_TO_RANGE_SHIFT", "PHYS_TO_RANGE_ADDR",
        "RANGE_TO_PHYS_ADDR", "RANGE_1MB", "RANGE_4GB", "MTRR_ALGO_SHIFT", "MTRR_TAG_MASK", "range_entry_base_mtrr_addr",
        "range_entry_end_mtrr_addr", "range_entry_mtrr_type", "var_mtrr_regs", "var_mtrr_solution", "var_mtrr_state",
        "get_os_reserved_mtrrs", "prep_var_mtrr", "fls64", "fms64", "calc_var_mtrr_range", "optimize_var_mtrr_hole",
        "calc_var_mtrrs_with_hole", "__calc_var_mtrrs", "calc_var_mtrrs", "prepare_var_mtrrs"]),
])

JUDGES = (LINUX, KVM, XEN, EDK2, COREBOOT)
