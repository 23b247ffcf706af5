//! The declarations of `mtrr.h`, with its layouts.
use core::mem::offset_of;

pub const MAX_RUNS: usize = 153;
pub const MAX_PARTS: usize = 306;

/// Where the words of `struct mtrr_registers` are that aren't pairs, in `rest`.
pub const FIXED_AT: usize = 64;
pub const PAT_AT: usize = 75;
pub const DEFAULT_AT: usize = 76;

#[repr(C)]
#[derive(Clone, Copy, PartialEq, Eq, Hash)]
pub struct Registers {
    pub width: u64,
    pub capabilities: u64,
    /// The pairs, base and mask, then the fixed-range registers, the PAT and the default type.
    pub rest: [u64; 77],
}

#[repr(C)]
pub struct Fault {
    pub number: u32,
    pub reason: u32,
}

#[repr(C)]
#[derive(Clone, Copy)]
pub struct Run {
    pub first: u64,
    pub pages: u64,
    pub kind: u32,
}

#[repr(C)]
pub struct Need {
    pub needs: u64,
    pub has: u64,
}

#[repr(C)]
pub struct Work {
    pub words: [u64; 6719],
}

#[repr(C)]
pub struct Loss {
    pub pages: u64,
    pub parts: u64,
}

#[repr(C)]
pub struct Update {
    pub word: u32,
    pub processors: u32,
    pub arrived: u32,
    pub arrived_again: u32,
}

#[repr(C)]
#[derive(Clone, Copy)]
pub struct Processor {
    pub phase: u32,
    pub place: u32,
    pub registers: u32,
    pub self_snoop: u8,
    pub finished: u8,
}

#[repr(C)]
#[derive(PartialEq, Eq)]
pub struct Step {
    pub number: u32,
    pub place: u32,
    pub next_phase: u32,
    pub next_place: u32,
}

macro_rules! has_layout {
    ($name:ident, $size:literal, $alignment:literal $(, $field:ident at $offset:literal)*) => {
        const _: () = assert!(size_of::<$name>() == $size && align_of::<$name>() == $alignment);
        $(const _: () = assert!(offset_of!($name, $field) == $offset);)*
    };
}

has_layout!(Registers, 632, 8, width at 0, capabilities at 8, rest at 16);
const _: () = assert!(16 + 8 * FIXED_AT == 528 && 16 + 8 * PAT_AT == 616 && 16 + 8 * DEFAULT_AT == 624);
has_layout!(Fault, 8, 4, number at 0, reason at 4);
has_layout!(Run, 24, 8, first at 0, pages at 8, kind at 16);
has_layout!(Need, 16, 8, needs at 0, has at 8);
has_layout!(Work, 53752, 8, words at 0);
has_layout!(Loss, 16, 8, pages at 0, parts at 8);
has_layout!(Update, 16, 4, word at 0, processors at 4, arrived at 8, arrived_again at 12);
has_layout!(Processor, 16, 4, phase at 0, place at 4, registers at 8, self_snoop at 12, finished at 13);
has_layout!(Step, 16, 4, number at 0, place at 4, next_phase at 8, next_place at 12);
const _: () = assert!(size_of::<usize>() == 8);

unsafe extern "C" {
    pub fn mtrr_is_file(registers: *const Registers) -> bool;
    pub fn mtrr_first_fault(registers: *const Registers, fault: *mut Fault) -> u32;
    pub fn mtrr_page_type(registers: *const Registers, page: u64, kind: *mut u32) -> u32;
    pub fn mtrr_effective_type(registers: *const Registers, page: u64, index: u32, kind: *mut u32) -> u32;
    pub fn mtrr_type_map(registers: *const Registers, runs: *mut Run, room: usize, count: *mut usize) -> u32;
    pub fn mtrr_tidy(
        registers: *const Registers,
        spare: u8,
        chunk: u64,
        work: *mut Work,
        tidied: *mut Registers,
        need: *mut Need,
    ) -> u32;
    pub fn mtrr_gran(
        registers: *const Registers,
        size: u64,
        spare: u8,
        chunk: u64,
        work: *mut Work,
        rounded: *mut Registers,
        need: *mut Need,
        loss: *mut Loss,
        parts: *mut Run,
        room: usize,
    ) -> u32;
    pub fn mtrr_due(update: *const Update, processor: *const Processor, step: *mut Step) -> u32;
    pub fn mtrr_did(update: *mut Update, processor: *mut Processor, step: *const Step) -> u32;
}
