//! What a call may return in place of an answer.
use core::fmt::{self, Display, Formatter};

use crate::Action;
use crate::registers::{CAPABILITIES, DEFAULT_TYPE, FIXED, PAT};

/// A register by its number, written with its name in the manual.
///
/// ```
/// assert_eq!(mtrr::Register(0x201).to_string(), "201 IA32_MTRR_PHYSMASK0");
/// ```
#[derive(Clone, Copy, Debug, PartialEq, Eq, PartialOrd, Ord, Hash)]
pub struct Register(pub u32);

impl Display for Register {
    fn fmt(&self, f: &mut Formatter<'_>) -> fmt::Result {
        let number = self.0;
        write!(f, "{number:03x} ")?;
        match number {
            CAPABILITIES => f.write_str("IA32_MTRRCAP"),
            0x200..0x240 if number % 2 == 0 => write!(f, "IA32_MTRR_PHYSBASE{}", (number - 0x200) / 2),
            0x200..0x240 => write!(f, "IA32_MTRR_PHYSMASK{}", (number - 0x200) / 2),
            0x250 => f.write_str("IA32_MTRR_FIX64K_00000"),
            0x258 => f.write_str("IA32_MTRR_FIX16K_80000"),
            0x259 => f.write_str("IA32_MTRR_FIX16K_A0000"),
            _ if FIXED.contains(&number) => write!(f, "IA32_MTRR_FIX4K_{:X}", 0xc0000 + (number - 0x268) * 0x8000),
            PAT => f.write_str("IA32_PAT"),
            DEFAULT_TYPE => f.write_str("IA32_MTRR_DEF_TYPE"),
            _ => f.write_str("(no range register)"),
        }
    }
}

/// What is wrong with a register.
///
/// ```
/// use mtrr::{Fault, Register, Registers};
/// let mut registers = Registers::new(36, 0x508)?;
/// registers.set(0x200, 0xf06)?;
/// assert_eq!(registers.first_fault(), Some(Fault::ReservedBit(Register(0x200))));
/// # Ok::<(), mtrr::Error>(())
/// ```
#[derive(Clone, Copy, Debug, PartialEq, Eq, Hash)]
pub enum Fault {
    /// A reserved bit is set.
    ReservedBit(Register),
    /// A byte is no memory type that the processor has.
    UnsupportedType(Register),
    /// The mask is valid, and isn't one run of ones from the top.
    BrokenMask(Register),
    /// Pairs meet at a page at which their types have no defined result. This is the base of the lowest pair that matches one.
    UndefinedOverlap(Register),
}

impl Fault {
    /// The register at fault.
    ///
    /// ```
    /// use mtrr::{Fault, Register};
    /// assert_eq!(Fault::BrokenMask(Register(0x203)).register(), Register(0x203));
    /// ```
    pub fn register(self) -> Register {
        match self {
            Fault::ReservedBit(at) | Fault::UnsupportedType(at) | Fault::BrokenMask(at) | Fault::UndefinedOverlap(at) => at,
        }
    }
}

impl Display for Fault {
    fn fmt(&self, f: &mut Formatter<'_>) -> fmt::Result {
        let said = match self {
            Fault::ReservedBit(_) => "a reserved bit is set",
            Fault::UnsupportedType(_) => "a memory type that the processor doesn't have",
            Fault::BrokenMask(_) => "the mask isn't one run of ones from the top",
            Fault::UndefinedOverlap(_) => "the pair meets others where no type is defined",
        };
        write!(f, "{}: {said}", self.register())
    }
}

impl core::error::Error for Fault {}

/// Why a call has no answer. Each call says which of these it returns.
///
/// ```
/// let error = mtrr::Registers::new(20, 0x508).unwrap_err();
/// assert_eq!(error.to_string(), "no processor has this address width or capability register");
/// ```
#[derive(Clone, Copy, Debug, PartialEq, Eq, Hash)]
#[non_exhaustive]
pub enum Error {
    /// The width isn't 32 to 52 bits, or the processor has more than 32 pairs.
    NotAFile,
    /// The processor has no such register that can be written.
    NoRegister(Register),
    /// A range that no pair can have: the size is no power of two of at least 4 KB, or the start is no multiple of it.
    NotARange,
    /// The line with this number isn't of the text that `mtrr show` prints for one processor.
    BadText(usize),
    /// The address is beyond the physical address space.
    NoPage,
    /// The PAT has entries 0 to 7.
    NoEntry,
    /// The pairs that meet at the page have no defined type.
    Undefined,
    /// A register is at fault.
    Fault(Fault),
    /// The range registers are off: E of the default type is clear.
    Disabled,
    /// The types need more pairs than may be used.
    TooFew {
        /// How many pairs the types need.
        needs: u64,
        /// How many may be used.
        has: u64,
    },
    /// The granule isn't a power of two from 4 KB to 1 TB.
    NoGranule,
    /// The step isn't due, and was not booked: the update was cancelled meanwhile. After [`Action::Take`] turn interrupts on.
    NotDue(Action),
    /// The archive returned a status that this crate doesn't know.
    Unexpected(u32),
}

impl Display for Error {
    fn fmt(&self, f: &mut Formatter<'_>) -> fmt::Result {
        match self {
            Error::NotAFile => f.write_str("no processor has this address width or capability register"),
            Error::NoRegister(register) => write!(f, "the processor has no register {register} to write"),
            Error::NotARange => f.write_str("no pair can have this range"),
            Error::BadText(line) => write!(f, "line {line} isn't of the text that `mtrr show` prints for one processor"),
            Error::NoPage => f.write_str("the address is beyond the physical address space"),
            Error::NoEntry => f.write_str("the PAT has entries 0 to 7"),
            Error::Undefined => f.write_str("the pairs that meet at this page have no defined type"),
            Error::Fault(fault) => fault.fmt(f),
            Error::Disabled => write!(f, "{}: the range registers are off", Register(DEFAULT_TYPE)),
            Error::TooFew { needs, has } => write!(f, "the types need {needs} pairs, and {has} may be used"),
            Error::NoGranule => f.write_str("a granule is a power of two from 4 KB to 1 TB"),
            Error::NotDue(action) => write!(f, "the step {action:?} is no longer due"),
            Error::Unexpected(status) => write!(f, "the archive returned {status}, which this crate doesn't know"),
        }
    }
}

impl core::error::Error for Error {
    fn source(&self) -> Option<&(dyn core::error::Error + 'static)> {
        match self {
            Error::Fault(fault) => Some(fault),
            _ => None,
        }
    }
}

impl From<Fault> for Error {
    fn from(fault: Fault) -> Error {
        Error::Fault(fault)
    }
}
