//! A processor's range registers, and the questions to them.
use core::fmt::{self, Debug, Display, Formatter};
use core::mem::MaybeUninit;
use core::str::FromStr;

use crate::map::{Parts, Runs, TypeMap};
use crate::sys::{self, DEFAULT_AT, FIXED_AT, PAT_AT};
use crate::{Error, Fault, Register};

pub(crate) const CAPABILITIES: u32 = 0xfe;
pub(crate) const PAT: u32 = 0x277;
pub(crate) const DEFAULT_TYPE: u32 = 0x2ff;
pub(crate) const FIXED: [u32; 11] = [0x250, 0x258, 0x259, 0x268, 0x269, 0x26a, 0x26b, 0x26c, 0x26d, 0x26e, 0x26f];
const POWER_UP_PAT: u64 = 0x0007_0406_0007_0406;
const PAGE: u64 = 4096;

/// A chunk that bounds nothing, for [`Registers::tidy`] and [`Registers::gran`].
///
/// ```
/// let registers: mtrr::Registers = "0fe 508\n2ff 806".parse()?;
/// assert_eq!(registers.tidy(0, mtrr::ANY_CHUNK, &mut mtrr::Work::new())?.used, 0);
/// # Ok::<(), mtrr::Error>(())
/// ```
pub const ANY_CHUNK: u64 = 1 << 52;

/// A memory type. Its number is the byte that the registers hold.
///
/// ```
/// use mtrr::MemoryType;
/// assert_eq!(MemoryType::from_byte(6), Some(MemoryType::Wb));
/// assert_eq!(MemoryType::Wb as u8, 6);
/// assert_eq!(MemoryType::Wb.to_string(), "WB");
/// ```
#[derive(Clone, Copy, Debug, PartialEq, Eq, PartialOrd, Ord, Hash)]
#[repr(u8)]
pub enum MemoryType {
    /// Uncacheable.
    Uc = 0,
    /// Write combining.
    Wc = 1,
    /// Write-through.
    Wt = 4,
    /// Write protected.
    Wp = 5,
    /// Write back.
    Wb = 6,
}

impl MemoryType {
    /// The type of this byte, if there is one.
    ///
    /// ```
    /// assert_eq!(mtrr::MemoryType::from_byte(2), None);
    /// ```
    pub fn from_byte(byte: u8) -> Option<MemoryType> {
        use MemoryType::*;
        [Uc, Wc, Wt, Wp, Wb].into_iter().find(|kind| *kind as u8 == byte)
    }

    pub(crate) fn of(number: u32) -> Option<MemoryType> {
        u8::try_from(number).ok().and_then(MemoryType::from_byte)
    }
}

impl Display for MemoryType {
    fn fmt(&self, f: &mut Formatter<'_>) -> fmt::Result {
        f.pad(match self {
            MemoryType::Uc => "UC",
            MemoryType::Wc => "WC",
            MemoryType::Wt => "WT",
            MemoryType::Wp => "WP",
            MemoryType::Wb => "WB",
        })
    }
}

/// Room for [`Registers::tidy`] and [`Registers::gran`] to work in: 53,752 bytes, so not for a kernel's stack. One serves any
/// number of calls.
///
/// ```
/// use std::sync::Mutex;
/// static WORK: Mutex<mtrr::Work> = Mutex::new(mtrr::Work::new());
/// let registers = mtrr::Registers::new(36, 0x508)?;
/// assert_eq!(registers.tidy(0, mtrr::ANY_CHUNK, &mut WORK.lock().unwrap()), Err(mtrr::Error::Disabled));
/// # Ok::<(), mtrr::Error>(())
/// ```
pub struct Work(sys::Work);

impl Work {
    /// An area of zeros. What it holds never matters.
    ///
    /// ```
    /// let work = Box::new(mtrr::Work::new());
    /// # drop(work);
    /// ```
    pub const fn new() -> Work {
        Work(sys::Work { words: [0; 6719] })
    }
}

impl Default for Work {
    fn default() -> Work {
        Work::new()
    }
}

/// The range registers and the PAT of a processor, by their values. There is a value for each register that its capabilities
/// name, and for no other. The values themselves may be at fault: [`Registers::first_fault`] looks.
///
/// It is written, and read, as `mtrr show` writes a dump of one processor:
///
/// ```
/// let mut registers = mtrr::Registers::new(36, 0x502)?;
/// registers.set(0x2ff, 0x806)?;
/// assert!(registers.to_string().starts_with("maxphyaddr 36\n0fe 0000000000000502\n200 0000000000000000\n"));
/// assert_eq!(registers.to_string().parse(), Ok(registers));
/// # Ok::<(), mtrr::Error>(())
/// ```
#[derive(Clone, Copy, PartialEq, Eq, Hash)]
#[repr(transparent)]
pub struct Registers(sys::Registers);

/// What [`Registers::tidy`] returns.
///
/// ```
/// let registers: mtrr::Registers = "0fe 508\n200 6\n201 f80000800\n202 80000006\n203 f80000800\n2ff 800".parse()?;
/// let tidied = registers.tidy(1, mtrr::ANY_CHUNK, &mut mtrr::Work::new())?;
/// assert!(tidied.used <= 2 && tidied.usable == 7);
/// # Ok::<(), mtrr::Error>(())
/// ```
#[derive(Clone, Copy, Debug, PartialEq, Eq)]
pub struct Tidied {
    /// The registers. The valid pairs are first, and the others are zeros.
    pub registers: Registers,
    /// How many pairs are valid.
    pub used: u64,
    /// How many pairs may be used.
    pub usable: u64,
}

/// What [`Registers::gran`] returns: 8 KB.
///
/// ```
/// let registers: mtrr::Registers = "0fe 508\n200 6\n201 f80000800\n2ff 800".parse()?;
/// let rounded = registers.gran(0x1000000, 1, mtrr::ANY_CHUNK, &mut mtrr::Work::new())?;
/// assert_eq!((rounded.lost_pages, rounded.parts.len()), (0, 0));
/// # Ok::<(), mtrr::Error>(())
/// ```
#[derive(Clone, Debug)]
pub struct Rounded {
    /// The registers for the rounded types, and how many pairs they need.
    pub tidied: Tidied,
    /// How many pages had WB and get UC.
    pub lost_pages: u64,
    /// The runs of pages of one type that get UC.
    pub parts: Parts,
}

impl Registers {
    /// Registers of zeros with this address width and capability register, and the PAT as after power-up.
    ///
    /// Returns [`Error::NotAFile`].
    ///
    /// ```
    /// let registers = mtrr::Registers::new(46, 0xd0a)?;
    /// assert_eq!(registers.pairs(), 10);
    /// # Ok::<(), mtrr::Error>(())
    /// ```
    pub fn new(width: u32, capabilities: u64) -> Result<Registers, Error> {
        let mut words = sys::Registers { width: width.into(), capabilities, rest: [0; 77] };
        words.rest[PAT_AT] = POWER_UP_PAT;
        // SAFETY: the struct is initialized and only read.
        match unsafe { sys::mtrr_is_file(&words) } {
            true => Ok(Registers(words)),
            false => Err(Error::NotAFile),
        }
    }

    /// Reads each register that the processor has. `rdmsr` gets a register's number, and the width is that of CPUID 80000008H,
    /// EAX bits 7:0.
    ///
    /// Returns [`Error::NotAFile`].
    ///
    /// ```
    /// let rdmsr = |number| if number == 0xfe { 0x508 } else { 0 }; // of your kernel
    /// let registers = mtrr::Registers::read(39, rdmsr)?;
    /// assert_eq!(registers.get(0x277), Some(0));
    /// # Ok::<(), mtrr::Error>(())
    /// ```
    pub fn read(width: u32, mut rdmsr: impl FnMut(u32) -> u64) -> Result<Registers, Error> {
        let blank = Registers::new(width, rdmsr(CAPABILITIES))?;
        let mut registers = blank;
        for (number, _) in blank.iter() {
            registers.set(number, rdmsr(number))?;
        }
        Ok(registers)
    }

    /// Bits of a physical address.
    ///
    /// ```
    /// assert_eq!(mtrr::Registers::new(36, 0x508)?.width(), 36);
    /// # Ok::<(), mtrr::Error>(())
    /// ```
    pub fn width(&self) -> u32 {
        self.0.width as u32
    }

    /// IA32_MTRRCAP.
    ///
    /// ```
    /// assert_eq!(mtrr::Registers::new(36, 0x508)?.capabilities(), 0x508);
    /// # Ok::<(), mtrr::Error>(())
    /// ```
    pub fn capabilities(&self) -> u64 {
        self.0.capabilities
    }

    /// How many pairs the processor has: VCNT.
    ///
    /// ```
    /// assert_eq!(mtrr::Registers::new(36, 0x508)?.pairs(), 8);
    /// # Ok::<(), mtrr::Error>(())
    /// ```
    pub fn pairs(&self) -> u32 {
        self.0.capabilities as u32 & 0xff
    }

    /// The numbers of the fixed-range registers that the processor has.
    fn fixed(&self) -> &'static [u32] {
        if self.0.capabilities & 0x100 != 0 { &FIXED } else { &[] }
    }

    /// How many registers can be written.
    pub(crate) fn count(&self) -> u32 {
        2 * self.pairs() + self.fixed().len() as u32 + 2
    }

    /// Where the value of a register is that can be written.
    fn index(&self, number: u32) -> Option<usize> {
        match number {
            PAT => Some(PAT_AT),
            DEFAULT_TYPE => Some(DEFAULT_AT),
            0x200..0x240 => Some(number as usize - 0x200).filter(|_| number < 0x200 + 2 * self.pairs()),
            _ => self.fixed().iter().position(|fixed| *fixed == number).map(|place| FIXED_AT + place),
        }
    }

    /// The value of a register that can be written, or `None` if the processor doesn't have it.
    ///
    /// ```
    /// let registers = mtrr::Registers::new(36, 0x508)?;
    /// assert_eq!((registers.get(0x20f), registers.get(0x210)), (Some(0), None));
    /// # Ok::<(), mtrr::Error>(())
    /// ```
    pub fn get(&self, number: u32) -> Option<u64> {
        self.index(number).map(|at| self.0.rest[at])
    }

    /// Changes the value of a register, to any value.
    ///
    /// Returns [`Error::NoRegister`].
    ///
    /// ```
    /// let mut registers = mtrr::Registers::new(36, 0x508)?;
    /// registers.set(0x2ff, 0xc06)?;
    /// assert!(registers.set(0x210, 6).is_err());
    /// # Ok::<(), mtrr::Error>(())
    /// ```
    pub fn set(&mut self, number: u32, value: u64) -> Result<(), Error> {
        let at = self.index(number).ok_or(Error::NoRegister(Register(number)))?;
        self.0.rest[at] = value;
        Ok(())
    }

    /// Makes a pair valid, for the `size` bytes from `start` on.
    ///
    /// Returns [`Error::NotARange`] and [`Error::NoRegister`].
    ///
    /// ```
    /// use mtrr::MemoryType::Wc;
    /// let mut registers = mtrr::Registers::new(36, 0x508)?;
    /// registers.set_pair(0, 0xd0000000, 0x10000000, Wc)?;
    /// assert_eq!((registers.get(0x200), registers.get(0x201)), (Some(0xd0000001), Some(0xff0000800)));
    /// # Ok::<(), mtrr::Error>(())
    /// ```
    pub fn set_pair(&mut self, pair: u32, start: u64, size: u64, kind: MemoryType) -> Result<(), Error> {
        let space = 1 << self.width();
        if !size.is_power_of_two() || size < PAGE || size > space || start % size != 0 || start >= space {
            return Err(Error::NotARange);
        }
        let number = Register(0x200 + 2 * pair.min(32));
        self.set(number.0, start | kind as u64)?;
        self.set(number.0 + 1, (space - size) | 0x800)
    }

    /// The register at a place among those that can be written, in ascending order, and its value: what [`Action::Write`] names.
    ///
    /// [`Action::Write`]: crate::Action::Write
    ///
    /// ```
    /// let registers = mtrr::Registers::new(36, 0x508)?;
    /// assert_eq!(registers.at(1), Some((0x201, 0)));
    /// # Ok::<(), mtrr::Error>(())
    /// ```
    pub fn at(&self, place: u32) -> Option<(u32, u64)> {
        let number = match place.checked_sub(2 * self.pairs()) {
            None => 0x200 + place,
            Some(next) => *self.fixed().iter().chain(&[PAT, DEFAULT_TYPE]).nth(next as usize)?,
        };
        Some((number, self.get(number)?))
    }

    /// The registers that can be written, in ascending order, with their values.
    ///
    /// ```
    /// let registers = mtrr::Registers::new(36, 0x8)?;
    /// assert_eq!(registers.iter().count(), 18);
    /// assert_eq!(registers.iter().last(), Some((0x2ff, 0)));
    /// # Ok::<(), mtrr::Error>(())
    /// ```
    pub fn iter(&self) -> impl Iterator<Item = (u32, u64)> + '_ {
        (0..self.count()).filter_map(|place| self.at(place))
    }

    /// The first register at fault, as `mtrr check` names it. `None`: the registers are lawful, and each page has a defined type.
    ///
    /// ```
    /// let registers: mtrr::Registers = "0fe 508\n200 6\n201 f00000800\n202 c0000001\n203 ff0000800\n2ff 800".parse()?;
    /// let fault = registers.first_fault().unwrap();
    /// assert_eq!(fault.to_string(), "200 IA32_MTRR_PHYSBASE0: the pair meets others where no type is defined");
    /// # Ok::<(), mtrr::Error>(())
    /// ```
    pub fn first_fault(&self) -> Option<Fault> {
        let mut fault = sys::Fault { number: 0, reason: 0 };
        // SAFETY: both are initialized and apart, and a mutable borrow is nobody else's.
        if unsafe { sys::mtrr_first_fault(&self.0, &mut fault) } != 1 {
            return None; // 0, since 2 is no answer for a register file
        }
        let register = Register(fault.number);
        Some(match fault.reason {
            1 => Fault::ReservedBit(register),
            2 => Fault::UnsupportedType(register),
            3 => Fault::BrokenMask(register),
            _ => Fault::UndefinedOverlap(register),
        })
    }

    /// The error of a status of a call on these registers.
    fn error(&self, status: u32, need: &sys::Need) -> Error {
        match status {
            1 => self.first_fault().map_or(Error::Unexpected(1), Error::Fault),
            3 => Error::NoPage,
            4 => Error::Undefined,
            5 => Error::NoEntry,
            9 => Error::Disabled,
            10 => Error::TooFew { needs: need.needs, has: need.has },
            11 => Error::NoGranule,
            _ => Error::Unexpected(status),
        }
    }

    fn kind(&self, status: u32, number: u32) -> Result<MemoryType, Error> {
        match status {
            0 => MemoryType::of(number).ok_or(Error::Unexpected(0)),
            _ => Err(self.error(status, &sys::Need { needs: 0, has: 0 })),
        }
    }

    /// The type that the range registers give the page of an address, whether or not a register is at fault.
    ///
    /// Returns [`Error::NoPage`] and [`Error::Undefined`].
    ///
    /// ```
    /// let registers: mtrr::Registers = "0fe 508\n200 6\n201 f00000800\n2ff 800".parse()?;
    /// assert_eq!(registers.type_at(0x1234), Ok(mtrr::MemoryType::Wb));
    /// # Ok::<(), mtrr::Error>(())
    /// ```
    pub fn type_at(&self, address: u64) -> Result<MemoryType, Error> {
        let mut kind = 0;
        // SAFETY: as for `mtrr_first_fault`.
        let status = unsafe { sys::mtrr_page_type(&self.0, address / PAGE, &mut kind) };
        self.kind(status, kind)
    }

    /// The type in effect for the page of an address whose mapping chooses this entry of the PAT.
    ///
    /// Returns [`Error::NoPage`], [`Error::NoEntry`] and [`Error::Undefined`].
    ///
    /// ```
    /// let registers: mtrr::Registers = "0fe 508\n200 6\n201 f00000800\n2ff 800".parse()?;
    /// assert_eq!(registers.effective_type_at(0x1234, 3), Ok(mtrr::MemoryType::Uc));
    /// # Ok::<(), mtrr::Error>(())
    /// ```
    pub fn effective_type_at(&self, address: u64, entry: u32) -> Result<MemoryType, Error> {
        let mut kind = 0;
        // SAFETY: as for `mtrr_first_fault`.
        let status = unsafe { sys::mtrr_effective_type(&self.0, address / PAGE, entry, &mut kind) };
        self.kind(status, kind)
    }

    /// The type of each page, in runs.
    ///
    /// Returns [`Error::Fault`] if a register is at fault by itself. An undefined overlap is no such fault.
    ///
    /// ```
    /// let registers: mtrr::Registers = "0fe 508\n200 6\n201 f00000800\n2ff 800".parse()?;
    /// let kinds: Vec<_> = registers.type_map()?.map(|run| run.kind.unwrap()).collect();
    /// assert_eq!(kinds, [mtrr::MemoryType::Wb, mtrr::MemoryType::Uc]);
    /// # Ok::<(), mtrr::Error>(())
    /// ```
    pub fn type_map(&self) -> Result<TypeMap, Error> {
        let (mut runs, mut count) = (TypeMap::room(), 0);
        // SAFETY: as for `mtrr_first_fault`, and the array has the room that is said.
        let status = unsafe { sys::mtrr_type_map(&self.0, runs.as_mut_ptr(), runs.len(), &mut count) };
        match status {
            0 => Ok(Runs::new(runs, count)),
            _ => Err(self.error(status, &sys::Need { needs: 0, has: 0 })),
        }
    }

    /// The registers with the same type for each page in the fewest pairs: of all lists in which the larger of two pairs that share
    /// a page has at most `chunk` bytes, none is shorter. `spare` pairs stay unused. Only pairs change.
    ///
    /// Returns [`Error::Fault`], [`Error::Disabled`] and [`Error::TooFew`].
    ///
    /// ```
    /// use mtrr::{ANY_CHUNK, Error, Work};
    /// let registers: mtrr::Registers = "0fe 508\n200 6\n201 f00000800\n2ff 800".parse()?;
    /// match registers.tidy(1, ANY_CHUNK, &mut Work::new()) {
    ///     Ok(tidied) => println!("{} pairs are enough\n{}", tidied.used, tidied.registers),
    ///     Err(Error::TooFew { needs, has }) => println!("{needs} pairs are needed, and {has} may be used"),
    ///     Err(error) => println!("{error}"),
    /// }
    /// # Ok::<(), mtrr::Error>(())
    /// ```
    pub fn tidy(&self, spare: u8, chunk: u64, work: &mut Work) -> Result<Tidied, Error> {
        let (mut tidied, mut need) = (MaybeUninit::uninit(), sys::Need { needs: 0, has: 0 });
        // SAFETY: as for `mtrr_first_fault`; `tidied` is only written.
        let status = unsafe { sys::mtrr_tidy(&self.0, spare, chunk, &mut work.0, tidied.as_mut_ptr(), &mut need) };
        match status {
            // SAFETY: at 0 the call has written all of it.
            0 => Ok(Tidied { registers: Registers(unsafe { tidied.assume_init() }), used: need.needs, usable: need.has }),
            _ => Err(self.error(status, &need)),
        }
    }

    /// The registers for types rounded to granules of `size` bytes, in the fewest pairs, with what is lost: a granule whose pages
    /// have several types gets UC. `spare` and `chunk` are as for [`Registers::tidy`].
    ///
    /// Returns [`Error::NoGranule`], [`Error::Fault`], [`Error::Disabled`] and [`Error::TooFew`].
    ///
    /// ```
    /// let registers: mtrr::Registers = "0fe 508\n200 6\n201 f80000800\n202 80000006\n203 fffff0800\n2ff 800".parse()?;
    /// let rounded = registers.gran(0x1000000, 1, mtrr::ANY_CHUNK, &mut mtrr::Work::new())?;
    /// println!("{} pages are UC instead of WB", rounded.lost_pages);
    /// # Ok::<(), mtrr::Error>(())
    /// ```
    pub fn gran(&self, size: u64, spare: u8, chunk: u64, work: &mut Work) -> Result<Rounded, Error> {
        let (mut rounded, mut need) = (MaybeUninit::uninit(), sys::Need { needs: 0, has: 0 });
        let (mut loss, mut parts) = (sys::Loss { pages: 0, parts: 0 }, Parts::room());
        // SAFETY: as for `mtrr_tidy`, and the array has the room that is said.
        let status = unsafe {
            let (to, first) = (rounded.as_mut_ptr(), parts.as_mut_ptr());
            sys::mtrr_gran(&self.0, size, spare, chunk, &mut work.0, to, &mut need, &mut loss, first, parts.len())
        };
        if status != 0 {
            return Err(self.error(status, &need));
        }
        // SAFETY: at 0 the call has written all of it.
        let registers = Registers(unsafe { rounded.assume_init() });
        let tidied = Tidied { registers, used: need.needs, usable: need.has };
        Ok(Rounded { tidied, lost_pages: loss.pages, parts: Runs::new(parts, loss.parts as usize) })
    }
}

impl Display for Registers {
    fn fmt(&self, f: &mut Formatter<'_>) -> fmt::Result {
        writeln!(f, "maxphyaddr {}", self.width())?;
        let mut all = core::iter::once((CAPABILITIES, self.0.capabilities)).chain(self.iter());
        all.try_for_each(|(number, value)| writeln!(f, "{number:03x} {value:016x}"))
    }
}

impl Debug for Registers {
    fn fmt(&self, f: &mut Formatter<'_>) -> fmt::Result {
        write!(f, "Registers({:?})", format_args!("{self}"))
    }
}

/// Two words of a line, without a comment, the colon behind the first and `0x` before the second.
fn words_of(line: &str) -> Option<(&str, &str)> {
    let mut words = line.split('#').next()?.split_whitespace();
    let (first, second) = (words.next()?, words.next().unwrap_or_default());
    let (first, second) = (first.strip_suffix(':').unwrap_or(first), if words.next().is_some() { "" } else { second });
    Some((first.strip_prefix("0x").unwrap_or(first), second.strip_prefix("0x").unwrap_or(second)))
}

/// Reads a dump of one processor. It is less strict than the program: of a register that is given twice it takes the last value.
/// Returns [`Error::BadText`], [`Error::NotAFile`] and [`Error::NoRegister`].
impl FromStr for Registers {
    type Err = Error;

    fn from_str(text: &str) -> Result<Registers, Error> {
        let lines = || text.lines().zip(1..).filter_map(|(line, at)| words_of(line).map(|words| (words, at)));
        let mut width = 36;
        for ((_, value), at) in lines().filter(|((name, _), _)| *name == "maxphyaddr") {
            width = value.parse().map_err(|_| Error::BadText(at))?;
        }
        let mut registers = None;
        for ((name, value), at) in lines().filter(|((name, _), _)| *name != "maxphyaddr") {
            let number = u32::from_str_radix(name, 16).map_err(|_| Error::BadText(at))?;
            let value = u64::from_str_radix(value, 16).map_err(|_| Error::BadText(at))?;
            match (number, &mut registers) {
                (CAPABILITIES, None) => registers = Some(Registers::new(width, value)?),
                (_, Some(registers)) => registers.set(number, value)?,
                (_, None) => return Err(Error::BadText(at)),
            }
        }
        registers.ok_or(Error::BadText(text.lines().count()))
    }
}
