//! A plain program to measure `mtrr` beside: `check` and `replay` as docs/FORMATS.md has them, over the standard library alone. It starts no
//! thread, and nothing in it is proved. What no measured input needs is left out, and ends with status 70: version 2 of a dump, and the
//! commands `up`, `join` and `retire`.
use std::fs::File;
use std::io::{self, BufRead, BufReader, Read, Write};
use std::os::fd::AsFd;
use std::process::ExitCode;

const MOST_BYTES: u64 = 1 << 24;
const MOST_IN_LINE: u64 = 4096;

/// Why a run ends before its input does.
enum Stop {
    BadText { line: usize, column: usize, reason: &'static str },
    Refused(Fault),
    ReadFault,
    WriteFault,
    TooLong,
    LeftOut,
}

// Text.

/// The lines of an input, one at a time.
struct Lines<R> {
    input: R,
    text: Vec<u8>,
    number: usize,
    bytes: u64,
}

impl<R: BufRead> Lines<R> {
    fn new(input: R) -> Self {
        Lines { input, text: Vec::with_capacity(128), number: 0, bytes: 0 }
    }

    /// Reads the next line; false if there is none.
    fn advance(&mut self) -> Result<bool, Stop> {
        if self.number > 0 && self.text.last() != Some(&b'\n') {
            return Ok(false);
        }
        self.text.clear();
        self.number += 1;
        let mut piece = self.input.by_ref().take(MOST_IN_LINE + 1);
        let count = piece.read_until(b'\n', &mut self.text).map_err(|_| Stop::ReadFault)?;
        self.bytes += count as u64;
        if self.bytes > MOST_BYTES {
            return Err(Stop::TooLong);
        }
        if count as u64 > MOST_IN_LINE && self.text.last() != Some(&b'\n') {
            return Err(self.at(MOST_IN_LINE as usize + 1, "bad line"));
        }
        Ok(count > 0)
    }

    fn at(&self, column: usize, reason: &'static str) -> Stop {
        Stop::BadText { line: self.number, column, reason }
    }

    /// A fault of the whole text, which is one column past its end.
    fn at_end(&self, reason: &'static str) -> Stop {
        self.at(self.text.len() + 1, reason)
    }

    fn words(&self) -> Words<'_> {
        let text = self.text.strip_suffix(b"\n").unwrap_or(&self.text);
        let text = text.strip_suffix(b"\r").unwrap_or(text);
        Words::of(text, self.number)
    }
}

/// The words of a line, up to the first that is too many for every line.
struct Words<'a> {
    text: &'a [u8],
    line: usize,
    list: [&'a [u8]; 7],
    count: usize,
}

impl<'a> Words<'a> {
    fn of(text: &'a [u8], line: usize) -> Self {
        let mut words = Words { text, line, list: [&[]; 7], count: 0 };
        let mut at = 0;
        while words.count < words.list.len() {
            while at < text.len() && matches!(text[at], b' ' | b'\t') {
                at += 1;
            }
            if at == text.len() || text[at] == b'#' {
                break;
            }
            let start = at;
            while at < text.len() && !matches!(text[at], b' ' | b'\t' | b'#') {
                at += 1;
            }
            words.list[words.count] = &text[start..at];
            words.count += 1;
        }
        words
    }

    /// A fault at a word.
    fn fault(&self, word: usize, reason: &'static str) -> Stop {
        let column = self.list[word].as_ptr() as usize - self.text.as_ptr() as usize + 1;
        Stop::BadText { line: self.line, column, reason }
    }

    /// Whether there are so many words behind the first.
    fn has(&self, least: usize, most: usize) -> Result<(), Stop> {
        match self.count {
            count if count <= least => Err(self.fault(count - 1, "bad line")),
            count if count > most + 1 => Err(self.fault(most + 1, "bad line")),
            _ => Ok(()),
        }
    }

    fn is_on(&self, word: usize) -> Result<bool, Stop> {
        match self.list[word] {
            b"on" => Ok(true),
            b"off" => Ok(false),
            _ => Err(self.fault(word, "bad line")),
        }
    }

    fn hex(&self, word: usize) -> Result<u64, Stop> {
        hex(self.list[word]).ok_or_else(|| self.fault(word, "bad number"))
    }

    /// A hexadecimal number that is a multiple of `unit` and below 2^`bits`.
    fn address(&self, word: usize, unit: u64, bits: u32) -> Result<u64, Stop> {
        let address = self.hex(word)?;
        if address % unit == 0 && address >> bits == 0 { Ok(address) } else { Err(self.fault(word, "out of range")) }
    }

    fn decimal(&self, word: usize, least: u64, most: u64) -> Result<u64, Stop> {
        let number = decimal(self.list[word]).ok_or_else(|| self.fault(word, "bad number"))?;
        if (least..=most).contains(&number) { Ok(number) } else { Err(self.fault(word, "out of range")) }
    }
}

/// A hexadecimal number of 1 to 16 digits behind an optional `0x`.
fn hex(word: &[u8]) -> Option<u64> {
    let digits = if let [b'0', b'x' | b'X', digits @ ..] = word { digits } else { word };
    if digits.is_empty() || digits.len() > 16 {
        return None;
    }
    digits.iter().try_fold(0, |value, &digit| Some(value << 4 | u64::from(char::from(digit).to_digit(16)?)))
}

/// A decimal number, and the largest one in place of all that are too large.
fn decimal(word: &[u8]) -> Option<u64> {
    let number = word.iter().try_fold(0u64, |value, &digit| {
        let digit = char::from(digit).to_digit(10)?;
        Some(value.saturating_mul(10).saturating_add(u64::from(digit)))
    })?;
    Some(if word.len() > 20 { u64::MAX } else { number })
}

/// What is written, in pieces.
struct Output {
    file: File,
    text: Vec<u8>,
}

impl Output {
    const PIECE: usize = 1 << 16;

    fn flush(&mut self) -> Result<(), Stop> {
        self.file.write_all(&self.text).map_err(|_| Stop::WriteFault)?;
        self.text.clear();
        Ok(())
    }

    fn append(&mut self, text: &str) -> &mut Self {
        self.text.extend_from_slice(text.as_bytes());
        self
    }

    fn hex(&mut self, value: u64, digits: u32) -> &mut Self {
        self.text.extend((0..digits).rev().map(|digit| b"0123456789abcdef"[(value >> (4 * digit)) as usize & 15]));
        self
    }

    fn decimal(&mut self, value: u64) -> &mut Self {
        if value > 9 {
            self.decimal(value / 10);
        }
        self.text.push(b'0' + (value % 10) as u8);
        self
    }

    fn end(&mut self) -> Result<(), Stop> {
        self.text.push(b'\n');
        if self.text.len() < Self::PIECE { Ok(()) } else { self.flush() }
    }

    fn line(&mut self, text: &str) -> Result<(), Stop> {
        self.append(text).end()
    }

    fn refused(&mut self, fault: &Fault) -> Result<(), Stop> {
        self.append("refused ").hex(fault.register, 3).append(" ").line(fault.reason)
    }
}

// Registers and types.

#[derive(Clone, Copy, PartialEq)]
enum Kind {
    Uc = 0,
    Wc = 1,
    Wt = 4,
    Wp = 5,
    Wb = 6,
    UcMinus = 7,
}

use Kind::{Uc, UcMinus, Wb, Wc, Wp, Wt};

impl Kind {
    fn of_byte(byte: u64) -> Option<Kind> {
        Some(match byte {
            0 => Uc,
            1 => Wc,
            4 => Wt,
            5 => Wp,
            6 => Wb,
            7 => UcMinus,
            _ => return None,
        })
    }

    fn name(self) -> &'static str {
        match self {
            Uc => "UC",
            Wc => "WC",
            Wt => "WT",
            Wp => "WP",
            Wb => "WB",
            UcMinus => "UC-",
        }
    }
}

/// The type in effect for an MTRR type and a PAT type.
fn effective(range: Kind, entry: Kind) -> Kind {
    match (range, entry) {
        (_, Uc) | (Uc | Wt | Wb, UcMinus) | (Uc, Wt | Wb | Wp) | (Wc, Wt | Wp) => Uc,
        (_, Wc) | (_, UcMinus) | (Wc, Wb) => Wc,
        (_, Wt) | (Wt, Wb) => Wt,
        (_, Wp) | (Wp, Wb) => Wp,
        (_, Wb) => Wb,
    }
}

struct Fault {
    register: u64,
    reason: &'static str,
}

const CAPABILITIES: u64 = 0xfe;
static FIXED: [u64; 11] = [0x250, 0x258, 0x259, 0x268, 0x269, 0x26a, 0x26b, 0x26c, 0x26d, 0x26e, 0x26f];
const PAT: u64 = 0x277;
const DEFAULT: u64 = 0x2ff;
const HAS_FIXED: u64 = 1 << 8;
const HAS_WC: u64 = 1 << 10;
const VALID: u64 = 1 << 11;
const FIXED_ON: u64 = 1 << 10;
const ON: u64 = 1 << 11;
/// The pages whose types fixed ranges may give.
const LOW_PAGES: u64 = 256;

/// The registers of a processor. Those that it hasn't are 0.
#[derive(Clone, PartialEq)]
struct Registers {
    width: u32,
    capabilities: u64,
    /// Base and mask in turn.
    pairs: [u64; 64],
    fixed: [u64; 11],
    pat: u64,
    default: u64,
}

impl Registers {
    fn new(width: u32, capabilities: u64) -> Self {
        Registers { width, capabilities, pairs: [0; 64], fixed: [0; 11], pat: 0x0007_0406_0007_0406, default: 0 }
    }

    /// How many registers the pairs have.
    fn of_pairs(&self) -> usize {
        (self.capabilities & 0xff) as usize * 2
    }

    /// The numbers of the writable registers, in ascending order.
    fn writable(&self) -> impl Iterator<Item = u64> {
        let fixed = if self.capabilities & HAS_FIXED != 0 { &FIXED[..] } else { &[] };
        (0x200..).take(self.of_pairs()).chain(fixed.iter().copied()).chain([PAT, DEFAULT])
    }

    fn register(&mut self, number: u64) -> Option<&mut u64> {
        match number {
            PAT => Some(&mut self.pat),
            DEFAULT => Some(&mut self.default),
            0x200..0x240 => {
                let count = self.of_pairs();
                self.pairs[..count].get_mut(number as usize - 0x200)
            }
            _ if self.capabilities & HAS_FIXED == 0 => None,
            _ => FIXED.iter().position(|&fixed| fixed == number).map(|place| &mut self.fixed[place]),
        }
    }

    fn value(&self, number: u64) -> u64 {
        match number {
            CAPABILITIES => self.capabilities,
            PAT => self.pat,
            DEFAULT => self.default,
            0x200..0x240 => self.pairs[number as usize - 0x200],
            _ => FIXED.iter().position(|&fixed| fixed == number).map_or(0, |place| self.fixed[place]),
        }
    }

    /// Base and mask of the valid pairs, as numbers of pages and with their places.
    fn valid(&self) -> impl Iterator<Item = (usize, u64, u64)> + '_ {
        let pairs = self.pairs[..self.of_pairs()].chunks_exact(2).enumerate();
        pairs.filter(|(_, pair)| pair[1] & VALID != 0).map(|(place, pair)| (place, pair[0], pair[1] >> 12))
    }

    /// The type that the registers give a page; none if it is undefined.
    fn kind_of(&self, page: u64) -> Option<Kind> {
        if self.default & ON == 0 {
            return Some(Uc);
        }
        if self.default & FIXED_ON != 0 && page < LOW_PAGES {
            let (register, byte) = match page {
                0..0x80 => (0, page / 16),
                0x80..0xc0 => (page as usize / 0x20 - 3, page / 4 % 8),
                _ => (page as usize / 8 - 21, page % 8),
            };
            return Kind::of_byte(self.fixed[register] >> (8 * byte) & 0xff);
        }
        let matching = self.valid().filter(|&(_, base, mask)| (page ^ base >> 12) & mask == 0);
        let found = matching.fold(0u64, |found, (_, base, _)| found | 1 << (base & 7));
        match found {
            0 => Kind::of_byte(self.default & 0xff),
            _ if found.is_power_of_two() => Kind::of_byte(u64::from(found.trailing_zeros())),
            _ if found & 1 << Uc as u64 != 0 => Some(Uc),
            _ if found & !(1 << Wt as u64 | 1 << Wb as u64) == 0 => Some(Wt),
            _ => None,
        }
    }

    fn entry(&self, index: u64) -> Kind {
        Kind::of_byte(self.pat >> (8 * index) & 0xff).unwrap_or(Uc)
    }

    fn is_range_kind(&self, byte: u64) -> bool {
        Kind::of_byte(byte).is_some_and(|kind| kind != UcMinus && (kind != Wc || self.capabilities & HAS_WC != 0))
    }

    /// Why a register has a fault by itself.
    fn reason(&self, number: u64) -> Option<&'static str> {
        let value = self.value(number);
        let above = !0 << self.width;
        let reserved = match number {
            PAT => 0xf8f8_f8f8_f8f8_f8f8,
            DEFAULT => !0xcff | if self.capabilities & HAS_FIXED == 0 { FIXED_ON } else { 0 },
            0x200..0x240 => above | if number % 2 == 0 { 0xf00 } else { 0x7ff },
            _ => 0,
        };
        if value & reserved != 0 {
            return Some("reserved bit");
        }
        let bytes = value.to_le_bytes();
        let is_supported = match number {
            PAT => bytes.iter().all(|&byte| Kind::of_byte(byte.into()).is_some()),
            DEFAULT => self.is_range_kind(bytes[0].into()),
            0x200..0x240 => number % 2 == 1 || self.is_range_kind(bytes[0].into()),
            _ => bytes.iter().all(|&byte| self.is_range_kind(byte.into())),
        };
        if !is_supported {
            return Some("unsupported type");
        }
        let mask = value & !0xfff;
        let is_run = mask == 0 || mask == !above & (!0 << mask.trailing_zeros());
        let is_mask = (0x200..0x240).contains(&number) && number % 2 == 1;
        (is_mask && value & VALID != 0 && !is_run).then_some("broken mask")
    }

    /// The first fault, if there is one.
    fn first_fault(&self) -> Option<Fault> {
        let mut registers = self.writable().filter_map(|register| self.reason(register).map(|reason| Fault { register, reason }));
        registers.next().or_else(|| self.overlap())
    }

    /// The least pair that matches a page without a type. Such pages begin where a range begins or ends, or above the fixed ranges.
    fn overlap(&self) -> Option<Fault> {
        let pages = 1u64 << (self.width - 12);
        let ends = self.valid().flat_map(|(_, base, mask)| {
            let first = base >> 12 & mask;
            [first, first + pages - mask]
        });
        let undefined = ends.chain([0, LOW_PAGES]).filter(|&page| page < pages && self.kind_of(page).is_none());
        let pair = undefined.filter_map(|page| {
            let mut matching = self.valid().filter(|&(_, base, mask)| (page ^ base >> 12) & mask == 0);
            matching.next().map(|(place, ..)| place)
        });
        pair.min().map(|place| Fault { register: 0x200 + 2 * place as u64, reason: "undefined overlap" })
    }
}

// A dump.

/// What a dump's lines have given so far.
#[derive(Default)]
struct Dump {
    width: Option<u32>,
    registers: Option<Registers>,
    given: Vec<u64>,
}

impl Dump {
    /// Reads a line with words.
    fn read(&mut self, words: &Words) -> Result<(), Stop> {
        words.has(1, 1)?;
        let name = words.list[0].strip_suffix(b":").unwrap_or(words.list[0]);
        match name {
            b"version" | b"cpu" => return Err(Stop::LeftOut),
            b"maxphyaddr" => return self.read_width(words),
            _ => {}
        }
        let number = hex(name).ok_or_else(|| words.fault(0, "bad number"))?;
        let value = words.hex(1)?;
        if number == CAPABILITIES {
            if value & 0xff > 32 {
                return Err(words.fault(1, "too many pairs"));
            }
            if self.registers.is_some() {
                return Err(words.fault(0, "repeated"));
            }
            self.registers = Some(Registers::new(0, value));
            return Ok(());
        }
        let registers = self.registers.as_mut().ok_or_else(|| words.fault(0, "no cap"))?;
        let register = registers.register(number).ok_or_else(|| words.fault(0, "unknown register"))?;
        if self.given.contains(&number) {
            return Err(words.fault(0, "repeated"));
        }
        self.given.push(number);
        *register = value;
        Ok(())
    }

    fn read_width(&mut self, words: &Words) -> Result<(), Stop> {
        let width = decimal(words.list[1]).ok_or_else(|| words.fault(1, "bad number"))?;
        if !(32..=52).contains(&width) {
            return Err(words.fault(1, "bad width"));
        }
        if self.width.replace(width as u32).is_some() {
            return Err(words.fault(0, "repeated"));
        }
        Ok(())
    }

    /// The registers, if the dump has given the capabilities.
    fn registers(&mut self) -> Option<Registers> {
        let registers = self.registers.take()?;
        Some(Registers { width: self.width.unwrap_or(36), ..registers })
    }
}

// The machine.

const LINE_WORDS: usize = 8;
const MOST_LINES: usize = 64;
const MOST_MAPPINGS: usize = 64;
const MOST_BUFFERS: usize = 4;
const NO_SLOT: u8 = u8::MAX;

/// A window of memory, and the place of its first word among the words of all windows.
struct Window {
    base: u64,
    bytes: u64,
    place: usize,
}

#[derive(Default)]
struct Memory {
    windows: Vec<Window>,
    words: Vec<u64>,
}

impl Memory {
    fn place(&self, address: u64) -> Option<usize> {
        self.windows.iter().find_map(|window| {
            let offset = address.wrapping_sub(window.base);
            (offset < window.bytes).then(|| window.place + offset as usize / 8)
        })
    }

    fn address(&self, place: usize) -> u64 {
        let window = self.windows.iter().rfind(|window| window.place <= place).expect("each place is in a window");
        window.base + 8 * (place - window.place) as u64
    }

    fn line(&self, line: usize) -> [u64; LINE_WORDS] {
        std::array::from_fn(|word| self.words[line * LINE_WORDS + word])
    }

    /// Stores the dirty words of a line or a buffer, which are clean then.
    fn write_back(&mut self, held: &mut Held) {
        while held.dirty != 0 {
            self.write_back_word(held);
        }
    }

    /// Stores the first dirty word, and returns its place.
    fn write_back_word(&mut self, held: &mut Held) -> usize {
        let word = held.dirty.trailing_zeros() as usize;
        held.dirty &= held.dirty - 1;
        let place = held.line * LINE_WORDS + word;
        self.words[place] = held.words[word];
        place
    }
}

/// A line of a cache, or a write-combining buffer. A bit of `dirty` is set for each word that memory lacks.
#[derive(Clone, Copy, Default)]
struct Held {
    line: usize,
    dirty: u8,
    era: u64,
    words: [u64; LINE_WORDS],
}

impl Held {
    fn write(&mut self, word: usize, value: u64) {
        self.words[word] = value;
        self.dirty |= 1 << word;
    }
}

/// The lines of a processor's cache. They are in a ring from the oldest on, whose end is the slot MOST_LINES.
struct Cache {
    slots: [Held; MOST_LINES],
    after: [u8; MOST_LINES + 1],
    before: [u8; MOST_LINES + 1],
    free: u64,
    /// For each line of memory its slot, or NO_SLOT.
    slot_of: Vec<u8>,
}

impl Cache {
    const END: usize = MOST_LINES;

    fn new() -> Self {
        let end = [Self::END as u8; MOST_LINES + 1];
        Cache { slots: [Held::default(); MOST_LINES], after: end, before: end, free: !0, slot_of: Vec::new() }
    }

    fn find(&self, line: usize) -> Option<usize> {
        let slot = self.slot_of[line];
        (slot != NO_SLOT).then_some(slot.into())
    }

    fn oldest(&self) -> Option<usize> {
        let slot = usize::from(self.after[Self::END]);
        (slot != Self::END).then_some(slot)
    }

    /// The slots from the oldest line on.
    fn slots(&self) -> impl Iterator<Item = usize> + '_ {
        std::iter::successors(self.oldest(), |&slot| {
            let next = usize::from(self.after[slot]);
            (next != Self::END).then_some(next)
        })
    }

    /// Puts a line into a free slot, as the newest.
    fn insert(&mut self, held: Held) -> &mut Held {
        let slot = self.free.trailing_zeros() as usize;
        self.free &= self.free - 1;
        self.slot_of[held.line] = slot as u8;
        let last = self.before[Self::END];
        self.after[usize::from(last)] = slot as u8;
        self.before[slot] = last;
        self.after[slot] = Self::END as u8;
        self.before[Self::END] = slot as u8;
        self.slots[slot] = held;
        &mut self.slots[slot]
    }

    fn remove(&mut self, slot: usize) {
        let (before, after) = (self.before[slot], self.after[slot]);
        self.after[usize::from(before)] = after;
        self.before[usize::from(after)] = before;
        self.slot_of[self.slots[slot].line] = NO_SLOT;
        self.free |= 1 << slot;
    }
}

struct Mapping {
    virtual_page: u64,
    page: u64,
    index: u64,
    is_global: bool,
    /// The TLB's entry of the virtual page. No entry is without a mapping, so there are never too many.
    entry: Option<Entry>,
}

struct Entry {
    page: u64,
    kind: Kind,
    is_global: bool,
    era: u64,
}

/// The mappings of a processor, with a table that finds them by a hash of the virtual page.
struct Mappings {
    list: Vec<Mapping>,
    table: [u8; 2 * MOST_MAPPINGS],
}

impl Mappings {
    fn new() -> Self {
        Mappings { list: Vec::new(), table: [NO_SLOT; 2 * MOST_MAPPINGS] }
    }

    /// The place of a page in the table: that of its mapping, or a free one.
    fn probe(&self, virtual_page: u64) -> usize {
        let mut at = (virtual_page.wrapping_mul(0x9e37_79b9_7f4a_7c15) >> 57) as usize;
        while self.list.get(usize::from(self.table[at])).is_some_and(|mapping| mapping.virtual_page != virtual_page) {
            at = (at + 1) % self.table.len();
        }
        at
    }

    fn find(&mut self, virtual_page: u64) -> Option<&mut Mapping> {
        let place = self.table[self.probe(virtual_page)];
        self.list.get_mut(usize::from(place))
    }

    /// Adds a mapping, or replaces that of its page; false if there is no room.
    fn set(&mut self, mapping: Mapping) -> bool {
        if let Some(there) = self.find(mapping.virtual_page) {
            let entry = there.entry.take();
            *there = Mapping { entry, ..mapping };
        } else if self.list.len() < MOST_MAPPINGS {
            let at = self.probe(mapping.virtual_page);
            self.table[at] = self.list.len() as u8;
            self.list.push(mapping);
        } else {
            return false;
        }
        true
    }

    fn drop_entry(&mut self, virtual_page: u64) {
        if let Some(mapping) = self.find(virtual_page) {
            mapping.entry = None;
        }
    }

    fn drop_entries(&mut self, are_global_kept: bool) {
        for mapping in &mut self.list {
            mapping.entry = mapping.entry.take().filter(|entry| are_global_kept && entry.is_global);
        }
    }
}

#[derive(Clone, Copy, PartialEq, PartialOrd)]
enum Phase {
    Running,
    Taken,
    Arrived,
    Passed,
    NoFill,
    Flushed,
    TlbFlushed,
    Writing(usize),
    Enabled,
    FlushedAgain,
    TlbFlushedAgain,
    Normal,
    Restored,
    ArrivedAgain,
}

impl Phase {
    fn name(self) -> &'static str {
        match self {
            Phase::Running => "running",
            Phase::Taken => "taken",
            Phase::Arrived => "arrived",
            Phase::Passed => "passed",
            Phase::NoFill => "no-fill",
            Phase::Flushed => "flushed",
            Phase::TlbFlushed => "tlb-flushed",
            Phase::Writing(_) => "writing",
            Phase::Enabled => "enabled",
            Phase::FlushedAgain => "flushed-again",
            Phase::TlbFlushedAgain => "tlb-flushed-again",
            Phase::Normal => "normal",
            Phase::Restored => "restored",
            Phase::ArrivedAgain => "arrived-again",
        }
    }
}

struct Processor {
    registers: Registers,
    is_no_fill: bool,
    has_global: bool,
    had_global: bool,
    is_self_snooping: bool,
    phase: Phase,
    era: u64,
    cache: Cache,
    buffers: Vec<Held>,
    mappings: Mappings,
}

impl Processor {
    fn new(registers: Registers) -> Self {
        Processor {
            registers,
            is_no_fill: false,
            has_global: false,
            had_global: false,
            is_self_snooping: false,
            phase: Phase::Running,
            era: 0,
            cache: Cache::new(),
            buffers: Vec::with_capacity(MOST_BUFFERS),
            mappings: Mappings::new(),
        }
    }

    /// The physical address and the type of an access, by the TLB or, with a new entry, by the mapping.
    fn translate(&mut self, address: u64) -> Option<(u64, Kind)> {
        let (registers, era, has_global) = (&self.registers, self.era, self.has_global);
        let mapping = self.mappings.find(address >> 12)?;
        let (page, index, is_global) = (mapping.page, mapping.index, mapping.is_global && has_global);
        let entry = mapping.entry.get_or_insert_with(|| {
            let kind = effective(registers.kind_of(page).unwrap_or(Uc), registers.entry(index));
            Entry { page, kind, is_global, era }
        });
        Some((entry.page << 12 | address & 0xfff, entry.kind))
    }

    fn set_global(&mut self, is_on: bool) {
        if self.has_global != is_on {
            self.has_global = is_on;
            self.mappings.drop_entries(false);
        }
    }

    /// The slot of the oldest line with a dirty word.
    fn first_dirty(&self) -> Option<usize> {
        self.cache.slots().find(|&slot| self.cache.slots[slot].dirty != 0)
    }

    fn report(&self, number: usize, output: &mut Output) -> Result<(), Stop> {
        let lines: Vec<&Held> = self.cache.slots().map(|slot| &self.cache.slots[slot]).collect();
        let dirty = lines.iter().map(|held| held.dirty.count_ones() as u64).sum();
        let entries: Vec<&Entry> = self.mappings.list.iter().filter_map(|mapping| mapping.entry.as_ref()).collect();
        let eras = lines.iter().map(|held| held.era).chain(self.buffers.iter().map(|held| held.era));
        let stale = eras.chain(entries.iter().map(|entry| entry.era)).filter(|&era| era < self.era).count();
        output.append("cpu ").decimal(number as u64).append(" ").append(self.phase.name());
        let counts = [
            (" era ", self.era),
            (" lines ", lines.len() as u64),
            (" dirty ", dirty),
            (" buffers ", self.buffers.len() as u64),
            (" entries ", entries.len() as u64),
            (" stale ", stale as u64),
            (" cd ", self.is_no_fill.into()),
            (" pge ", self.has_global.into()),
        ];
        for (name, count) in counts {
            output.append(name).decimal(count);
        }
        output.end()
    }
}

/// An update under way. `is_go` is what the coordinator has said, if it has said anything.
struct Order {
    goal: Registers,
    numbers: Vec<u64>,
    from: u64,
    is_go: Option<bool>,
}

struct Machine {
    memory: Memory,
    processors: Vec<Processor>,
    /// For each line of memory the processors whose caches have it, a bit for each.
    holders: Vec<u16>,
    order: Option<Order>,
}

/// What a step was, or what it waits for.
enum Step {
    Did(&'static str),
    WroteBack(u64),
    Wrote(u64),
    Waits(usize, usize),
}

fn bits(mut set: u16) -> impl Iterator<Item = usize> {
    std::iter::from_fn(move || {
        let bit = (set != 0).then(|| set.trailing_zeros() as usize)?;
        set &= set - 1;
        Some(bit)
    })
}

impl Machine {
    fn new(count: usize, registers: &Registers) -> Self {
        let processors = (0..count).map(|_| Processor::new(registers.clone())).collect();
        Machine { memory: Memory::default(), processors, holders: Vec::new(), order: None }
    }

    /// Adds a window; false if there is no room for it.
    fn add_window(&mut self, base: u64, lines: u64) -> bool {
        let (bytes, place) = (64 * lines, self.memory.words.len());
        let is_inside = base.saturating_add(bytes) <= 1 << self.processors[0].registers.width;
        let is_apart = |window: &Window| base + bytes <= window.base || window.base + window.bytes <= base;
        let count = self.holders.len() + lines as usize;
        if !is_inside || !self.memory.windows.iter().all(is_apart) || self.memory.windows.len() == 16 || count > 4096 {
            return false;
        }
        self.memory.windows.push(Window { base, bytes, place });
        self.memory.words.resize(count * LINE_WORDS, 0);
        self.holders.resize(count, 0);
        for processor in &mut self.processors {
            processor.cache.slot_of.resize(count, NO_SLOT);
        }
        true
    }

    // The bus.

    /// Brings memory up to date for a line.
    fn read_bus(&mut self, line: usize) {
        for holder in bits(self.holders[line]) {
            let cache = &mut self.processors[holder].cache;
            if let Some(slot) = cache.find(line) {
                self.memory.write_back(&mut cache.slots[slot]);
            }
        }
    }

    /// Removes a line, with what of it memory lacks, from the caches of these processors.
    fn invalidate(&mut self, line: usize, processors: u16) {
        for holder in bits(self.holders[line] & processors) {
            let cache = &mut self.processors[holder].cache;
            if let Some(slot) = cache.find(line) {
                cache.remove(slot);
            }
        }
        self.holders[line] &= !processors;
    }

    /// Removes the line in a slot of a processor, after its dirty words went to memory.
    fn evict(&mut self, k: usize, slot: usize) {
        let cache = &mut self.processors[k].cache;
        self.memory.write_back(&mut cache.slots[slot]);
        self.holders[cache.slots[slot].line] &= !(1 << k);
        cache.remove(slot);
    }

    fn evict_all(&mut self, k: usize) {
        while let Some(slot) = self.processors[k].cache.oldest() {
            self.evict(k, slot);
        }
    }

    fn fill(&mut self, k: usize, line: usize) -> &mut Held {
        if self.processors[k].cache.free == 0 {
            if let Some(slot) = self.processors[k].cache.oldest() {
                self.evict(k, slot);
            }
        }
        self.holders[line] |= 1 << k;
        let processor = &mut self.processors[k];
        processor.cache.insert(Held { line, dirty: 0, era: processor.era, words: self.memory.line(line) })
    }

    fn empty(&mut self, k: usize, buffer: usize) {
        let mut held = self.processors[k].buffers.remove(buffer);
        self.read_bus(held.line);
        self.invalidate(held.line, !0);
        self.memory.write_back(&mut held);
    }

    fn empty_all(&mut self, k: usize) {
        while !self.processors[k].buffers.is_empty() {
            self.empty(k, 0);
        }
    }

    fn empty_of(&mut self, k: usize, line: usize) {
        if let Some(buffer) = self.processors[k].buffers.iter().position(|held| held.line == line) {
            self.empty(k, buffer);
        }
    }

    fn combine(&mut self, k: usize, line: usize, word: usize, value: u64) {
        let buffer = match self.processors[k].buffers.iter().position(|held| held.line == line) {
            Some(buffer) => buffer,
            None => {
                if self.processors[k].buffers.len() == MOST_BUFFERS {
                    self.empty(k, 0);
                }
                let processor = &mut self.processors[k];
                processor.buffers.push(Held { line, era: processor.era, ..Held::default() });
                processor.buffers.len() - 1
            }
        };
        self.processors[k].buffers[buffer].write(word, value);
        if self.processors[k].buffers[buffer].dirty == 0xff {
            self.empty(k, buffer);
        }
    }

    // Accesses.

    fn is_busy(&self, k: usize) -> bool {
        self.processors[k].phase != Phase::Running
    }

    /// The type of an access and the place of its word, or why there is none.
    fn access(&mut self, k: usize, address: u64) -> Result<(Kind, usize), &'static str> {
        if self.is_busy(k) {
            return Err("busy");
        }
        let (address, kind) = self.processors[k].translate(address).ok_or("unmapped")?;
        let place = self.memory.place(address).ok_or("no ram")?;
        Ok((kind, place))
    }

    fn load(&mut self, k: usize, address: u64) -> Result<(u64, Kind), &'static str> {
        let (kind, place) = self.access(k, address)?;
        let (line, word) = (place / LINE_WORDS, place % LINE_WORDS);
        if kind == Uc {
            self.empty_all(k);
        } else {
            self.empty_of(k, line);
        }
        if !matches!(kind, Uc | Wc) {
            let cache = &self.processors[k].cache;
            if let Some(slot) = cache.find(line) {
                return Ok((cache.slots[slot].words[word], kind));
            }
        }
        self.read_bus(line);
        if !matches!(kind, Uc | Wc) && !self.processors[k].is_no_fill {
            self.fill(k, line);
        }
        Ok((self.memory.words[place], kind))
    }

    fn store(&mut self, k: usize, address: u64, value: u64) -> Result<Kind, &'static str> {
        let (kind, place) = self.access(k, address)?;
        let (line, word) = (place / LINE_WORDS, place % LINE_WORDS);
        let others = !(1 << k);
        match kind {
            Wc => {
                self.combine(k, line, word, value);
                return Ok(kind);
            }
            Uc => self.empty_all(k),
            _ => self.empty_of(k, line),
        }
        let slot = self.processors[k].cache.find(line);
        if kind != Wb || slot.is_none() {
            self.read_bus(line);
        }
        self.invalidate(line, if matches!(kind, Wt | Wb) { others } else { !0 });
        match (kind, slot) {
            (Wb, Some(slot)) => self.processors[k].cache.slots[slot].write(word, value),
            (Wb, None) if !self.processors[k].is_no_fill => self.fill(k, line).write(word, value),
            (Wt, Some(slot)) => {
                self.processors[k].cache.slots[slot].words[word] = value;
                self.memory.words[place] = value;
            }
            _ => self.memory.words[place] = value,
        }
        Ok(kind)
    }

    // Updates.

    /// Does a whole update, and returns the new era.
    fn update(&mut self, goal: &Registers) -> u64 {
        for k in 0..self.processors.len() {
            self.empty_all(k);
        }
        for k in 0..self.processors.len() {
            self.evict_all(k);
            let processor = &mut self.processors[k];
            processor.mappings.drop_entries(false);
            processor.registers = goal.clone();
            processor.is_no_fill = false;
            processor.era += 1;
        }
        self.processors[0].era
    }

    fn call(&mut self, goal: Registers) {
        let numbers = goal.writable().collect();
        self.order = Some(Order { goal, numbers, from: self.processors[0].era, is_go: None });
    }

    /// Gives the go or cancels; false if there is no update to say so of.
    fn decide(&mut self, is_go: bool) -> bool {
        match &mut self.order {
            Some(order) if order.is_go.is_none() => order.is_go = Some(is_go),
            _ => return false,
        }
        self.end_update();
        true
    }

    /// Ends the update if every processor has released, or left.
    fn end_update(&mut self) {
        let Some(order) = &self.order else { return };
        let is_over = if order.is_go == Some(false) {
            self.processors.iter().all(|processor| !matches!(processor.phase, Phase::Taken | Phase::Arrived))
        } else {
            self.processors.iter().all(|processor| processor.era > order.from)
        };
        if is_over {
            self.order = None;
        }
    }

    /// How many processors are in these phases or have released.
    fn arrived(&self, from: u64, phase: Phase) -> usize {
        self.processors.iter().filter(|processor| processor.phase >= phase || processor.era > from).count()
    }

    fn step(&mut self, k: usize) -> Step {
        let Some(order) = &self.order else { return Step::Did("no update") };
        let (from, is_go, count) = (order.from, order.is_go, self.processors.len());
        let (next, did) = match self.processors[k].phase {
            Phase::Running if self.processors[k].era > from || is_go == Some(false) => return Step::Did("no update"),
            Phase::Running => {
                self.empty_all(k);
                (Phase::Taken, "take")
            }
            Phase::Taken | Phase::Arrived if is_go == Some(false) => {
                self.processors[k].phase = Phase::Running;
                self.end_update();
                return Step::Did("leave");
            }
            Phase::Taken => (Phase::Arrived, "arrive"),
            Phase::Arrived => match self.arrived(from, Phase::Arrived) + usize::from(is_go == Some(true)) {
                arrived if arrived <= count => return Step::Waits(arrived, count + 1),
                _ => (Phase::Passed, "pass"),
            },
            Phase::ArrivedAgain => match self.arrived(from, Phase::ArrivedAgain) {
                arrived if arrived < count => return Step::Waits(arrived, count),
                _ => {
                    self.processors[k].era += 1;
                    self.processors[k].phase = Phase::Running;
                    self.end_update();
                    return Step::Did("release");
                }
            },
            _ => return self.local_step(k),
        };
        self.processors[k].phase = next;
        Step::Did(did)
    }

    /// Does a step between the barriers.
    fn local_step(&mut self, k: usize) -> Step {
        let processor = &mut self.processors[k];
        let (next, did) = match processor.phase {
            Phase::Passed => {
                processor.is_no_fill = true;
                (Phase::NoFill, "no-fill")
            }
            Phase::NoFill if processor.is_self_snooping => return self.flush_tlb(k),
            Phase::NoFill => return self.flush(k, Phase::Flushed),
            Phase::Flushed => return self.flush_tlb(k),
            Phase::TlbFlushed => {
                processor.registers.default &= !ON;
                (Phase::Writing(0), "disable")
            }
            Phase::Writing(place) => return self.write_register(k, place),
            Phase::Enabled => return self.flush(k, Phase::FlushedAgain),
            Phase::FlushedAgain => {
                processor.mappings.drop_entries(true);
                (Phase::TlbFlushedAgain, "flush-tlb")
            }
            Phase::TlbFlushedAgain => {
                processor.is_no_fill = false;
                (Phase::Normal, "normal")
            }
            Phase::Normal => {
                processor.set_global(processor.had_global);
                processor.had_global = false;
                (Phase::Restored, "restore")
            }
            _ => (Phase::ArrivedAgain, "arrive-again"),
        };
        self.processors[k].phase = next;
        Step::Did(did)
    }

    /// Writes back a dirty word, or drops the lines if there is none.
    fn flush(&mut self, k: usize, next: Phase) -> Step {
        if let Some(slot) = self.processors[k].first_dirty() {
            let place = self.memory.write_back_word(&mut self.processors[k].cache.slots[slot]);
            return Step::WroteBack(self.memory.address(place));
        }
        self.evict_all(k);
        self.processors[k].phase = next;
        Step::Did("drop")
    }

    fn flush_tlb(&mut self, k: usize) -> Step {
        let processor = &mut self.processors[k];
        processor.had_global = processor.has_global;
        processor.set_global(false);
        processor.mappings.drop_entries(true);
        processor.phase = Phase::TlbFlushed;
        Step::Did("flush-tlb")
    }

    /// Writes the register of this place, or the last one, which enables the ranges.
    fn write_register(&mut self, k: usize, place: usize) -> Step {
        let Some(order) = &self.order else { return Step::Did("no update") };
        let processor = &mut self.processors[k];
        let number = order.numbers[place];
        if let Some(register) = processor.registers.register(number) {
            *register = order.goal.value(number);
        }
        if place + 1 == order.numbers.len() {
            processor.phase = Phase::Enabled;
            return Step::Did("enable");
        }
        processor.phase = Phase::Writing(place + 1);
        Step::Wrote(number)
    }
}

// A script.

#[derive(Clone, Copy, PartialEq)]
enum Stage {
    NeedCpus,
    NeedDump,
    InDump,
    Rams,
    Commands,
    InUpdate,
    InBegin,
}

const COMMANDS: &[Stage] = &[Stage::Commands, Stage::Rams];

/// What a line has behind its first word, where it may come, and what comes next.
struct Row {
    least: usize,
    most: usize,
    names_processor: bool,
    from: &'static [Stage],
    next: Stage,
}

impl Row {
    fn of(verb: &[u8]) -> Option<Row> {
        let row = |least, most, names_processor, from, next| Row { least, most, names_processor, from, next };
        let command = |least, most, names_processor| row(least, most, names_processor, COMMANDS, Stage::Commands);
        Some(match verb {
            b"load" | b"invlpg" | b"msr" | b"pge" | b"cd" => command(2, 2, true),
            b"store" => command(3, 3, true),
            b"step" | b"fence" | b"cr3" => command(1, 1, true),
            b"map" => command(4, 5, true),
            b"word" => command(1, 1, false),
            b"go" | b"cancel" | b"report" => command(0, 0, false),
            b"update" => row(0, 0, false, COMMANDS, Stage::InUpdate),
            b"begin" => row(0, 0, false, COMMANDS, Stage::InBegin),
            b"cpus" => row(1, 1, false, &[Stage::NeedCpus], Stage::NeedDump),
            b"dump" => row(0, 0, false, &[Stage::NeedDump], Stage::InDump),
            b"ram" => row(2, 2, false, &[Stage::Rams], Stage::Rams),
            b"selfsnoop" => row(1, 1, true, &[Stage::Rams], Stage::Rams),
            _ => return None,
        })
    }
}

struct Script {
    stage: Stage,
    count: usize,
    dump: Dump,
    machine: Machine,
    goal: Registers,
    given: Vec<u64>,
    output: Output,
}

impl Script {
    fn new(output: Output) -> Self {
        let none = Registers::new(36, 0);
        let (dump, machine) = (Dump::default(), Machine::new(0, &none));
        Script { stage: Stage::NeedCpus, count: 0, dump, machine, goal: none, given: Vec::new(), output }
    }

    fn line(&mut self, words: &Words) -> Result<(), Stop> {
        let is_end = words.count == 1 && words.list[0] == b"end";
        match self.stage {
            Stage::InDump if is_end => self.end_dump(words),
            Stage::InDump => self.dump.read(words),
            Stage::InUpdate | Stage::InBegin if is_end => self.end_section(),
            Stage::InUpdate | Stage::InBegin => self.read_goal(words),
            _ => self.command(words),
        }
    }

    fn end_dump(&mut self, words: &Words) -> Result<(), Stop> {
        let registers = self.dump.registers().ok_or_else(|| words.fault(0, "no cap"))?;
        if let Some(fault) = registers.first_fault() {
            return Err(Stop::Refused(fault));
        }
        self.machine = Machine::new(self.count, &registers);
        self.stage = Stage::Rams;
        self.output.line("accepted")
    }

    fn read_goal(&mut self, words: &Words) -> Result<(), Stop> {
        words.has(1, 1)?;
        let name = words.list[0].strip_suffix(b":").unwrap_or(words.list[0]);
        let number = hex(name).ok_or_else(|| words.fault(0, "bad number"))?;
        let value = words.hex(1)?;
        let register = self.goal.register(number).ok_or_else(|| words.fault(0, "unknown register"))?;
        if self.given.contains(&number) {
            return Err(words.fault(0, "repeated"));
        }
        self.given.push(number);
        *register = value;
        Ok(())
    }

    fn end_section(&mut self) -> Result<(), Stop> {
        let is_whole = self.stage == Stage::InUpdate;
        self.stage = Stage::Commands;
        if self.machine.order.is_some() {
            return self.output.line("under way");
        }
        if let Some(fault) = self.goal.first_fault() {
            return self.output.refused(&fault);
        }
        if !is_whole {
            self.machine.call(self.goal.clone());
            return self.output.line("called");
        }
        let era = self.machine.update(&self.goal);
        self.output.append("complete ").decimal(era).end()
    }

    fn command(&mut self, words: &Words) -> Result<(), Stop> {
        let verb = words.list[0];
        let Some(row) = Row::of(verb) else {
            let is_left_out = matches!(verb, b"up" | b"join" | b"retire");
            return Err(if is_left_out { Stop::LeftOut } else { words.fault(0, "bad line") });
        };
        words.has(row.least, row.most)?;
        let is_on = matches!(verb, b"pge" | b"cd") && words.is_on(2)?;
        if words.count == 6 && words.list[5] != b"global" {
            return Err(words.fault(5, "bad line"));
        }
        if !row.from.contains(&self.stage) {
            return Err(words.fault(0, "not now"));
        }
        self.stage = row.next;
        let k = if row.names_processor { words.decimal(1, 0, self.count as u64 - 1)? as usize } else { 0 };
        match verb {
            b"load" => self.load(k, words.address(2, 8, 48)?),
            b"store" => self.store(k, words.address(2, 8, 48)?, words.hex(3)?),
            b"step" => self.step(k),
            b"map" => self.map(k, words),
            b"word" => self.word(words.address(1, 8, self.width())?),
            b"msr" => self.register(k, words),
            b"report" => self.report(),
            b"go" | b"cancel" => self.decide(verb == b"go"),
            b"cpus" | b"dump" | b"ram" | b"selfsnoop" | b"update" | b"begin" => self.set_up(k, words),
            b"invlpg" => {
                let page = words.address(2, 1, 48)? >> 12;
                self.serialize(k, "ok", |processor| processor.mappings.drop_entry(page))
            }
            b"fence" => self.serialize(k, "fenced", |_| ()),
            b"cr3" => self.serialize(k, "ok", |processor| processor.mappings.drop_entries(true)),
            b"pge" => self.serialize(k, "ok", |processor| processor.set_global(is_on)),
            _ => self.serialize(k, "ok", |processor| processor.is_no_fill = is_on),
        }
    }

    /// Takes a line that writes nothing.
    fn set_up(&mut self, k: usize, words: &Words) -> Result<(), Stop> {
        match words.list[0] {
            b"cpus" => self.count = words.decimal(1, 1, 16)? as usize,
            b"ram" => {
                let base = words.hex(1)?;
                if base % 64 != 0 {
                    return Err(words.fault(1, "out of range"));
                }
                let lines = words.decimal(2, 1, 4096)?;
                if !self.machine.add_window(base, lines) {
                    return Err(words.fault(2, "out of range"));
                }
            }
            b"selfsnoop" => self.machine.processors[k].is_self_snooping = true,
            b"update" | b"begin" => {
                self.goal = self.machine.processors[0].registers.clone();
                self.given.clear();
            }
            _ => {}
        }
        Ok(())
    }

    fn load(&mut self, k: usize, address: u64) -> Result<(), Stop> {
        match self.machine.load(k, address) {
            Ok((value, kind)) => self.output.append("value ").hex(value, 16).append(" ").line(kind.name()),
            Err(why) => self.output.line(why),
        }
    }

    fn store(&mut self, k: usize, address: u64, value: u64) -> Result<(), Stop> {
        match self.machine.store(k, address, value) {
            Ok(kind) => self.output.append("stored ").line(kind.name()),
            Err(why) => self.output.line(why),
        }
    }

    fn step(&mut self, k: usize) -> Result<(), Stop> {
        match self.machine.step(k) {
            Step::Did(did) => self.output.line(did),
            Step::WroteBack(address) => self.output.append("write-back ").hex(address, 13).end(),
            Step::Wrote(register) => self.output.append("write ").hex(register, 3).end(),
            Step::Waits(arrived, of) => self.output.append("waits ").decimal(arrived as u64).append(" of ").decimal(of as u64).end(),
        }
    }

    /// Does a serializing instruction, which prints this if the processor isn't busy.
    fn serialize(&mut self, k: usize, answer: &str, change: impl FnOnce(&mut Processor)) -> Result<(), Stop> {
        if self.machine.is_busy(k) {
            return self.output.line("busy");
        }
        self.machine.empty_all(k);
        change(&mut self.machine.processors[k]);
        self.output.line(answer)
    }

    fn map(&mut self, k: usize, words: &Words) -> Result<(), Stop> {
        let virtual_page = words.address(2, 4096, 48)? >> 12;
        let page = words.address(3, 4096, self.width())? >> 12;
        let index = words.decimal(4, 0, 7)?;
        let mapping = Mapping { virtual_page, page, index, is_global: words.count == 6, entry: None };
        if self.machine.is_busy(k) {
            return self.output.line("busy");
        }
        let is_set = self.machine.processors[k].mappings.set(mapping);
        self.output.line(if is_set { "ok" } else { "full" })
    }

    fn width(&self) -> u32 {
        self.machine.processors[0].registers.width
    }

    fn decide(&mut self, is_go: bool) -> Result<(), Stop> {
        let was_open = self.machine.decide(is_go);
        self.output.line(if !was_open { "no" } else if is_go { "go" } else { "cancelled" })
    }

    fn word(&mut self, address: u64) -> Result<(), Stop> {
        match self.machine.memory.place(address) {
            Some(place) => self.output.append("memory ").hex(self.machine.memory.words[place], 16).end(),
            None => self.output.line("no ram"),
        }
    }

    fn register(&mut self, k: usize, words: &Words) -> Result<(), Stop> {
        let number = words.hex(2)?;
        let registers = &mut self.machine.processors[k].registers;
        if number != CAPABILITIES && registers.register(number).is_none() {
            return Err(words.fault(2, "unknown register"));
        }
        let value = registers.value(number);
        self.output.hex(number, 3).append(" ").hex(value, 16).end()
    }

    fn report(&mut self) -> Result<(), Stop> {
        let processors = &self.machine.processors;
        for (k, processor) in processors.iter().enumerate() {
            processor.report(k, &mut self.output)?;
        }
        let are_same = processors.iter().all(|processor| processor.registers == processors[0].registers);
        self.output.line(if are_same { "registers same" } else { "registers differ" })
    }
}

// The program.

fn check(lines: &mut Lines<impl BufRead>, output: &mut Output) -> Result<(), Stop> {
    let mut dump = Dump::default();
    while lines.advance()? {
        let words = lines.words();
        if words.count > 0 {
            dump.read(&words)?;
        }
    }
    let registers = dump.registers().ok_or_else(|| lines.at_end("no cap"))?;
    registers.first_fault().map_or(Ok(()), |fault| Err(Stop::Refused(fault)))?;
    output.line("accepted")
}

fn replay(lines: &mut Lines<impl BufRead>, script: &mut Script) -> Result<(), Stop> {
    while lines.advance()? {
        let words = lines.words();
        if words.count > 0 {
            script.line(&words)?;
        }
    }
    if matches!(script.stage, Stage::Rams | Stage::Commands) { Ok(()) } else { Err(lines.at_end("no end")) }
}

/// Writes the line that the end of a run prints, and returns its status.
fn conclude(result: Result<(), Stop>, output: &mut Output) -> Result<u8, Stop> {
    let status = match result {
        Ok(()) => 0,
        Err(Stop::Refused(fault)) => {
            output.refused(&fault)?;
            1
        }
        Err(Stop::BadText { line, column, reason }) => {
            output.append("bad text ").decimal(line as u64).append(":").decimal(column as u64).append(" ").line(reason)?;
            3
        }
        Err(Stop::ReadFault) => 4,
        Err(Stop::WriteFault) => 5,
        Err(Stop::TooLong) => 7,
        Err(Stop::LeftOut) => 70,
    };
    output.flush()?;
    Ok(status)
}

fn run(command: &str) -> io::Result<u8> {
    let file = File::from(io::stdout().as_fd().try_clone_to_owned()?);
    let mut output = Output { file, text: Vec::with_capacity(Output::PIECE + 256) };
    let mut lines = Lines::new(BufReader::with_capacity(1 << 16, io::stdin().lock()));
    let status = match command {
        "check" => {
            let result = check(&mut lines, &mut output);
            conclude(result, &mut output)
        }
        "replay" => {
            let mut script = Script::new(output);
            let result = replay(&mut lines, &mut script);
            conclude(result, &mut script.output)
        }
        _ => return Ok(2),
    };
    Ok(status.unwrap_or(5))
}

fn main() -> ExitCode {
    let mut words = std::env::args().skip(1);
    match (words.next(), words.next()) {
        (Some(command), None) => run(&command).unwrap_or(4).into(),
        _ => 2.into(),
    }
}
