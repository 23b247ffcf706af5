//! The MTRRs of a guest, for a VMM or a firmware to set: from a map of its memory, in the fewest pairs, and checked.
//! It uses neither `std` nor an allocator.
#![no_std]
use mtrr::{ANY_CHUNK, Error, MemoryType, Registers, Tidied, Work};

/// Memory of one type. All else is UC, such as the hole below 4 GB with the APICs.
pub struct Region {
    pub start: u64,
    pub end: u64,
    pub kind: MemoryType,
}

/// RAM below the hole and from 4 GB on, and a frame buffer in the hole.
pub fn usual_map(ram: u64, frame_buffer: (u64, u64)) -> [Region; 3] {
    const HOLE: u64 = 0xc000_0000;
    const TOP: u64 = 1 << 32;
    let (start, size) = frame_buffer;
    [
        Region { start: 0, end: ram.min(HOLE), kind: MemoryType::Wb },
        Region { start: TOP, end: TOP + ram.saturating_sub(HOLE), kind: MemoryType::Wb },
        Region { start, end: start + size, kind: MemoryType::Wc },
    ]
}

/// The largest block of a power of two that begins at `start` and ends before `end`.
fn block(start: u64, end: u64) -> u64 {
    let fits = 1 << (end - start).ilog2();
    if start == 0 { fits } else { fits.min(1 << start.trailing_zeros()) }
}

/// The registers of a processor with this address width and capability register, and how many pairs they use. `spare` pairs stay
/// free for the guest. The fixed-range registers are on, with WB in RAM and UC from a0000 to fffff.
pub fn guest_registers(map: &[Region], width: u32, capabilities: u64, spare: u8, work: &mut Work) -> Result<Tidied, Error> {
    // more pairs than the guest has: `tidy` finds the fewest, and says if they are too many
    let has = (capabilities & 0xff) as u8;
    let mut all = Registers::new(width, capabilities & !0xff | 32)?;
    let mut pair = 0;
    for region in map {
        let mut start = region.start;
        while start < region.end {
            let size = block(start, region.end);
            all.set_pair(pair, start, size, region.kind)?;
            (start, pair) = (start + size, pair + 1);
        }
    }
    if capabilities & 0x100 != 0 {
        for number in [0x250, 0x258] {
            all.set(number, 0x0606_0606_0606_0606)?;
        }
    }
    all.set(0x2ff, if capabilities & 0x100 != 0 { 0xc00 } else { 0x800 })?;
    let least = all.tidy(32_u8.saturating_sub(has).saturating_add(spare), ANY_CHUNK, work)?;

    // the valid pairs are first, so the guest's own registers hold them
    let value = |number| if number == 0xfe { Some(capabilities) } else { least.registers.get(number) };
    let registers = Registers::read(width, |number| value(number).unwrap_or_default())?;
    match registers.first_fault() {
        Some(fault) => Err(fault.into()),
        None => Ok(Tidied { registers, ..least }),
    }
}
