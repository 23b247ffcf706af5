//! The same as `bench/calls.c` of the repository, by this crate.
use mtrr::{ANY_CHUNK, MemoryType, Registers, Work};
use std::hint::black_box;
use std::time::Instant;

fn least(calls: u32, mut call: impl FnMut()) -> f64 {
    let mut rounds = [0.0; 500];
    for took in &mut rounds {
        let start = Instant::now();
        (0..calls).for_each(|_| call());
        *took = start.elapsed().as_nanos() as f64 / f64::from(calls);
    }
    rounds.into_iter().fold(f64::MAX, f64::min)
}

fn main() -> Result<(), mtrr::Error> {
    let mut cpu = Registers::new(36, 0x508)?;
    cpu.set_pair(0, 0, 1 << 31, MemoryType::Wb)?;
    cpu.set_pair(1, 1 << 31, 1 << 30, MemoryType::Wb)?;
    cpu.set(0x2ff, 0x800)?;
    let mut work = Box::new(Work::new());
    let page = least(1000, || {
        let _ = black_box(black_box(&cpu).type_at(0xfee0_0000));
    });
    let tidy = least(100, || {
        let _ = black_box(black_box(&cpu).tidy(1, ANY_CHUNK, &mut work));
    });
    println!("Rust: type_at {page:.0} ns, tidy {tidy:.0} ns");
    Ok(())
}
