//! Prints the registers of a guest, as a dump that `mtrr` reads:
//!
//!     cargo run --offline --bin show 6 | mtrr types      # with 6 GB of RAM
use guest::{guest_registers, usual_map};
use std::process::ExitCode;

fn main() -> ExitCode {
    let gigabytes: u64 = std::env::args().nth(1).and_then(|word| word.parse().ok()).unwrap_or(6);
    let map = usual_map(gigabytes << 30, (0xd000_0000, 0x100_0000));
    match guest_registers(&map, 40, 0x508, 1, &mut Box::new(mtrr::Work::new())) {
        Ok(tidied) => print!("# {} pairs\n{}", tidied.used, tidied.registers),
        Err(error) => {
            eprintln!("show: {error}");
            return ExitCode::FAILURE;
        }
    }
    ExitCode::SUCCESS
}
