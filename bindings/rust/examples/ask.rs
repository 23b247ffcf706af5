//! Asks a dump on standard input, as `mtrr` does: `check`, `types`, `page ADDR INDEX`, `tidy [CHUNK]` or `gran SIZE [CHUNK]`.
//! Of several processors it takes the first.
//!
//!     cargo run --example ask types < ordinary-pc.dump
use mtrr::{Error, Fault, MemoryType, Registers, Run, Tidied, Work};
use std::io::{Read, stdin};
use std::process::ExitCode;

/// The lines of processor 0.
fn first_section(text: &str) -> String {
    let mut is_first = true;
    let mut section = String::new();
    for line in text.lines() {
        let mut words = line.split_whitespace();
        match words.next() {
            Some("cpu") => is_first = words.next() == Some("0"),
            Some("version") => {}
            _ if is_first => section += &format!("{line}\n"),
            _ => {}
        }
    }
    section
}

fn name(kind: Option<MemoryType>) -> String {
    kind.map_or("UNDEFINED".into(), |kind| kind.to_string())
}

/// A type of the PAT, which has one more.
fn pat_name(byte: u8) -> String {
    if byte == 7 { "UC-".into() } else { name(MemoryType::from_byte(byte)) }
}

fn run_text(run: Run) -> String {
    format!("{:013x}-{:013x} {}", run.start, run.end - 1, name(run.kind))
}

fn reason(fault: Fault) -> &'static str {
    match fault {
        Fault::ReservedBit(_) => "reserved bit",
        Fault::UnsupportedType(_) => "unsupported type",
        Fault::BrokenMask(_) => "broken mask",
        Fault::UndefinedOverlap(_) => "undefined overlap",
    }
}

fn page(registers: &Registers, address: u64, entry: u32) -> Result<(), Error> {
    let kind = registers.type_at(address)?;
    let effective = registers.effective_type_at(address, entry)?;
    let pat = pat_name((registers.get(0x277).unwrap_or_default() >> (8 * entry)) as u8);
    println!("page {:013x} mtrr {kind} pat {pat} effective {effective}", address & !0xfff);
    Ok(())
}

fn say(tidied: Tidied) {
    print!("# used {}\n{}", tidied.used, tidied.registers);
}

fn answer(registers: &Registers, words: &[String]) -> Result<(), Error> {
    let number = |place, usual| words.get(place).map_or(usual, |word: &String| u64::from_str_radix(word, 16).unwrap_or(usual));
    let mut work = Box::new(Work::new());
    if let Some(fault) = registers.first_fault() {
        return Err(fault.into());
    }
    match words.first().map(String::as_str) {
        Some("types") => registers.type_map()?.for_each(|run| println!("{}", run_text(run))),
        Some("page") => page(registers, number(1, 0), number(2, 0) as u32)?,
        Some("tidy") => say(registers.tidy(1, number(1, 0x10000000), &mut work)?),
        Some("gran") => {
            let rounded = registers.gran(number(1, 0), 1, number(2, 0x10000000), &mut work)?;
            rounded.parts.for_each(|part| println!("# part {}", run_text(part)));
            println!("# lost {}", rounded.lost_pages);
            say(rounded.tidied);
        }
        _ => println!("accepted"),
    }
    Ok(())
}

fn main() -> ExitCode {
    let mut text = String::new();
    if stdin().read_to_string(&mut text).is_err() {
        return ExitCode::from(4);
    }
    let words: Vec<String> = std::env::args().skip(1).collect();
    let registers: Registers = match first_section(&text).parse() {
        Ok(registers) => registers,
        Err(error) => {
            eprintln!("{error}");
            return ExitCode::from(3);
        }
    };
    match answer(&registers, &words) {
        Ok(()) => return ExitCode::SUCCESS,
        Err(Error::Fault(fault)) => println!("refused {:03x} {}", fault.register().0, reason(fault)),
        Err(Error::Disabled) => println!("disabled 2ff {:016x}", registers.get(0x2ff).unwrap_or_default()),
        Err(Error::TooFew { needs, has }) => println!("too few needs {needs} has {has}"),
        Err(error) => eprintln!("{error}"),
    }
    ExitCode::FAILURE
}
