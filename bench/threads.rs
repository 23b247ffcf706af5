//! What an update on threads takes in plain Rust: `threads PROCESSORS UPDATES WORDS`, over the standard library alone.
//! Each update starts a scoped thread for each processor. They meet at two counts, between which each writes its registers and stores its
//! dirty line. Then they are joined. With WORDS above 0 memory has so many words, and they are copied into atomic words and back at each
//! update, as `mtrr` does if a cache has a line.
use std::sync::atomic::{AtomicU64, Ordering::SeqCst};
use std::thread;

const LINE_WORDS: usize = 8;

struct Processor {
    registers: [u64; 29],
    line: [u64; LINE_WORDS],
    era: u64,
}

/// The two counts of the meetings, and the words of memory.
struct Table {
    arrived: AtomicU64,
    done: AtomicU64,
    words: Vec<AtomicU64>,
}

fn wait(count: &AtomicU64, awaited: u64) {
    while count.load(SeqCst) < awaited {
        thread::yield_now();
    }
}

fn take_part(place: usize, processor: &mut Processor, goal: &[u64; 29], table: &Table, processors: u64) {
    table.arrived.fetch_add(1, SeqCst);
    wait(&table.arrived, processors + 1);
    let words = table.words.iter().skip(place * LINE_WORDS);
    for (word, value) in words.zip(processor.line) {
        word.store(value, SeqCst);
    }
    processor.registers = *goal;
    table.done.fetch_add(1, SeqCst);
    wait(&table.done, processors);
    processor.era += 1;
}

fn update(processors: &mut [Processor], goal: &[u64; 29], memory: &mut [u64]) {
    let words = memory.iter().map(|&word| AtomicU64::new(word)).collect();
    let table = Table { arrived: AtomicU64::new(0), done: AtomicU64::new(0), words };
    let count = processors.len() as u64;
    thread::scope(|scope| {
        for (place, processor) in processors.iter_mut().enumerate() {
            let table = &table;
            scope.spawn(move || take_part(place, processor, goal, table, count));
        }
        table.arrived.fetch_add(1, SeqCst);
    });
    for (word, value) in memory.iter_mut().zip(table.words) {
        *word = value.into_inner();
    }
}

fn main() {
    let numbers: Vec<usize> = std::env::args().skip(1).filter_map(|word| word.parse().ok()).collect();
    let &[count, updates, words] = &numbers[..] else { panic!("threads PROCESSORS UPDATES WORDS") };
    let mut processors: Vec<Processor> = (0..count).map(|_| Processor { registers: [0; 29], line: [1; LINE_WORDS], era: 0 }).collect();
    let mut memory = vec![0; words];
    for number in 0..updates {
        update(&mut processors, &[number as u64; 29], &mut memory);
    }
    let sum: u64 = memory.iter().sum();
    println!("{} {} {sum}", processors[0].era, processors[0].registers[28]);
}
