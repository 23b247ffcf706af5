#![doc = include_str!("../README.md")]
#![no_std]
#![deny(missing_docs, unsafe_op_in_unsafe_fn)]

mod error;
mod map;
mod registers;
mod sys;
mod update;

pub use error::{Error, Fault, Register};
pub use map::{Parts, Run, Runs, TypeMap};
pub use registers::{ANY_CHUNK, MemoryType, Registers, Rounded, Tidied, Work};
pub use update::{Action, Due, Processor, Step, Update};

// The library keeps no state and has no thread of its own. It reads through shared borrows and writes through mutable ones alone, so
// the compiler's own rule for structs of integers is right: all types are `Send` and `Sync`.
const _: fn() = || {
    fn is_send_and_sync<T: Send + Sync>() {}
    is_send_and_sync::<(Registers, Work, TypeMap, Tidied, Rounded)>();
    is_send_and_sync::<(Update<[Processor; 1]>, Step, Error)>();
};
