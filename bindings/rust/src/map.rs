//! Runs of pages of one type.
use core::iter::FusedIterator;

use crate::MemoryType;
use crate::sys::{self, MAX_PARTS, MAX_RUNS};

/// Pages of one type that follow each other.
///
/// ```
/// let registers: mtrr::Registers = "0fe 508\n200 6\n201 f00000800\n2ff 800".parse()?;
/// let run = registers.type_map()?.next().unwrap();
/// assert_eq!(run, mtrr::Run { start: 0, end: 0x100000000, kind: Some(mtrr::MemoryType::Wb) });
/// # Ok::<(), mtrr::Error>(())
/// ```
#[derive(Clone, Copy, Debug, PartialEq, Eq, Hash)]
pub struct Run {
    /// The first address.
    pub start: u64,
    /// The address behind the last one.
    pub end: u64,
    /// The type, or `None` if pairs meet here with no defined type.
    pub kind: Option<MemoryType>,
}

/// An iterator of up to `N` runs, in ascending order. It has them itself, in 24 bytes each.
///
/// ```
/// let mut runs = "0fe 508\n2ff 800".parse::<mtrr::Registers>()?.type_map()?;
/// assert_eq!((runs.len(), runs.next().is_some(), runs.len()), (1, true, 0));
/// # Ok::<(), mtrr::Error>(())
/// ```
#[derive(Clone)]
pub struct Runs<const N: usize> {
    runs: [sys::Run; N],
    next: usize,
    end: usize,
}

/// The type of each page, once: the runs are as long as can be. Cloned it begins where it is.
///
/// ```
/// use mtrr::{MemoryType, TypeMap};
/// fn bytes_of(map: TypeMap, kind: MemoryType) -> u64 {
///     map.filter(|run| run.kind == Some(kind)).map(|run| run.end - run.start).sum()
/// }
/// let registers: mtrr::Registers = "0fe 508\n200 6\n201 f00000800\n2ff 800".parse()?;
/// assert_eq!(bytes_of(registers.type_map()?, MemoryType::Wb), 4 << 30);
/// # Ok::<(), mtrr::Error>(())
/// ```
pub type TypeMap = Runs<MAX_RUNS>;

/// The runs that lose their type by a rounding.
///
/// ```
/// fn say(parts: mtrr::Parts) {
///     parts.for_each(|part| println!("{:x}-{:x} gets UC", part.start, part.end - 1));
/// }
/// ```
pub type Parts = Runs<MAX_PARTS>;

impl<const N: usize> Runs<N> {
    pub(crate) fn room() -> [sys::Run; N] {
        [sys::Run { first: 0, pages: 0, kind: 0 }; N]
    }

    pub(crate) fn new(runs: [sys::Run; N], count: usize) -> Runs<N> {
        Runs { runs, next: 0, end: count.min(N) }
    }
}

impl<const N: usize> Iterator for Runs<N> {
    type Item = Run;

    fn next(&mut self) -> Option<Run> {
        let run = self.runs[..self.end].get(self.next)?;
        self.next += 1;
        Some(Run { start: run.first * 4096, end: (run.first + run.pages) * 4096, kind: MemoryType::of(run.kind) })
    }

    fn size_hint(&self) -> (usize, Option<usize>) {
        (self.end - self.next, Some(self.end - self.next))
    }
}

impl<const N: usize> ExactSizeIterator for Runs<N> {}

impl<const N: usize> FusedIterator for Runs<N> {}

impl<const N: usize> core::fmt::Debug for Runs<N> {
    fn fmt(&self, f: &mut core::fmt::Formatter<'_>) -> core::fmt::Result {
        f.debug_list().entries(self.clone()).finish()
    }
}
