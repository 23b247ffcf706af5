//! Updates of the range registers of all processors, step by step.
use crate::{Error, Registers, sys};

/// What a processor carries out.
///
/// ```
/// use mtrr::{Action, Registers};
/// fn carry_out(action: Action, goal: &Registers, wrmsr: impl Fn(u32, u64), wbinvd: impl Fn()) {
///     match action {
///         Action::Write(place) => goal.at(place).into_iter().for_each(|(number, value)| wrmsr(number, value)),
///         Action::FlushCaches => wbinvd(),
///         _ => todo!("and so on"),
///     }
/// }
/// ```
#[derive(Clone, Copy, Debug, PartialEq, Eq, Hash)]
pub enum Action {
    /// Turn interrupts off, and fence.
    Take,
    /// Nothing: the books count the processor at the first barrier.
    Arrive,
    /// Turn interrupts on: the update was cancelled.
    Leave,
    /// Nothing: go on.
    Pass,
    /// CR0.CD = 1, CR0.NW = 0.
    SetNoFill,
    /// WBINVD.
    FlushCaches,
    /// The first time CR4.PGE = 0 where it is 1; else reload CR3.
    FlushTlb,
    /// Clear E of the default type.
    Disable,
    /// Write the register at this place: [`Registers::at`].
    Write(u32),
    /// Write the default type, E with it: register 2ff.
    Enable,
    /// CR0.CD = 0.
    SetNormal,
    /// CR4.PGE as before.
    RestorePge,
    /// Nothing: the books count the processor at the second barrier.
    ArriveAgain,
    /// Turn interrupts on: the processor is through.
    Release,
}

impl Action {
    fn of(step: &sys::Step) -> Option<Action> {
        use Action::*;
        let before = [Take, Arrive, Leave, Pass, SetNoFill, FlushCaches, FlushTlb, Disable, Write(step.place)];
        let behind = [Enable, SetNormal, RestorePge, ArriveAgain, Release];
        before.into_iter().chain(behind).nth((step.number as usize).wrapping_sub(1))
    }
}

/// A step that is due. Carry out its action, and hand it to [`Update::did`], which consumes it: no step is booked twice.
///
/// ```
/// use mtrr::{Action, Due, Processor, Registers, Update};
/// let goal = Registers::new(36, 0x508)?;
/// let update = Update::new([Processor::new(&goal, false)]);
/// let Due::Step(step) = update.due(0) else { panic!() };
/// assert_eq!(step.action(), Action::Take);
/// # Ok::<(), mtrr::Error>(())
/// ```
#[derive(PartialEq, Eq)]
#[must_use]
pub struct Step {
    action: Action,
    words: sys::Step,
}

impl Step {
    /// What the processor carries out.
    ///
    /// ```
    /// fn is_write(step: &mtrr::Step) -> bool {
    ///     matches!(step.action(), mtrr::Action::Write(_))
    /// }
    /// ```
    pub fn action(&self) -> Action {
        self.action
    }
}

/// What a processor does next.
///
/// ```
/// use mtrr::{Due, Processor, Registers, Update};
/// let mut update = Update::new([Processor::new(&Registers::new(36, 0x508)?, false)]);
/// assert!(update.cancel());
/// assert!(matches!(update.due(0), Due::Through));
/// # Ok::<(), mtrr::Error>(())
/// ```
#[must_use]
pub enum Due {
    /// This step.
    Step(Step),
    /// It waits at a barrier: ask again.
    Wait,
    /// Nothing more: it is through with the update, or the update was cancelled and it has left.
    Through,
}

/// Where a processor is in an update.
///
/// ```
/// let goal = mtrr::Registers::new(36, 0x508)?;
/// let processors = vec![mtrr::Processor::new(&goal, true); 4];
/// # drop(processors);
/// # Ok::<(), mtrr::Error>(())
/// ```
#[derive(Clone, Copy)]
pub struct Processor(sys::Processor);

impl Processor {
    /// A processor with the registers of `goal`. `self_snoop` is CPUID.1:EDX bit 27.
    ///
    /// ```
    /// # let cpuid_1_edx = 1u32 << 27;
    /// let processor = mtrr::Processor::new(&mtrr::Registers::new(36, 0x508)?, cpuid_1_edx >> 27 & 1 == 1);
    /// # let _ = processor;
    /// # Ok::<(), mtrr::Error>(())
    /// ```
    pub fn new(goal: &Registers, self_snoop: bool) -> Processor {
        let (registers, self_snoop) = (goal.count(), self_snoop.into());
        Processor(sys::Processor { phase: 0, place: 0, registers, self_snoop, finished: 0 })
    }
}

/// An update with the books of all its processors, which are an array, a `Vec` or a slice. Keep it in a lock that all processors
/// share, and carry steps out without the lock. Nothing but these calls changes the books.
///
/// ```
/// use mtrr::{Due, Processor, Registers, Update};
/// let goal = Registers::new(36, 0x502)?;
/// let mut update = Update::new([Processor::new(&goal, true); 2]);
/// assert!(update.go());
/// let mut actions = Vec::new();
/// while !(0..2).all(|k| matches!(update.due(k), Due::Through)) {
///     for k in 0..2 {
///         if let Due::Step(step) = update.due(k) {
///             actions.push(step.action());
///             update.did(k, step)?;
///         }
///     }
/// }
/// assert_eq!(actions.len(), 2 * 29);
/// # Ok::<(), mtrr::Error>(())
/// ```
pub struct Update<P> {
    words: sys::Update,
    processors: P,
}

impl<P: AsRef<[Processor]> + AsMut<[Processor]>> Update<P> {
    /// The books of an update that begins. It starts each processor anew.
    ///
    /// ```
    /// let goal = mtrr::Registers::new(36, 0x508)?;
    /// let update = mtrr::Update::new(vec![mtrr::Processor::new(&goal, true); 64]);
    /// assert!(!update.is_changing(63));
    /// # Ok::<(), mtrr::Error>(())
    /// ```
    pub fn new(mut processors: P) -> Update<P> {
        let all = processors.as_mut();
        all.iter_mut().for_each(|p| p.0 = sys::Processor { phase: 0, place: 0, finished: 0, ..p.0 });
        let words = sys::Update { word: 0, processors: all.len() as u32, arrived: 0, arrived_again: 0 };
        Update { words, processors }
    }

    /// What processor `k` does next. Panics if there is no such processor.
    ///
    /// ```
    /// # let goal = mtrr::Registers::new(36, 0x508)?;
    /// # let update = mtrr::Update::new([mtrr::Processor::new(&goal, true)]);
    /// if let mtrr::Due::Step(step) = update.due(0) {
    ///     println!("{:?}", step.action());
    /// }
    /// # Ok::<(), mtrr::Error>(())
    /// ```
    pub fn due(&self, k: usize) -> Due {
        let processor = &self.processors.as_ref()[k].0;
        let mut words = sys::Step { number: 0, place: 0, next_phase: 0, next_place: 0 };
        // SAFETY: all three are initialized and apart, and a mutable borrow is nobody else's.
        let status = unsafe { sys::mtrr_due(&self.words, processor, &mut words) };
        match (status, Action::of(&words)) {
            (0, Some(action)) => Due::Step(Step { action, words }),
            _ if processor.finished == 1 || (processor.phase == 0 && self.words.word == 2) => Due::Through,
            _ => Due::Wait,
        }
    }

    /// Books a step that processor `k` has carried out. Panics if there is no such processor.
    ///
    /// Returns [`Error::NotDue`] if it is not due, and then nothing was changed. This happens if the update was cancelled after
    /// [`Update::due`] returned [`Action::Take`] or [`Action::Arrive`].
    ///
    /// ```
    /// use mtrr::{Action, Due, Error, Processor, Registers, Update};
    /// let mut update = Update::new([Processor::new(&Registers::new(36, 0x508)?, false)]);
    /// let Due::Step(step) = update.due(0) else { panic!() };
    /// update.cancel(); // by another thread
    /// assert_eq!(update.did(0, step), Err(Error::NotDue(Action::Take)));
    /// # Ok::<(), mtrr::Error>(())
    /// ```
    pub fn did(&mut self, k: usize, step: Step) -> Result<(), Error> {
        let processor = &mut self.processors.as_mut()[k].0;
        // SAFETY: as for `mtrr_due`.
        match unsafe { sys::mtrr_did(&mut self.words, processor, &step.words) } {
            0 => Ok(()),
            12 => Err(Error::NotDue(step.action)),
            status => Err(Error::Unexpected(status)),
        }
    }

    /// Lets all go on that wait at the first barrier once all are there. Returns whether this was the first word: it can't be
    /// taken back.
    ///
    /// ```
    /// let mut update = mtrr::Update::new([mtrr::Processor::new(&mtrr::Registers::new(36, 0x508)?, false)]);
    /// assert!(update.go() && !update.go() && !update.cancel());
    /// # Ok::<(), mtrr::Error>(())
    /// ```
    pub fn go(&mut self) -> bool {
        self.say(1)
    }

    /// Cancels the update, unless it was let go: no register changes, and all processors leave. Returns whether this was the
    /// first word.
    ///
    /// ```
    /// let mut update = mtrr::Update::new([mtrr::Processor::new(&mtrr::Registers::new(36, 0x508)?, false)]);
    /// assert!(update.cancel());
    /// # Ok::<(), mtrr::Error>(())
    /// ```
    pub fn cancel(&mut self) -> bool {
        self.say(2)
    }

    fn say(&mut self, word: u32) -> bool {
        let is_first = self.words.word == 0;
        if is_first {
            self.words.word = word;
        }
        is_first
    }

    /// Whether processor `k` is between the barriers, where it changes its registers. Panics if there is no such processor.
    ///
    /// ```
    /// let update = mtrr::Update::new([mtrr::Processor::new(&mtrr::Registers::new(36, 0x508)?, false)]);
    /// assert!(!update.is_changing(0));
    /// # Ok::<(), mtrr::Error>(())
    /// ```
    pub fn is_changing(&self, k: usize) -> bool {
        (3..=12).contains(&self.processors.as_ref()[k].0.phase)
    }
}
