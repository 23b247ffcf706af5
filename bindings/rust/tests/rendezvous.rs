//! Updates on threads that stand for processors: each that goes through leaves the goal's registers on all, a cancelled one none.
use mtrr::{Action, Due, Error, Processor, Registers, Update};
use std::sync::Mutex;
use std::sync::atomic::{AtomicU64, Ordering::Relaxed};
use std::thread;

const ENABLE: u64 = 0x800;

struct Machine {
    registers: Registers,
    interrupts: bool,
    cached: bool,
}

fn set(machine: &mut Machine, number: u32, value: u64) {
    machine.registers.set(number, value).unwrap();
}

fn carry_out(machine: &mut Machine, action: Action, goal: &Registers) {
    match action {
        Action::Take => machine.interrupts = false,
        Action::Leave | Action::Release => machine.interrupts = true,
        Action::SetNoFill => machine.cached = false,
        Action::SetNormal => machine.cached = true,
        Action::Disable => set(machine, 0x2ff, machine.registers.get(0x2ff).unwrap() & !ENABLE),
        Action::Write(place) => {
            assert!(!machine.cached && !machine.interrupts && machine.registers.get(0x2ff).unwrap() & ENABLE == 0);
            let (number, value) = goal.at(place).unwrap();
            set(machine, number, value);
        }
        Action::Enable => set(machine, 0x2ff, goal.get(0x2ff).unwrap()),
        _ => {}
    }
}

fn attend<P: AsRef<[Processor]> + AsMut<[Processor]>>(
    k: usize,
    update: &Mutex<Update<P>>,
    machine: &mut Machine,
    goal: &Registers,
) {
    loop {
        let due = update.lock().unwrap().due(k);
        match due {
            Due::Through => return,
            Due::Wait => thread::yield_now(),
            Due::Step(step) => {
                carry_out(machine, step.action(), goal);
                match update.lock().unwrap().did(k, step) {
                    Ok(()) | Err(Error::NotDue(Action::Arrive)) => {}
                    Err(Error::NotDue(Action::Take)) => machine.interrupts = true,
                    Err(error) => panic!("{error}"),
                }
            }
        }
    }
}

#[test]
fn processors_have_the_goal_or_are_as_before() {
    let mut machines: Vec<_> =
        (0..4).map(|_| Machine { registers: Registers::new(36, 0x503).unwrap(), interrupts: true, cached: true }).collect();
    let draw = AtomicU64::new(1);
    for round in 0..200 {
        let mut goal = Registers::new(36, 0x503).unwrap();
        for (number, _) in Registers::new(36, 0x503).unwrap().iter() {
            goal.set(number, draw.fetch_add(0x9e37_79b9_7f4a_7c15, Relaxed) | ENABLE).unwrap();
        }
        let before: Vec<_> = machines.iter().map(|machine| machine.registers).collect();
        let update = Mutex::new(Update::new([Processor::new(&goal, round % 2 == 0); 4]));
        let is_given = thread::scope(|scope| {
            for (k, machine) in machines.iter_mut().enumerate() {
                let (update, goal) = (&update, &goal);
                scope.spawn(move || attend(k, update, machine, goal));
            }
            (0..round % 7).for_each(|_| thread::yield_now());
            let mut update = update.lock().unwrap();
            if round % 5 == 0 { !update.cancel() } else { update.go() }
        });
        for (machine, before) in machines.iter().zip(before) {
            assert!(machine.interrupts && machine.cached);
            assert!(machine.registers == if is_given { goal } else { before });
        }
    }
}
