//! Runs of calls, each compared, and the smallest run that shows a difference.
use super::machine::{ClockSet, Difference, Machine};
use super::tally;
use crate::differences::peripheral::Origin;
use crate::{report, shrink};
use traffic::random::Random;
use words::calls::End;
use words::iic::{Call, State};
use words::layout::{Args, Set};

pub type Step = (Call, Args);

/// Where a run began and what was called.
pub struct Run {
    pub set: Set,
    pub state: State,
    pub origin: Origin,
    pub steps: Vec<Step>,
}

/// Where the arguments of a step have what the questions after it are asked with, which the call itself doesn't look at: an
/// address for `peek`, whose bits 0 to 2 are 0, and a byte of enables.
const PEEKED: usize = 4;
const RETAINED: usize = 5;

/// What the questions after a call were answered.
pub struct Asked {
    pub validated: End,
    pub deadline_end: End,
    /// The deadline, where there is one.
    pub deadline: Option<u128>,
    /// Whether a retained enable is all that makes an interrupt.
    pub retained_alone: bool,
}

/// Puts any address and any enables into the arguments of a step, the same for a number.
pub fn put_questions(number: u64, args: &mut Args) {
    let mixed = Random::new(number).word();
    args[PEEKED] = mixed & 0xfff8;
    args[RETAINED] = mixed >> 16 & 0xff;
}

/// After a call: all that can be asked.
pub fn ask(machine: &mut Machine, set: &ClockSet, args: &Args) -> Result<Asked, Difference> {
    let mut questions = *args;
    questions[2..4].copy_from_slice(&[args[PEEKED], args[RETAINED]]);
    machine.call(Call::Observe, set, &questions)?;
    let interrupts = [12, 13].map(|place| machine.answer().words[place]);
    machine.call(Call::Validate, set, args)?;
    let validated = machine.answer().end;
    machine.call(Call::Deadline, set, args)?;
    let answer = machine.answer();
    let known = answer.end == End::Done && answer.words[1] != 0;
    let deadline = known.then(|| words::layout::time_at(&answer.words, 2));
    Ok(Asked { validated, deadline_end: answer.end, deadline, retained_alone: interrupts == [0, 1] })
}

impl Run {
    pub fn new(set: Set, machine: &Machine) -> Self {
        Self { set, state: *machine.state(), origin: machine.origin(), steps: Vec::new() }
    }

    /// The step at which the run shows a difference, and the difference.
    fn difference(&self) -> Option<(usize, Difference)> {
        self.at(&self.steps)
    }

    /// The same of other steps.
    fn at(&self, steps: &[Step]) -> Option<(usize, Difference)> {
        let set = ClockSet::new(self.set);
        let mut machine = Machine::new(&self.state, self.origin);
        for (place, (call, args)) in steps.iter().enumerate() {
            let asked = machine.call(*call, &set, args).and_then(|()| ask(&mut machine, &set, args).map(|_| ()));
            if let Err(difference) = asked {
                return Some((place, difference));
            }
        }
        None
    }

    /// Leaves out calls as long as a difference stays.
    pub fn shorten(&mut self) {
        if let Some((place, _)) = self.difference() {
            self.steps.truncate(place + 1);
        }
        let mut steps = std::mem::take(&mut self.steps);
        shrink::shorten(&mut steps, |steps| self.at(steps).is_some());
        self.steps = steps;
    }

    /// Prints the run and its difference; the one that was found where the run shows none by itself.
    pub fn print(&self, found: &Difference) {
        println!("difference: the peripheral, a run from {}", tally::name(self.origin));
        println!("  set: {}", report::shown(&self.set));
        println!("  state: {}", report::shown(&self.state));
        for (call, args) in &self.steps {
            print!("  {}:{:016x} {call:?} {:x} {:x}", args[0], args[1], args[2], args[3]);
            println!("; then the questions, with {:x} peeked at and {:x} retained", args[PEEKED], args[RETAINED]);
        }
        let again = self.difference();
        let difference = again.as_ref().map_or(found, |(_, difference)| difference);
        println!("  {:?}: {}", difference.call, difference.what);
    }
}

#[cfg(test)]
mod tests {
    use super::*;
    use std::collections::BTreeSet;

    /// From step to step both what is peeked at and what is retained change, and take on all values.
    #[test]
    fn questions_vary() {
        let asked = |number: u64| {
            let mut args = [0; words::layout::ARGS];
            put_questions(number, &mut args);
            assert_eq!((args[PEEKED] & 7, args[PEEKED] >> 16, args[RETAINED] >> 8), (0, 0, 0));
            [args[PEEKED], args[RETAINED]]
        };
        let distinct = |place: usize| (0..100_000).map(|number| asked(number)[place]).collect::<BTreeSet<_>>().len();
        assert_eq!([0, 1].map(distinct), [1 << 13, 1 << 8]);
        assert!((0..1000).all(|number| asked(number) != asked(number + 1)));
    }
}
