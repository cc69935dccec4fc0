//! A run under way: what was called, and everybody's peripheral.
use super::machine::{ClockSet, Difference, Machine};
use super::rare::Seen;
use super::runs::{self, Asked, Run};
use super::tally::{self, count, Tally};
use crate::differences::peripheral::Origin;
use crate::shrink::SHOWN;
use traffic::host::{Host, LULL};
use traffic::random::Random;
use words::iic::{self, Call, State};
use words::layout::{Args, Set};
use words::rates::Rates;

pub struct Trial<'a> {
    machine: Machine,
    set: ClockSet,
    run: Run,
    /// The deadline after the last call.
    deadline: Option<u128>,
    tally: &'a mut Tally,
}

impl<'a> Trial<'a> {
    fn new(set: ClockSet, machine: Machine, tally: &'a mut Tally) -> Self {
        tally.runs[machine.origin() as usize] += 1;
        tally.rates.add(&iic::rates(machine.state()));
        Self { run: Run::new(set.words, &machine), machine, set, deadline: None, tally }
    }

    /// From the default with that rate set; none where that differs.
    pub fn fresh(rates: &Rates, set: Set, tally: &'a mut Tally) -> Option<Self> {
        match Machine::fresh(rates) {
            Ok(machine) => Some(Self::new(ClockSet::new(set), machine, tally)),
            Err(difference) => {
                tally.differences += 1;
                println!("difference: the state before the first call: {}", difference.what);
                None
            }
        }
    }

    /// From a state that is made, at a time.
    pub fn made(set: Set, state: &State, now: u128, tally: &'a mut Tally) -> Self {
        let set = ClockSet::new(set);
        let machine = Machine::made(state, &set, &iic::args(now, [0, 0]));
        Self::new(set, machine, tally)
    }

    pub fn state(&self) -> &State {
        self.machine.state()
    }

    /// Makes a call and all questions after it, everywhere. At a difference it shows the smallest run and answers none.
    pub fn step(&mut self, (call, mut args): (Call, Args)) -> Option<Asked> {
        runs::put_questions(self.tally.calls(), &mut args);
        let asked = self.ask(call, &args);
        self.run.steps.push((call, args));
        let origin = self.machine.origin();
        self.tally.calls[origin as usize] += 1;
        for parted in self.machine.parted.drain(..) {
            let call = || format!("{:?} from {}", parted.call, tally::name(origin));
            self.tally.partings.add(call, parted.ends, Some(parted.row));
        }
        if let Err(difference) = &asked {
            self.tally.differences += 1;
            if self.tally.differences <= SHOWN {
                self.run.shorten();
                self.run.print(difference);
            }
        }
        asked.ok()
    }

    /// A call and all questions after it.
    fn ask(&mut self, call: Call, args: &Args) -> Result<Asked, Difference> {
        let before = *self.state();
        self.machine.call(call, &self.set, args)?;
        let end = self.machine.answer().end;
        let asked = runs::ask(&mut self.machine, &self.set, args)?;
        let tally = &mut self.tally;
        count(&mut tally.refused, end)
            .and_then(|()| count(&mut tally.deadlines, asked.deadline_end))
            .and_then(|()| count(&mut tally.validated, asked.validated))
            .map_err(|what| Difference { call, what })?;
        if self.machine.origin() == Origin::Default {
            let (deadline, after) = (self.deadline, self.machine.state());
            tally.rare.look(&Seen { call, args, end, before: &before, deadline, after, asked: &asked });
        }
        self.deadline = asked.deadline;
        Ok(asked)
    }

    /// Lets a host make calls.
    pub fn play(&mut self, random: &mut Random, mut host: Host, length: u64) {
        let mut lull = 0;
        for step in 0..=length {
            // After the last time, and where every wait is refused, nothing moves any more.
            if host.is_over() && random.once_in(10) || lull > LULL {
                return;
            }
            let next = if step == 0 { host.look() } else { host.next(random, self.state()) };
            let Some(asked) = self.step(next) else {
                return;
            };
            lull = if asked.deadline.is_some() { 0 } else { lull + 1 };
            host.saw(asked.deadline);
        }
    }
}
