//! A host that uses the peripheral, on a bus with others: drivers that serve registers as a program would, other
//! masters and slaves on the lines, and calls that no program has a reason to make.
mod bus;
mod calm;
mod habits;
mod program;
mod times;
use crate::exact;
use crate::random::Random;
use crate::script::Levels;
use habits::{Driver, Habits, Others};
use std::collections::VecDeque;
use words::iic::{self, Call, State};
use words::layout::{self, Args};

/// Calls without any deadline after which a run of a host ends.
pub const LULL: u64 = 60;

pub struct Host {
    now: u128,
    /// The system clock, and about one period of it.
    clock: exact::Clock,
    period: u128,
    habits: Habits,
    /// What the others drive, and what another master will drive next.
    other: Levels,
    script: VecDeque<Levels>,
    /// Addresses and bytes that the driver has still to write.
    setup: VecDeque<(u64, u64)>,
    deadline: Option<u128>,
    /// Bytes that a calm host has still to send or take, and whether the others have seen to this low phase of SCL.
    left: u64,
    seen_to: bool,
}

impl Host {
    pub fn new(random: &mut Random, now: u128, clock: exact::Clock) -> Self {
        let mut host = Self {
            now,
            clock,
            period: exact::edge(&clock, exact::first(&clock)).saturating_sub(layout::time_at(&clock, 0)).max(1),
            habits: Habits::any(random),
            other: [true; 2],
            script: VecDeque::new(),
            setup: VecDeque::new(),
            deadline: None,
            left: 0,
            seen_to: false,
        };
        host.set_up(random);
        host
    }

    /// The registers that the driver writes first.
    fn set_up(&mut self, random: &mut Random) {
        let rate = random.pick(&[0, 0, 0, 4, 8, 12, 7, 15]);
        let address = random.word() & 0xfe;
        let (address, control) = match self.habits.driver {
            Driver::Master => (address, 0xa0 | random.pick(&[0x10, 0x10, 0, 0x40])),
            Driver::Slave => (random.pick(&[address, address, 0]), 0x80 | random.pick(&[0, 0, 0x10])),
            Driver::Synchronous => (address | 1, 0x80 | random.word() & 0x70),
            Driver::Any => (random.word() & 0xff, random.word() & 0xff),
        };
        self.setup.extend([
            (5, address),
            (3, random.word() & 0xff),
            (2, random.pick(&[0, 0, 0, 0x80, 0x40, 0xc0]) | random.below(16)),
            (0, control | rate),
        ]);
        if self.habits.driver == Driver::Master && !random.once_in(8) {
            self.setup.push_back((1, 0x90));
            self.setup.push_back((6, random.word() & 0xff));
        }
    }

    /// A host that finds the registers written.
    pub fn over_state(random: &mut Random, now: u128, clock: exact::Clock) -> Self {
        let mut host = Self::new(random, now, clock);
        host.setup.clear();
        host
    }

    /// A host that takes over a peripheral in any state, and none of whose times is earlier than the one before. Most are
    /// calm.
    pub fn taking_over(random: &mut Random, now: u128, clock: exact::Clock) -> Self {
        let mut host = Self::over_state(random, now, clock);
        host.habits.go_forward();
        if random.once_in(6) {
            host.restart(random);
        } else {
            host.habits.calm_down(random);
            host.begin(random);
        }
        host
    }

    pub fn now(&self) -> u128 {
        self.now
    }

    /// It is at least that late now.
    pub fn reach(&mut self, now: u128) {
        self.now = self.now.max(now);
    }

    /// Asks for the deadline.
    pub fn look(&mut self) -> (Call, Args) {
        self.call(Call::Deadline, self.now, [0, 0])
    }

    /// The next call and its arguments.
    pub fn next(&mut self, random: &mut Random, state: &State) -> (Call, Args) {
        if random.below(100) < self.habits.hostile {
            return self.any_call(random, state);
        }
        if state[iic::GATE] == 0 && random.once_in(2) {
            return self.at(random, Call::SetGate, [1, 0]);
        }
        let lines = self.lines(state);
        if lines != self.given(state) && random.below(100) < self.habits.told {
            let now = if self.habits.repeats || random.once_in(2) { self.now } else { self.now.saturating_add(1) };
            return self.call(Call::InputPins, now, lines.map(u64::from));
        }
        if let Some((address, value)) = self.setup.pop_front() {
            return self.at(random, Call::Write, [address, value]);
        }
        if self.habits.repeats && fell_now(state, self.now) && random.once_in(3) {
            return self.call(Call::Read, self.now, [7, 0]);
        }
        if self.habits.calm {
            return self.next_calm(random, state);
        }
        if rare(state) && random.once_in(2) {
            return if random.once_in(2) { self.meddle(random, state) } else { self.serve(random, state) };
        }
        match self.deadline {
            None => self.wake(random, state),
            // A wait that has passed never ends: off and on again.
            Some(at) if at < self.now && !self.habits.patient && random.once_in(10) => {
                self.restart(random);
                self.serve(random, state)
            }
            Some(_) => match random.below(100) {
                n if n < self.habits.visits => self.visit(random, state),
                n if n < self.habits.visits + self.habits.others_act => self.others(random, state),
                _ => self.serve(random, state),
            },
        }
    }

    /// Nothing is due: what keeps the peripheral from working is put right, as a rule.
    fn wake(&mut self, random: &mut Random, state: &State) -> (Call, Args) {
        if state[iic::RESET] != 0 && random.once_in(3) {
            let value = random.pick(&[0x90, 0x10, 0x00, 0x50]);
            return self.at(random, Call::Write, [1, value]);
        }
        let off = state[iic::CONTROL] & 0x80 == 0;
        let stuck = off || state[iic::CONDITION] != 0;
        let patience = if self.habits.others == Others::Master { 500 } else { 25 };
        if random.once_in(if stuck { 4 } else { patience }) {
            self.restart(random);
        }
        if self.habits.others == Others::Pulling && random.once_in(3) {
            self.other = [true; 2];
        }
        match random.below(20) {
            0 => self.visit(random, state),
            1..=7 => self.serve(random, state),
            _ => self.others(random, state),
        }
    }

    /// Off and on again.
    fn restart(&mut self, random: &mut Random) {
        self.setup.push_back((0, 0));
        self.set_up(random);
    }

    pub fn is_over(&self) -> bool {
        self.now == u128::MAX
    }

    /// The next deadline, after a call.
    pub fn saw(&mut self, deadline: Option<u128>) {
        self.deadline = deadline;
    }
}

/// A clock that stands still by itself, or a hold, without what they are about.
fn rare(state: &State) -> bool {
    let on = |place: usize| state[place] != 0;
    (on(iic::SYNCHRONIZED_HOLD) || on(iic::MONITOR_WAIT)) && !on(iic::CLOCK_WAIT) || on(iic::HOLD) && !on(iic::FRAME)
}

/// Whether the eighth fall of SCL is at this time.
pub fn fell_now(state: &State, now: u128) -> bool {
    state[iic::EIGHTH_FALL] != 0 && layout::time_at(state, iic::EIGHTH_FALL + 1) == now
}
