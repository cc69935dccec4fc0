//! What one unit's host does, at times that it chose beforehand.
use super::Event;
use crate::exact;
use crate::random::Random;
use words::iic::Call;

#[derive(Clone, Copy, PartialEq)]
pub enum Role {
    /// A master that transmits, and one that receives.
    Sender,
    Taker,
    Listener,
    /// Master and slave of synchronous mode.
    Clocking,
    Clocked,
    /// Enabled, and nothing else.
    Silent,
    Any,
}

pub struct Program {
    pub clock: exact::Clock,
    pub unit: usize,
    pub role: Role,
    /// The address byte of those who are spoken to, as a rule.
    pub address: u64,
    /// Of a hundred calls, how many break off what is under way.
    pub meddling: u64,
    pub now: u128,
}

type Step = (Call, [u64; 2]);

impl Program {
    /// About so many calls.
    pub fn run(mut self, random: &mut Random, calls: usize) -> Vec<Event> {
        let control = self.control(random);
        let mut events = Vec::new();
        for step in self.set_up(random, control) {
            self.put(step, &mut events);
        }
        let hurried = random.once_in(4);
        while events.len() < calls {
            self.now = self.later(random, control, hurried);
            if random.below(100) < self.meddling {
                self.meddle(random, control, &mut events);
            } else {
                let step = self.step(random, control);
                self.put(step, &mut events);
            }
        }
        events
    }

    fn put(&self, (call, operands): Step, events: &mut Vec<Event>) {
        events.push(Event { at: self.now, unit: self.unit, call, operands });
    }

    fn control(&self, random: &mut Random) -> u64 {
        let rate = random.pick(&[0, 0, 0, 0, 1, 4, 8, 12]);
        let role = match self.role {
            Role::Sender | Role::Taker | Role::Clocking => 0xb0,
            Role::Listener | Role::Silent => 0x80,
            Role::Clocked => 0x80 | random.pick(&[0, 0, 0x10]),
            Role::Any => random.word() & 0xff,
        };
        role | rate
    }

    fn set_up(&self, random: &mut Random, control: u64) -> Vec<Step> {
        let other = random.word() & 0xfe;
        let own = random.pick(&[self.address, self.address, self.address, other, 0]);
        let own = match self.role {
            Role::Listener => own,
            Role::Clocking | Role::Clocked => other | 1,
            Role::Any => random.word() & 0xff,
            _ => other,
        };
        let mut steps = vec![(Call::SetGate, [1, 0]), (Call::Write, [5, own])];
        if random.once_in(4) {
            steps.push((Call::Write, [2, random.pick(&[0, 0x80, 0x40, 0x05])]));
        }
        if random.once_in(4) {
            steps.push((Call::Write, [3, random.word() & 0xff]));
        }
        steps.push((Call::Write, [0, control]));
        if random.once_in(8) {
            steps.rotate_left(1);
        }
        if matches!(self.role, Role::Sender | Role::Taker) {
            steps.extend([(Call::Write, [6, self.addressed(random)]), (Call::Write, [1, 0x90])]);
        }
        steps
    }

    /// The first byte that a master sends.
    fn addressed(&self, random: &mut Random) -> u64 {
        let any = random_byte(random);
        let address = random.pick(&[self.address, self.address, self.address, 0, any]);
        address | u64::from(self.role == Role::Taker || random.once_in(8))
    }

    /// When the next call comes: by clocks, bits or bytes of its rate, on an edge of the clock as often as not.
    fn later(&self, random: &mut Random, control: u64, hurried: bool) -> u128 {
        let count = exact::count(&self.clock, self.now);
        let period = exact::edge(&self.clock, count.saturating_add(1)).saturating_sub(self.now).max(1);
        let bit = [28, 40, 48, 64, 80, 100, 112, 128][control as usize & 7] << (control >> 3 & 1);
        let some = 1 + random.below(20);
        let clocks = match random.below(if hurried { 8 } else { 20 }) {
            0..=1 => return self.now,
            2 => return self.now.saturating_add(1),
            3 => return self.now.saturating_add(u128::from(random.word()) % period),
            4 => some,
            5 => bit / 2 * some,
            6 => bit,
            7 => 0,
            8..=16 => bit * 10,
            _ => bit * some,
        };
        let edge = exact::edge(&self.clock, count.saturating_add(clocks));
        let half = exact::half_edge(&self.clock, count.saturating_add(clocks).saturating_mul(2).saturating_add(1));
        let near = edge.saturating_add(u128::from(random.word()) % period);
        random.pick(&[edge, edge, half, near]).max(self.now)
    }

    fn step(&self, random: &mut Random, control: u64) -> Step {
        let byte = random_byte(random);
        let addressed = self.addressed(random);
        match (self.role, random.below(20)) {
            (Role::Any, 0..=9) => (Call::Write, [random.below(8), byte]),
            (Role::Silent, _) | (_, 0..=1) => (Call::Read, [4, 0]),
            (_, 2) => (Call::Read, [random.below(8), 0]),
            (_, 3) => (Call::Write, [4, random.pick(&[0, byte])]),
            (Role::Sender, 4) => (Call::Write, [1, random.pick(&[0x90, 0x10])]),
            (Role::Sender, 5) => (Call::Write, [6, addressed]),
            (Role::Taker, 4..=6) => (Call::Write, [1, random.pick(&[0x90, 0x10])]),
            (Role::Taker, 7..=9) => (Call::Write, [0, control & !0x10 | random.pick(&[0, 0, 0x10, 0x40])]),
            (Role::Taker, 10) => (Call::Write, [6, addressed]),
            (Role::Clocking | Role::Clocked, 4..=5) => (Call::Write, [0, control ^ random.pick(&[0x10, 0x30, 0x40])]),
            (Role::Listener | Role::Clocked, 4..=7) => (Call::Write, [6, byte]),
            (Role::Sender | Role::Clocking, _) => (Call::Write, [6, byte]),
            _ => (Call::Read, [7, 0]),
        }
    }

    /// The gate, the reset or the enable off and, sooner or later, on; or what else a register does.
    fn meddle(&mut self, random: &mut Random, control: u64, events: &mut Vec<Event>) {
        let byte = random_byte(random);
        let [off, on] = match random.below(6) {
            0..=1 => [(Call::SetGate, [0, 0]), (Call::SetGate, [1, 0])],
            2 => [(Call::Write, [1, 0x02]), (Call::Write, [1, 0x00])],
            3 => [(Call::Write, [0, control & 0x7f]), (Call::Write, [0, control])],
            4 => [(Call::Write, [1, 0x40]), (Call::Write, [1, 0x60])],
            _ => [(Call::Write, [random.pick(&[0, 1, 2, 3, 5]), byte]), (Call::Write, [0, control])],
        };
        self.put(off, events);
        let soon = random.once_in(2);
        self.now = self.later(random, control, soon);
        if !random.once_in(8) {
            self.put(on, events);
        }
    }
}

fn random_byte(random: &mut Random) -> u64 {
    random.word() & 0xff
}
