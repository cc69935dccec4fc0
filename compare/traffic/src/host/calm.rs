//! A host that does what its driver is there for: whole transfers, with slaves that acknowledge, answer and stretch,
//! another master now and then, and synchronous bytes.
use super::habits::{Driver, Others};
use super::Host;
use crate::random::Random;
use words::iic::{self, Call, State, AL, NACKF, RDRF, STOP, TDRE, TEND};
use words::layout::Args;

/// Commands for ICCR2.
const START: u64 = 0x90;
const END: u64 = 0x10;

impl Host {
    /// The registers for a new round of transfers.
    pub(super) fn begin(&mut self, random: &mut Random) {
        self.left = 1 + random.below(3);
        self.other = [true; 2];
        let rate = random.below(16);
        let address = random.word() & 0xfe;
        let enables = random.pick(&[0, 4, 0x30, 0xfc]);
        let order = random.pick(&[0, 0, 0, 0x80, 0x40]);
        let (address, control) = match self.habits.driver {
            Driver::Synchronous => (address | 1, 0x80 | random.pick(&[0x30, 0x20, 0x10, 0])),
            Driver::Slave => (address, 0x80),
            _ => (address, 0xb0),
        };
        self.setup.extend([(0, 0), (5, address), (3, enables), (2, order), (0, control | rate)]);
        if self.habits.driver == Driver::Master {
            self.setup.extend([(1, START), (6, random.word() & 0xff)]);
        }
    }

    pub(super) fn next_calm(&mut self, random: &mut Random, state: &State) -> (Call, Args) {
        if let Some((call, operands)) = self.duty(random, state) {
            return self.at(random, call, operands);
        }
        // Nothing will happen any more by itself: no wait, or one that was missed.
        let still = self.deadline.map_or(self.habits.others != Others::Master, |at| at <= self.now);
        if random.once_in(if still { 4 } else { 2000 }) {
            self.begin(random);
        }
        self.answer(random, state);
        if self.lines(state) != self.given(state) {
            let lines = self.lines(state);
            return self.at(random, Call::InputPins, lines.map(u64::from));
        }
        match self.deadline {
            Some(at) if at > self.now => self.call(Call::Advance, at, [0, 0]),
            _ => self.at(random, Call::Advance, [0, 0]),
        }
    }

    /// What the registers ask for.
    fn duty(&mut self, random: &mut Random, state: &State) -> Option<(Call, [u64; 2])> {
        let [status, seen, control] = [iic::STATUS, iic::SEEN, iic::CONTROL].map(|place| state[place]);
        let byte = random.word() & 0xff;
        let events = status & (NACKF | STOP | AL);
        if events & seen != 0 {
            if self.habits.others == Others::Pulling && control & 0x20 != 0 {
                // A transfer has ended, well or not.
                self.left = 1 + random.below(3);
                self.setup.extend([(1, if events & NACKF != 0 { END } else { START }), (6, byte)]);
            } else if events & AL != 0 {
                self.begin(random);
            }
            return Some((Call::Write, [4, !events & 0xff]));
        }
        if events != 0 && random.once_in(2) {
            return Some((Call::Read, [4, 0]));
        }
        if status & RDRF != 0 && random.once_in(3) {
            return Some((Call::Read, [7, 0]));
        }
        if control & 0x10 == 0 {
            return None;
        }
        let busy = state[iic::CONDITION] != 0 || state[iic::COMMAND] != 0;
        let synchronous = state[iic::ADDRESS] & 1 != 0;
        if status & TDRE != 0 && (self.left > 0 || synchronous || control & 0x20 == 0) && random.once_in(3) {
            self.left = self.left.saturating_sub(1);
            return Some((Call::Write, [6, byte]));
        }
        if status & TEND != 0 && self.left == 0 && !busy && !synchronous && control & 0x20 != 0 {
            return Some(self.end(random, control));
        }
        None
    }

    /// Everything is sent: a stop, another start, or bytes the other way.
    fn end(&mut self, random: &mut Random, control: u64) -> (Call, [u64; 2]) {
        self.left = 1 + random.below(3);
        match random.below(4) {
            0 => (Call::Write, [1, START]),
            1 => {
                self.setup.push_back((4, 0xff & !TEND));
                (Call::Write, [0, control & !0x10])
            }
            _ => (Call::Write, [1, END]),
        }
    }

    /// The others see to each low phase of SCL once; another master plays on when the lines are at rest.
    fn answer(&mut self, random: &mut Random, state: &State) {
        if self.habits.others == Others::Master {
            if self.deadline.is_none() && self.lines(state) == self.given(state) {
                self.play(random, state);
            }
            return;
        }
        let low = state[iic::FILTERED] == 0;
        if low && !self.seen_to {
            self.pull(random, state);
        } else if !self.other[0] {
            self.other[0] = random.once_in(3);
        }
        self.seen_to = low;
    }
}
