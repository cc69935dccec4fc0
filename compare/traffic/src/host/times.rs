//! When a host makes its calls.
use super::Host;
use crate::exact;
use crate::random::Random;
use words::iic::{self, Call, State};
use words::layout::{self, Args};

impl Host {
    pub(super) fn call(&mut self, call: Call, now: u128, operands: [u64; 2]) -> (Call, Args) {
        self.now = if self.habits.forward { now.max(self.now) } else { now };
        (call, iic::args(self.now, operands))
    }

    /// A call at some time from now on, mostly no later than the deadline.
    pub(super) fn at(&mut self, random: &mut Random, call: Call, operands: [u64; 2]) -> (Call, Args) {
        let gap = self.deadline.map_or(self.period.saturating_mul(3), |at| at.saturating_sub(self.now));
        let next = match random.below(20) {
            0..=4 if self.habits.repeats => self.now,
            0..=9 => self.now.saturating_add(1),
            10..=11 => self.now.saturating_add(gap),
            12 => self.now.saturating_add(self.period.saturating_mul(u128::from(random.below(40)))),
            _ => self.now.saturating_add(part(random, gap)),
        };
        let now = match self.deadline {
            _ if self.habits.back && random.once_in(20) => self.earlier(random),
            _ if self.habits.jumps && random.once_in(300) => self.jump(random),
            Some(at) if !self.habits.late && at >= self.now => next.min(at),
            _ => next,
        };
        self.call(call, now, operands)
    }

    fn earlier(&mut self, random: &mut Random) -> u128 {
        match random.below(4) {
            0 => self.now.saturating_sub(1),
            1 => self.now.saturating_sub(part(random, self.period)),
            2 => self.now.saturating_sub(self.period.saturating_mul(u128::from(random.below(300)))),
            _ => part(random, self.now),
        }
    }

    pub(super) fn visit(&mut self, random: &mut Random, state: &State) -> (Call, Args) {
        if self.habits.astray && random.once_in(3) {
            if let Some(at) = self.wait(random, state).filter(|at| *at >= self.now || self.habits.back) {
                return self.call(Call::Advance, at, [0, 0]);
            }
        }
        let Some(at) = self.deadline else {
            return self.at(random, Call::Advance, [0, 0]);
        };
        let now = match random.below(60) {
            0 => at.saturating_sub(1),
            1 if self.habits.late => at.saturating_add(1),
            2 => self.now,
            3 if self.habits.back => self.earlier(random),
            4 => return self.at(random, Call::Advance, [0, 0]),
            _ => at,
        };
        // A deadline that has passed is no reason to go back, unless this host does.
        if now < self.now && !self.habits.back {
            return self.at(random, Call::Advance, [0, 0]);
        }
        self.call(Call::Advance, now, [0, 0])
    }

    /// The time of one of the state's waits, if it runs on the system clock.
    fn wait(&self, random: &mut Random, state: &State) -> Option<u128> {
        let place = random.pick(&[iic::FILTER_WAIT, iic::SETUP_WAIT, iic::CLOCK_WAIT, iic::MONITOR_WAIT]);
        let [present, first, second, third, count] = core::array::from_fn(|i| state[place + i]);
        if matches!(place, iic::CLOCK_WAIT | iic::MONITOR_WAIT) {
            return (present != 0 && second == 0).then(|| exact::half_edge(&self.clock, first));
        }
        ([present, first, second, third] == [1, 0, 1, 0]).then(|| exact::edge(&self.clock, count))
    }

    /// To a little before half counts reach 2^64, or before the last time.
    fn jump(&self, random: &mut Random) -> u128 {
        let far = match random.below(2) {
            0 => exact::edge(&self.clock, (1 << 63) - random.below(100)),
            _ => u128::MAX - u128::from(random.any_length()),
        };
        far.max(self.now)
    }
}

/// A part of a span, small or large.
fn part(random: &mut Random, span: u128) -> u128 {
    if span == 0 {
        return 0;
    }
    let any = layout::joined(random.word(), random.word());
    (any % span) >> random.pick(&[0, 0, 0, 1, 2, 8])
}
