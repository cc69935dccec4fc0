//! The lines, and the others on them.
use super::habits::Others;
use super::Host;
use crate::random::Random;
use crate::script::{self, Levels};
use words::iic::{self, Call, State};
use words::layout::Args;

impl Host {
    /// The levels of the lines: low where anybody pulls.
    pub(super) fn lines(&self, state: &State) -> Levels {
        let enabled = state[iic::CONTROL] & 0x80 != 0;
        let forced = self.habits.forced && state[iic::HOLD] != 0;
        let pulls = |line: usize| enabled && state[iic::DRIVE + line] == 0 && !(forced && line == 0);
        core::array::from_fn(|line| self.other[line] && !pulls(line))
    }

    /// The levels that the peripheral was told of.
    pub(super) fn given(&self, state: &State) -> Levels {
        [state[iic::RAW] != 0, state[iic::RAW + 1] != 0]
    }

    /// The others on the lines do something.
    pub(super) fn others(&mut self, random: &mut Random, state: &State) -> (Call, Args) {
        let settled = (0..2).all(|i| state[iic::RAW + i] == state[iic::FILTERED + i]);
        match self.habits.others {
            Others::None => return self.serve(random, state),
            Others::Pulling => self.pull(random, state),
            Others::Master if !settled && !random.once_in(12) => return self.visit(random, state),
            Others::Master => self.play(random, state),
        }
        let lines = self.lines(state);
        self.at(random, Call::InputPins, lines.map(u64::from))
    }

    pub(super) fn pull(&mut self, random: &mut Random, state: &State) {
        self.other[0] = !random.once_in(if self.other[0] { 12 } else { 2 });
        if state[iic::FILTERED] != 0 && !random.once_in(400) {
            return;
        }
        let [present, _, _, phase, _, transmit] = core::array::from_fn(|i| state[iic::FRAME + i]);
        let low = match (present, phase, transmit) {
            (1, 0, 1) => self.habits.contended,
            (1, 0, _) => 50,
            (1, _, 1) => 80,
            _ => self.habits.contended,
        };
        self.other[1] = random.below(100) >= low;
    }

    pub(super) fn play(&mut self, random: &mut Random, state: &State) {
        if self.script.is_empty() {
            let address = state[iic::ADDRESS] as u8;
            if address & 1 != 0 && !random.once_in(6) {
                script::clocks(random, &mut self.script);
            } else {
                script::transfer(random, address, &mut self.script);
            }
        }
        // While somebody stretches the clock the master waits, as a rule.
        let stretched = self.other[0] && state[iic::FILTERED] == 0 && state[iic::DRIVE] == 0;
        if !stretched || random.once_in(20) {
            self.other = self.script.pop_front().unwrap_or([true; 2]);
        }
    }
}
