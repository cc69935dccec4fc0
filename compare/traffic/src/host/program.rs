//! What the host's program does: it serves the registers, breaks off what is under way, or makes any call at all.
use super::Host;
use crate::random::Random;
use words::iic::{self, Call, State, RDRF, TDRE, TEND};
use words::layout::Args;

/// NACKF, STOP, AL, AAS and ADZ.
const EVENTS: u64 = 0x1f;

impl Host {
    /// The program looks after the registers.
    pub(super) fn serve(&mut self, random: &mut Random, state: &State) -> (Call, Args) {
        let status = state[iic::STATUS];
        let byte = random.word() & 0xff;
        if random.below(100) < self.habits.meddling {
            return self.meddle(random, state);
        }
        let (call, operands) = match random.below(20) {
            0..=6 if status & TDRE != 0 => (Call::Write, [6, byte]),
            0..=6 if status & RDRF != 0 && random.below(100) >= self.habits.lazy => (Call::Read, [7, 0]),
            7..=8 if status & TEND != 0 => (Call::Write, [1, random.pick(&[0x90, 0x10, 0x10])]),
            9 if status & RDRF != 0 => (Call::Write, [0, state[iic::CONTROL] ^ 0x40]),
            10..=11 if state[iic::SEEN] & status & EVENTS != 0 => (Call::Write, [4, byte & !status]),
            10..=12 => (Call::Read, [4, 0]),
            13 => (Call::Write, [4, random.pick(&[0, byte])]),
            14 => (Call::Read, [7, 0]),
            15 if self.deadline.is_none() => (Call::Write, [1, random.pick(&[0x90, 0x10])]),
            _ if self.deadline.is_none() => (Call::Write, [6, byte]),
            _ => return self.visit(random, state),
        };
        self.at(random, call, operands)
    }

    /// The program breaks off what is under way, or alters it.
    pub(super) fn meddle(&mut self, random: &mut Random, state: &State) -> (Call, Args) {
        let control = state[iic::CONTROL];
        let byte = random.word() & 0xff;
        let (call, operands) = match random.below(12) {
            0..=1 => (Call::Write, [1, random.pick(&[0x90, 0x10, 0x90, 0x10, 0xb0, 0x00, byte & !0x42])]),
            2..=3 => (Call::Write, [0, control ^ random.pick(&[0x10, 0x30, 0x40, 0x20, 0x08, 0x07, 0x50])]),
            4 => (Call::Write, [0, control & 0x7f | 0x80]),
            5 => (Call::Write, [2, byte]),
            6 => (Call::Write, [3, byte]),
            7 => (Call::Write, [1, random.pick(&[0x02, 0x00])]),
            8 => (Call::SetGate, [1 - state[iic::GATE].min(1), 0]),
            9 if random.once_in(4) => (Call::Write, [5, random.pick(&[byte, byte & 0xfe, byte | 1])]),
            10 => (Call::Read, [random.below(8), 0]),
            _ => (Call::Write, [6, byte]),
        };
        self.at(random, call, operands)
    }

    pub(super) fn any_call(&mut self, random: &mut Random, state: &State) -> (Call, Args) {
        let address = if random.once_in(4) { random.word() & 0xffff } else { random.below(8) };
        let byte = random.word() & 0xff;
        match random.below(8) {
            0 => self.at(random, Call::Read, [address, 0]),
            1..=3 => {
                let control = [byte, byte | 0x80, byte | 0xa0, state[iic::CONTROL]];
                let value = if address & 7 == 0 { random.pick(&control) } else { byte };
                self.at(random, Call::Write, [address, value])
            }
            4..=5 => {
                self.other = [random.once_in(2), random.once_in(2)];
                self.at(random, Call::InputPins, self.other.map(u64::from))
            }
            6 => {
                let gate = random.below(2);
                self.at(random, Call::SetGate, [gate, 0])
            }
            _ => self.visit(random, state),
        }
    }
}
