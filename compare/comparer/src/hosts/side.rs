//! One host's peripheral.
use super::Clocks;
use reference::Rated;
use words::calls::{Answer, End};
use words::iic::{self, Call, Peripheral, State, NACKF, TDRE};
use words::layout::{self, Args};
use words::rates::Rates;

/// Where the waits lie in the state.
pub const WAITS: [usize; 4] = [iic::FILTER_WAIT, iic::SETUP_WAIT, iic::MONITOR_WAIT, iic::CLOCK_WAIT];
/// The phase of a frame that is through.
const DONE: u64 = 2;

pub struct Side {
    pub iic: Rated,
    pub words: State,
    /// Whether a write has lifted the reset, and no visit has come since.
    pub lifted: bool,
    pub answer: Answer,
    fresh: Vec<u64>,
}

impl Side {
    pub fn new(iic: Rated) -> Self {
        let words = iic::blank(&Rates::DEFAULT);
        let mut side = Self { iic, words, lifted: false, answer: Answer::empty(), fresh: Vec::new() };
        side.look();
        side
    }

    fn look(&mut self) {
        reference::Bridge::words(&self.iic, &mut self.fresh);
        self.words.copy_from_slice(&self.fresh);
    }

    pub fn call(&mut self, call: Call, clocks: &Clocks, args: &Args) {
        let reset = self.words[iic::RESET];
        reference::Bridge::call(call, &mut self.iic, clocks, args, &mut self.answer);
        if call.changes() {
            self.look();
        }
        self.lifted = match call {
            Call::Write => self.lifted || reset > self.words[iic::RESET],
            Call::Advance => false,
            _ => self.lifted,
        };
    }

    /// The next deadline, where there is one and it can be told.
    pub fn deadline(&self, clocks: &Clocks) -> Option<u128> {
        self.iic.deadline(clocks).ok().flatten().map(|at| at.raw())
    }

    /// How a visit at that time ends, and the state that it leaves, tried on a copy.
    fn visit(&self, clocks: &Clocks, now: u128) -> (End, Vec<u64>) {
        let (mut copy, mut answer, mut left) = (self.iic.clone(), Answer::empty(), Vec::with_capacity(iic::STATE));
        reference::Bridge::call(Call::Advance, &mut copy, clocks, &iic::args(now, [0, 0]), &mut answer);
        reference::Bridge::words(&copy, &mut left);
        (answer.end, left)
    }

    /// Whether a visit leaves a frame that isn't there yet.
    pub fn starts_a_frame(&self, clocks: &Clocks, now: u128) -> bool {
        self.words[iic::FRAME] == 0 && self.visit(clocks, now).1[iic::FRAME] != 0
    }

    /// Whether a visit with nothing due, from a time on, is answered and changes nothing: its kick then does nothing.
    /// None where it doesn't come to the kick, since the time of a wait is refused.
    pub fn rests(&self, clocks: &Clocks, from: u128) -> Option<bool> {
        self.iic.deadline(clocks).ok()?;
        let mut now = from;
        while WAITS.into_iter().any(|wait| self.due(wait, clocks, now)) {
            now = now.wrapping_add(1);
        }
        let (end, left) = self.visit(clocks, now);
        Some(end == End::Done && left == self.words)
    }

    /// Whether the wait at a place of the state is due. One whose time is refused isn't. The system clock of these
    /// hosts runs.
    pub fn due(&self, place: usize, clocks: &Clocks, now: u128) -> bool {
        use words::calls::{Call, Reference};
        if self.words[place] == 0 {
            return false;
        }
        let half = matches!(place, iic::CLOCK_WAIT | iic::MONITOR_WAIT);
        let mut args = [0; layout::ARGS];
        let mut answer = Answer::empty();
        if half {
            args[0] = self.words[place + 1];
            reference::Bridge::answer(Call::HalfEdge, Some(clocks), &args, &mut answer);
            let paused = self.words[place + 2] != 0;
            return !paused && answer.end == End::Done && layout::time_at(&answer.words, 1) == now;
        }
        args[..layout::WAIT].copy_from_slice(&self.words[place + 1..][..layout::WAIT]);
        reference::Bridge::answer(Call::WaitDeadline, Some(clocks), &args, &mut answer);
        answer.end == End::Done && answer.words[1] != 0 && layout::time_at(&answer.words, 2) == now
    }
}

/// Whether a kick on the state does nothing, at any time, and isn't refused. `Side::rests` tries it on the Rust.
pub fn settled(state: &State) -> bool {
    let on = |place: usize| state[place] != 0;
    let has = |place: usize, bits: u64| state[place] & bits != 0;
    let [enabled, master, transmit] = [0x80, 0x20, 0x10].map(|bit| has(iic::CONTROL, bit));
    let synchronous = has(iic::ADDRESS, 1);
    if !enabled || !on(iic::GATE) || on(iic::RESET) || on(iic::CONDITION) {
        return true;
    }
    if on(iic::COMMAND) && (!on(iic::FRAME) || !on(iic::FILTERED)) {
        return false;
    }
    if !on(iic::FRAME) {
        let called = on(iic::SELECTED) || synchronous;
        let can_transmit = transmit && (master || called) && !has(iic::STATUS, NACKF);
        let can_receive = !transmit && if master { on(iic::RECEIVE_ENABLED) } else { called };
        return !((on(iic::BUSY) || synchronous) && (can_transmit || can_receive));
    }
    let [_, _, _, phase, _, transmits, loaded, _] = core::array::from_fn(|i| state[iic::FRAME + i]);
    let unloaded = transmits != 0 && loaded == 0;
    let clocked = on(iic::CLOCK_WAIT) || on(iic::HOLD) || on(iic::SYNCHRONIZED_HOLD);
    (!unloaded || has(iic::STATUS, TDRE)) && (!master || clocked || phase == DONE || unloaded && synchronous)
}
