//! The peripheral: where the words of its state lie, which is the order of the Rust's fields and then the rate set, and its
//! calls.
use crate::calls::{Answer, Reference};
use crate::layout::{self, Args, WAIT};
use crate::rates::{self, Rates};

pub const CONTROL: usize = 0;
pub const MODE: usize = 1;
pub const COUNT: usize = 2;
pub const ENABLE: usize = 3;
pub const STATUS: usize = 4;
pub const SEEN: usize = 5;
pub const ADDRESS: usize = 6;
/// Behind the nine registers: busy, reset, gate.
pub const BUSY: usize = 9;
pub const RESET: usize = 10;
pub const GATE: usize = 11;
/// SCL and SDA of each: driven, given, latched, filtered.
pub const DRIVE: usize = 12;
pub const RAW: usize = 14;
pub const LATCH: usize = 16;
pub const FILTERED: usize = 18;
/// A wait that may be absent: 0, or 1 and its words.
pub const FILTER_WAIT: usize = 20;
/// A half wait that may be absent: 0, or 1, its count and whether it is paused.
pub const CLOCK_WAIT: usize = FILTER_WAIT + 1 + WAIT;
pub const MONITOR_WAIT: usize = CLOCK_WAIT + 3;
pub const SETUP_WAIT: usize = MONITOR_WAIT + 3;
pub const SYNCHRONIZED_HOLD: usize = SETUP_WAIT + 1 + WAIT;
/// 0, or 1 and the number of the condition; so the command and the hold.
pub const CONDITION: usize = SYNCHRONIZED_HOLD + 1;
pub const COMMAND: usize = CONDITION + 2;
/// 0, or 1, shift, remaining, phase, address, transmit, loaded, last.
pub const FRAME: usize = COMMAND + 2;
pub const SELECTED: usize = FRAME + 8;
pub const COMPLETED: usize = SELECTED + 1;
pub const HOLD: usize = COMPLETED + 1;
pub const RECEIVE_ENABLED: usize = HOLD + 2;
pub const RECEIVE_STOPPED: usize = RECEIVE_ENABLED + 1;
/// 0, or 1 and the time.
pub const EIGHTH_FALL: usize = RECEIVE_STOPPED + 1;
pub const STALE_RELEASE: usize = EIGHTH_FALL + 3;
/// The words of the Rust's fields.
pub const FIELDS: usize = STALE_RELEASE + 1;
/// The rate set, which the Rust doesn't have.
pub const RATES: usize = FIELDS;
pub const STATE: usize = RATES + rates::RATES;

pub type State = [u64; STATE];

/// A state of zeros with that rate set.
pub fn blank(rates: &Rates) -> State {
    let mut state = [0; STATE];
    state[RATES..].copy_from_slice(&rates.words());
    state
}

/// The rate set of a state.
pub fn rates(state: &State) -> Rates {
    Rates::of(&state[RATES..])
}

/// Flags of the status; AAS and ADZ are below them.
pub const TDRE: u64 = 0x80;
pub const TEND: u64 = 0x40;
pub const RDRF: u64 = 0x20;
pub const NACKF: u64 = 0x10;
pub const STOP: u64 = 8;
pub const AL: u64 = 4;

/// The arguments are the time, then the operands. The crate calls knows each by its place in this list.
#[derive(Clone, Copy, PartialEq, Eq, Debug)]
pub enum Call {
    /// Address; the byte.
    Read,
    /// Address and byte.
    Write,
    /// SCL and SDA; whether the change is noticed.
    InputPins,
    /// Gate.
    SetGate,
    Advance,
    /// 0, or 1 and the time.
    Deadline,
    Validate,
    /// An address and a byte of enables; the eight registers from that address on by `peek`, `pins` (0, or 1 and the
    /// levels), `interrupt` and `interrupt_with_enable`.
    Observe,
}

/// The arguments of a call: its time, then its operands.
pub fn args(now: u128, operands: [u64; 2]) -> Args {
    let mut args = [0; layout::ARGS];
    args[..2].copy_from_slice(&layout::halves(now));
    args[2..4].copy_from_slice(&operands);
    args
}

impl Call {
    /// How many words the call answers.
    pub fn gives(self) -> usize {
        match self {
            Call::Read | Call::InputPins => 1,
            Call::Deadline => 3,
            Call::Observe => 13,
            _ => 0,
        }
    }
    /// Whether the call is handed a clock set.
    pub fn takes_set(self) -> bool {
        !matches!(self, Call::Validate | Call::Observe)
    }
    /// Whether it can change the state.
    pub fn changes(self) -> bool {
        self.takes_set() && self != Call::Deadline
    }
}

/// The peripheral of one build of the Rust.
pub trait Peripheral: Reference {
    type State;
    /// The state before the first call, with that rate set.
    fn fresh(rates: &Rates) -> Self::State;
    fn state(words: &State) -> Self::State;
    fn words(state: &Self::State, out: &mut Vec<u64>);
    fn call(call: Call, state: &mut Self::State, set: &Self::Set, args: &Args, out: &mut Answer);
}
