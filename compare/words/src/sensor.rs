//! The sensor's end of the wires: a state as one word, what an edge is handed, what it leaves. The Rattle crate sensor_calls
//! reads and writes the same bytes.
use crate::calls::End;

/// A state: phase and its two numbers, pointer, bits, shift, low, a byte each, from the lowest on. It is the order of the
/// Rust's fields.
pub type State = u64;
pub const FIELDS: usize = 7;
pub const PHASE: usize = 0;
/// The byte awaited, what follows an acknowledge, the bits read, or whether the master was heard.
pub const FIRST: usize = 1;
/// The edge of an acknowledge, or whether the master acknowledged.
pub const SECOND: usize = 2;
pub const POINTER: usize = 3;
pub const BITS: usize = 4;
pub const SHIFT: usize = 5;
pub const LOW: usize = 6;

pub const IDLE: u8 = 0;
pub const RECEIVE: u8 = 1;
pub const ACKNOWLEDGE: u8 = 2;
pub const READ: u8 = 3;
pub const MASTER_ACKNOWLEDGE: u8 = 4;

/// A field of a state.
pub fn field(state: State, place: usize) -> u8 {
    state.to_le_bytes()[place]
}

/// The state with those fields.
pub fn state(fields: [u8; FIELDS]) -> State {
    let mut bytes = [0; 8];
    bytes[..FIELDS].copy_from_slice(&fields);
    u64::from_le_bytes(bytes)
}

/// The rest of the sensor, as far as i2c.rs looks at it.
#[derive(Clone, Copy, PartialEq, Eq, Debug, Default)]
pub struct Rest {
    pub selected: bool,
    pub unpowered: bool,
    pub not_ready: bool,
    pub quiet: bool,
}

impl Rest {
    pub fn blocked(self) -> bool {
        self.selected || self.unpowered || self.not_ready
    }
}

/// What an edge is handed besides the state. Levels are SCL and SDA.
#[derive(Clone, Copy, PartialEq, Eq, Debug)]
pub struct Given {
    pub tx: Option<u8>,
    pub previous: [bool; 2],
    pub current: [bool; 2],
    pub now: u128,
    pub rest: Rest,
    /// What a conversion leaves, or its refusal. None: the edge comes by `i2c_pins`, which asks for none.
    pub converted: Option<Result<Rest, u8>>,
    /// Whether a quiet time runs after a write, or its refusal.
    pub written: Result<bool, u8>,
    pub prepared: Option<u8>,
}

/// What an edge asked of the rest of the sensor.
#[derive(Clone, Copy, PartialEq, Eq, Debug)]
pub enum Effect {
    Nothing,
    Convert,
    Write(u8, u8),
    Prepare(u8),
    Acknowledge(u8),
}

/// What an edge leaves.
#[derive(Clone, Copy, PartialEq, Eq, Debug)]
pub struct Left {
    pub end: End,
    /// Whether a deadline changed, where the edge was answered.
    pub changed: bool,
    pub state: State,
    pub tx: Option<u8>,
    /// Whether the pair and the shadow were dropped.
    pub cleared: bool,
    /// In their order.
    pub effects: [Effect; 2],
}

/// What can be asked of a state.
#[derive(Clone, Copy, PartialEq, Eq, Debug)]
pub struct Asked {
    /// `effect_edges`, or a trap.
    pub edges: Result<u8, End>,
    pub idle: bool,
    /// `validate` with the rest of the sensor available, and without.
    pub valid: [bool; 2],
    /// What `abort` would leave.
    pub aborted: State,
}

/// A sensor of one build of the Rust, or of the port.
pub trait Sensor {
    fn fresh() -> Self;
    fn made(state: State) -> Self;
    fn edge(&mut self, given: &Given) -> Left;
    fn ask(&mut self) -> Asked;
}
