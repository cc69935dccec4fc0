//! What a bench of several units leaves (document 02, (g)).
use crate::iic::State;

pub const UNITS: usize = 4;

#[derive(Clone, PartialEq, Eq, Debug)]
pub struct Left {
    pub refusal: u64,
    pub written: u64,
    pub lines: u64,
    pub states: [State; UNITS],
}
