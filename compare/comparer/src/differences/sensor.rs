//! The rows for the sensor: states that no run from the fresh one reaches, on which the checked build traps. The port does as
//! the plain build does.
use super::{BELOW_ZERO, DONE, TOO_LARGE};
use words::calls::{End, Trap};
use words::sensor::{self, Given, State, BITS, FIRST, PHASE, READ, RECEIVE};

/// A call at which the builds part.
pub enum Call<'a> {
    Edge(&'a Given),
    EffectEdges,
}

/// A parting that a row allows.
pub struct Parting {
    pub row: &'static str,
    pub name: &'static str,
}

const TOO_FAR: End = End::Trapped(Trap::Shift);

/// The rows' names, by which the page has them.
#[cfg(test)]
pub const ROWS: [&str; 3] = ["a_bit_past_255", "a_bit_sent_past_the_eighth", "edges_of_eight_bits_or_more"];

/// The row that allows a call on a state to end so in the plain build, the checked one and the port.
pub fn parting(state: State, call: Call, ends: [End; 3]) -> Option<Parting> {
    let is = |phase: u8| sensor::field(state, PHASE) == phase;
    match call {
        Call::Edge(given) if given.previous[0] < given.current[0] => {
            let wraps = is(RECEIVE) && sensor::field(state, BITS) == 255 && ends == [DONE, TOO_LARGE, DONE];
            wraps.then_some(Parting { row: "a_bit_past_255", name: "i2c_pins, SCL rising" })
        }
        Call::Edge(_) => {
            let wraps = is(READ) && sensor::field(state, FIRST) > 8 && ends == [DONE, TOO_FAR, DONE];
            wraps.then_some(Parting { row: "a_bit_sent_past_the_eighth", name: "i2c_pins, SCL falling" })
        }
        Call::EffectEdges => {
            let wraps = is(RECEIVE) && sensor::field(state, BITS) > 7 && ends == [DONE, BELOW_ZERO, DONE];
            wraps.then_some(Parting { row: "edges_of_eight_bits_or_more", name: "effect_edges" })
        }
    }
}
