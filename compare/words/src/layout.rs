//! Where the words of what is handed in lie. The Rattle crates clock_calls and calls read and write them at the same
//! places.

pub const TIME: usize = 2;
/// Start, numerator, denominator, ordinal, fraction.
pub const CLOCK: usize = 6;
pub const ORDINAL: usize = 4;
pub const FRACTION: usize = 5;
/// A clock, whether it runs, and the time at which it was held.
pub const DOMAIN: usize = 9;
pub const RUNNING: usize = CLOCK;
pub const HELD_AT: usize = RUNNING + 1;
/// Anchor, phase, whether it runs; then the count of each stage.
pub const DIVIDER: usize = 3;
pub const STAGES_S: usize = 13;
pub const STAGES_W: usize = 8;
pub const PRESCALER_S: usize = DIVIDER + STAGES_S;
pub const PRESCALER_W: usize = DIVIDER + STAGES_W;
/// Source and divider.
pub const TAP: usize = 2;
/// A tap, the number of the state (running, paused, ready) and the state's one or two words.
pub const WAIT: usize = 5;
/// In the order of a tap's sources: system, CPU, watch, on chip, oscillator, subclock.
pub const DOMAINS: usize = 6;
pub const AT_S: usize = DOMAINS * DOMAIN;
pub const AT_W: usize = AT_S + PRESCALER_S;
pub const SET: usize = AT_W + PRESCALER_W;

/// Main, watch and on-chip frequency.
pub const FREQUENCIES: usize = 3;
pub const ARGS: usize = 24;
/// The number of the refusal, 0 for none, and the words of the answer.
pub const OUT: usize = 1 + SET;

pub type Set = [u64; SET];
pub type Args = [u64; ARGS];
pub type Out = [u64; OUT];

pub fn halves(raw: u128) -> [u64; 2] {
    [(raw >> 64) as u64, raw as u64]
}
pub fn joined(high: u64, low: u64) -> u128 {
    u128::from(high) << 64 | u128::from(low)
}
/// The time whose words lie at a place.
pub fn time_at(words: &[u64], at: usize) -> u128 {
    joined(words[at], words[at + 1])
}
/// The words of the domain of a source.
pub fn domain(set: &Set, source: usize) -> &[u64] {
    &set[source * DOMAIN..][..DOMAIN]
}
/// Whether a clock, or the clock of a domain, holds a zero frequency or denominator, or a fraction that isn't below its
/// numerator.
pub fn has_zero(clock: &[u64]) -> bool {
    clock[3] == 0 || clock[2] <= clock[FRACTION]
}
/// Whether some clock of the set does.
pub fn set_has_zero(set: &Set) -> bool {
    (0..DOMAINS).any(|source| has_zero(domain(set, source)))
}
