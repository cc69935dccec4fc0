//! docs/DIFFERENCES.md as tables: the only calls that the port and the two builds of the Rust may end in ways that aren't the
//! same. A parting that no row allows is a difference.
pub mod functions;
pub mod peripheral;
pub mod sensor;
#[cfg(test)]
mod tests;
use words::calls::{Answer, Call, End, Reference, Trap};
use words::layout::{self, Set};

/// How the plain build, the checked one and the port end a call.
pub type Ends = [End; 3];
/// A clock set as either build holds it.
type PlainSet = <reference::Bridge as Reference>::Set;
type CheckedSet = <checked::Bridge as Reference>::Set;

const DONE: End = End::Done;
const BELOW_ZERO: End = End::Trapped(Trap::Subtract);
const TOO_LARGE: End = End::Trapped(Trap::Overflow);
const BY_ZERO: End = End::Trapped(Trap::Divide);
const TWO: End = End::Refused(2);
const SEVEN: End = End::Refused(7);
const EIGHT: End = End::Refused(8);

/// Whose answer and state the port must have at a parting.
#[derive(Clone, Copy, PartialEq, Eq, Debug)]
pub enum Like {
    /// Those of both builds, which agree.
    Both,
    Plain,
    Checked,
    /// The state of the plain build up to a sum of a prescaler that wraps there; the checked build ended before it.
    PlainUpToTheSum,
}

/// A parting that a row allows.
#[derive(Clone, Copy, PartialEq, Eq, Debug)]
pub struct Parting {
    /// The test that keeps the row, by which the page names it.
    pub row: &'static str,
    /// How the port ends the call.
    pub end: End,
    pub like: Like,
}

/// A row of a table. The calls are those of the functions or those of the peripheral, the condition tells what must be so of
/// the input besides.
struct Row<C: 'static, W> {
    name: &'static str,
    calls: &'static [C],
    ends: &'static [Ends],
    like: Like,
    when: W,
}

impl<C: PartialEq, W> Row<C, W> {
    /// What the row has the port do where the plain build and the checked one end a call so.
    fn parting(&self, call: C, plain: End, checked: End) -> Option<Parting> {
        if !self.calls.contains(&call) {
            return None;
        }
        let ends = self.ends.iter().find(|ends| ends[..2] == [plain, checked])?;
        Some(Parting { row: self.name, end: ends[2], like: self.like })
    }
}

/// Every call and its ends that the rows of a table allow.
#[cfg(test)]
fn allowed<C: Copy, W>(rows: &'static [Row<C, W>]) -> Vec<(&'static str, C, Ends)> {
    let of_call = |row: &'static Row<C, W>, call: C| row.ends.iter().map(move |ends| (row.name, call, *ends));
    rows.iter().flat_map(|row| row.calls.iter().flat_map(move |call| of_call(row, *call))).collect()
}

/// The row for a refusal that the Rust doesn't have, and before which it isn't asked.
pub fn row_added(number: u8) -> &'static str {
    match number {
        1 => "a_clock_with_a_zero",
        3 => "stage_out_of_range",
        7 => "high_at_the_last_count",
        9 => "count_or_mode_out_of_range",
        10 => "a_frame_without_bits_to_go",
        14 => "a_rate_set_out_of_range",
        _ => unreachable!("no refusal {number} is added to the Rust's"),
    }
}

/// Whether the level of a domain's clock at a time is found by a difference below zero: a running one before its start.
fn before_start(domain: &[u64], now: u128) -> bool {
    domain[layout::RUNNING] != 0 && now < layout::time_at(domain, 0)
}

/// The same of a stopped one, whose level is that at the time at which it is held.
fn held_before_start(domain: &[u64]) -> bool {
    domain[layout::RUNNING] == 0 && layout::time_at(domain, layout::HELD_AT) < layout::time_at(domain, 0)
}

/// The checked build's count of a tap's edges at a time.
fn ticks(set: &CheckedSet, tap: &[u64], now: u128) -> Answer {
    let [seconds, fraction] = layout::halves(now);
    let mut args = [0; layout::ARGS];
    args[..4].copy_from_slice(&[tap[0], tap[1], seconds, fraction]);
    let mut answer = Answer::empty();
    checked::Bridge::answer(Call::ClocksTicks, Some(set), &args, &mut answer);
    answer
}

/// Whether a prescaler's sum passes 64 bits where a tap's edges are counted.
fn sum_too_large(set: &CheckedSet, tap: &[u64], now: u128) -> bool {
    ticks(set, tap, now).end == TOO_LARGE
}

/// The domain of a set that a tap is on.
fn domain_of<'a>(set: &'a Set, tap: &[u64]) -> &'a [u64] {
    layout::domain(set, tap[0] as usize)
}
