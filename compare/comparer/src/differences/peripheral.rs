//! The rows for the peripheral.
use super::{before_start, held_before_start, sum_too_large, CheckedSet, Ends, Like, Parting, PlainSet, Row};
use super::{BELOW_ZERO, BY_ZERO, DONE, EIGHT, SEVEN, TOO_LARGE, TWO};
use words::calls::{self, Answer, End, Reference};
use words::iic::{self, Call, Peripheral, State};
use words::layout::{self, Args, Set};

/// Where a run begins: at the default, or at a state made at random that `validate` accepts or refuses.
#[derive(Clone, Copy, PartialEq, Eq, Debug)]
pub enum Origin {
    Default,
    Accepted,
    Refused,
}

/// What a call was handed.
pub struct Handed<'a> {
    pub origin: Origin,
    pub state: &'a State,
    pub words: &'a Set,
    pub plain_set: &'a PlainSet,
    pub checked_set: &'a CheckedSet,
    pub args: &'a Args,
}

/// From where runs can meet the row, and what must be so of the input besides.
struct When {
    origins: &'static [Origin],
    holds: fn(&Handed) -> bool,
}

const ANY: &[Origin] = &[Origin::Default, Origin::Accepted, Origin::Refused];
const MADE: &[Origin] = &[Origin::Accepted, Origin::Refused];
/// A wait with the divider 0 is what `validate` refuses.
const REFUSED: &[Origin] = &[Origin::Refused];

/// All calls at which the Rust asks for a half count.
const COUNT_HALVES: &[Call] = &[Call::Read, Call::Write, Call::SetGate, Call::Advance];
const GOES_ON: &[Ends] = &[[DONE, BELOW_ZERO, DONE]];
/// Refused after the level, later in the same call.
const SEVEN_LATER: Ends = [SEVEN, BELOW_ZERO, SEVEN];
const EIGHT_LATER: Ends = [EIGHT, BELOW_ZERO, EIGHT];

/// Looked at in this order: a sum that wraps in the plain build ends the port's call, whatever the plain one makes of it.
const ROWS: &[Row<Call, When>] = &[
    Row {
        name: "prescaler_sum_after_a_level",
        calls: &[Call::SetGate],
        ends: &[[DONE, BELOW_ZERO, SEVEN], [SEVEN, BELOW_ZERO, SEVEN], [EIGHT, BELOW_ZERO, SEVEN]],
        like: Like::PlainUpToTheSum,
        when: When { origins: MADE, holds: sum_after_a_level },
    },
    Row {
        name: "prescaler_sum_after_a_level",
        calls: &[Call::SetGate],
        ends: &[[TWO, BELOW_ZERO, SEVEN]],
        like: Like::PlainUpToTheSum,
        when: When { origins: REFUSED, holds: sum_after_a_level },
    },
    Row {
        name: "times_before_the_start",
        calls: COUNT_HALVES,
        ends: GOES_ON,
        like: Like::Plain,
        when: When { origins: ANY, holds: early },
    },
    Row {
        name: "refused_before_the_start",
        calls: &[Call::SetGate],
        ends: &[SEVEN_LATER, EIGHT_LATER],
        like: Like::Plain,
        when: When { origins: ANY, holds: early },
    },
    Row {
        name: "refused_before_the_start",
        calls: &[Call::Advance],
        ends: &[SEVEN_LATER],
        like: Like::Plain,
        when: When { origins: ANY, holds: early },
    },
    Row {
        name: "refused_before_the_start",
        calls: &[Call::Advance],
        ends: &[EIGHT_LATER],
        like: Like::Plain,
        when: When { origins: MADE, holds: early },
    },
    Row {
        name: "a_clock_held_before_its_start",
        calls: COUNT_HALVES,
        ends: GOES_ON,
        like: Like::Plain,
        when: When { origins: MADE, holds: held },
    },
    // Where the ordinal is near 2^63.
    Row {
        name: "refused_before_the_start",
        calls: &[Call::Read, Call::Write],
        ends: &[SEVEN_LATER],
        like: Like::Plain,
        when: When { origins: ANY, holds: early },
    },
    Row {
        name: "a_clock_held_before_its_start",
        calls: &[Call::Read, Call::Write],
        ends: &[SEVEN_LATER],
        like: Like::Plain,
        when: When { origins: MADE, holds: held },
    },
    Row {
        name: "a_clock_held_before_its_start",
        calls: &[Call::SetGate, Call::Advance],
        ends: &[SEVEN_LATER, EIGHT_LATER],
        like: Like::Plain,
        when: When { origins: MADE, holds: held },
    },
    Row {
        name: "divider_zero_of_a_wait",
        calls: &[Call::SetGate],
        ends: &[[BY_ZERO, BY_ZERO, TWO]],
        like: Like::Both,
        when: When { origins: REFUSED, holds: has_divider_zero },
    },
    Row {
        name: "divider_zero_after_a_level",
        calls: &[Call::SetGate],
        ends: &[[BY_ZERO, BELOW_ZERO, TWO], [TWO, BELOW_ZERO, TWO]],
        like: Like::Plain,
        when: When { origins: REFUSED, holds: |handed| (early(handed) || held(handed)) && has_divider_zero(handed) },
    },
    Row {
        name: "prescaler_sum_of_a_wait",
        calls: &[Call::SetGate],
        ends: &[[DONE, TOO_LARGE, SEVEN], [SEVEN, TOO_LARGE, SEVEN], [EIGHT, TOO_LARGE, SEVEN]],
        like: Like::Checked,
        when: When { origins: MADE, holds: |handed| at_the_sum(handed).is_some() },
    },
    Row {
        name: "prescaler_sum_of_a_wait",
        calls: &[Call::SetGate],
        ends: &[[TWO, TOO_LARGE, SEVEN], [BY_ZERO, TOO_LARGE, SEVEN]],
        like: Like::Checked,
        when: When { origins: REFUSED, holds: |handed| at_the_sum(handed).is_some() },
    },
];

/// The parting that a row allows where both builds of the Rust end a call so.
pub fn parting(call: Call, handed: &Handed, plain: End, checked: End) -> Option<Parting> {
    let allows = |row: &Row<Call, When>| row.when.origins.contains(&handed.origin) && (row.when.holds)(handed);
    ROWS.iter().find_map(|row| row.parting(call, plain, checked).filter(|_| allows(row)))
}

/// Whether the system clock's level is asked for before its start.
fn early(handed: &Handed) -> bool {
    before_start(layout::domain(handed.words, 0), layout::time_at(handed.args, 0))
}

/// Whether the system clock stands still at a time before its start.
fn held(handed: &Handed) -> bool {
    held_before_start(layout::domain(handed.words, 0))
}

/// Whether a sum passes 64 bits behind a prescaler, after a level that the checked build can't tell.
fn sum_after_a_level(handed: &Handed) -> bool {
    (early(handed) || held(handed)) && plain_up_to_the_sum(handed).is_some()
}

/// The words of a wait that is there.
fn wait(state: &State, place: usize) -> Option<&[u64]> {
    (state[place] != 0).then(|| &state[place + 1..][..layout::WAIT])
}

/// Whether there is a wait with the divider 0.
fn has_divider_zero(handed: &Handed) -> bool {
    [iic::FILTER_WAIT, iic::SETUP_WAIT]
        .into_iter()
        .filter_map(|place| wait(handed.state, place))
        .any(|wait| wait[1] == 0)
}

/// The place of the first wait that a gate, opened, would go on with, or closed, would pause, behind a prescaler whose sum passes
/// 64 bits; it pauses one only where the clock, moved up, stands still or hasn't started. One with the divider 0 before it ends
/// the call there.
fn at_the_sum(handed: &Handed) -> Option<usize> {
    const RUNNING: u64 = 0;
    const PAUSED: u64 = 1;
    let now = layout::time_at(handed.args, 0);
    let turned = if handed.args[2] == 0 { RUNNING } else { PAUSED };
    let ends_the_call = |place: &usize| {
        wait(handed.state, *place).is_some_and(|wait| {
            let counted = if turned == RUNNING { is_ahead(handed.checked_set, wait, now) } else { wait[3] != 0 };
            wait[2] == turned && (wait[1] == 0 || counted && sum_too_large(handed.checked_set, wait, now))
        })
    };
    let first = [iic::FILTER_WAIT, iic::SETUP_WAIT].into_iter().find(ends_the_call)?;
    (handed.state[first + 2] != 0).then_some(first)
}

/// Whether a wait's time is none, or a time that isn't past, so that what is left of it is counted.
fn is_ahead(set: &CheckedSet, wait: &[u64], now: u128) -> bool {
    let (mut args, mut answer) = ([0; layout::ARGS], Answer::empty());
    args[..layout::WAIT].copy_from_slice(wait);
    checked::Bridge::answer(calls::Call::WaitDeadline, Some(set), &args, &mut answer);
    answer.end == DONE && (answer.words[1] == 0 || layout::time_at(&answer.words, 2) >= now)
}

/// The state in which the plain build comes to such a wait, where it does: the call is made without that wait and those after it,
/// and not enabled, so that it ends there.
pub fn plain_up_to_the_sum(handed: &Handed) -> Option<Vec<u64>> {
    const ENABLED: u64 = 0x80;
    let first = at_the_sum(handed)?;
    let later = [iic::FILTER_WAIT, iic::SETUP_WAIT].into_iter().filter(|place| *place >= first);
    let mut state = *handed.state;
    state[iic::CONTROL] &= !ENABLED;
    later.clone().for_each(|place| state[place] = 0);
    let mut plain = reference::Bridge::state(&state);
    let (mut answer, mut left) = (Answer::empty(), Vec::new());
    reference::Bridge::call(Call::SetGate, &mut plain, handed.plain_set, handed.args, &mut answer);
    reference::Bridge::words(&plain, &mut left);
    left[iic::CONTROL] = handed.state[iic::CONTROL];
    for place in later {
        left[place..=place + layout::WAIT].copy_from_slice(&handed.state[place..=place + layout::WAIT]);
    }
    (answer.end == DONE).then_some(left)
}

/// The names of the rows, and whether a run from the default can meet them.
#[cfg(test)]
pub fn names() -> impl Iterator<Item = (&'static str, bool)> {
    ROWS.iter().map(|row| (row.name, row.when.origins.contains(&Origin::Default)))
}

/// Every call and its ends that a row allows.
#[cfg(test)]
pub fn allowed() -> Vec<(&'static str, Call, Ends)> {
    super::allowed(ROWS)
}
