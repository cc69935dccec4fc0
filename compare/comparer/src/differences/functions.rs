//! The rows for the functions below the peripheral.
use super::{before_start, domain_of, held_before_start, sum_too_large, ticks, CheckedSet, Ends, Like, Parting, Row};
use super::{BELOW_ZERO, BY_ZERO, DONE, EIGHT, SEVEN, TOO_LARGE, TWO};
use words::calls::{Call, End};
use words::layout::{self, Args, Set};

/// What a function was handed.
pub struct Handed<'a> {
    pub words: &'a Set,
    /// None at a function that takes no set.
    pub set: Option<&'a CheckedSet>,
    pub args: &'a Args,
}

type Condition = fn(Call, &Handed) -> bool;

/// The plain build wraps and answers, or refuses what it made of that.
const WRAPPED: &[Ends] = &[[DONE, TOO_LARGE, SEVEN], [SEVEN, TOO_LARGE, SEVEN], [EIGHT, TOO_LARGE, SEVEN]];
const ANSWERED: &[Ends] = &[[DONE, TOO_LARGE, SEVEN]];
const GOES_ON: &[Ends] = &[[DONE, BELOW_ZERO, DONE]];

const ROWS: &[Row<Call, Condition>] = &[
    Row {
        name: "level_before_the_start",
        calls: &[Call::ClocksHigh, Call::HalfTicks, Call::DomainHalfTicks],
        ends: GOES_ON,
        like: Like::Plain,
        when: |call, handed| {
            let (domain, now) = level_asked(call, handed);
            before_start(domain, now)
        },
    },
    Row {
        name: "level_of_a_clock_held_before_its_start",
        calls: &[Call::ClocksHigh, Call::HalfTicks, Call::DomainHalfTicks],
        ends: GOES_ON,
        like: Like::Plain,
        when: |call, handed| held_before_start(level_asked(call, handed).0),
    },
    Row {
        name: "high_at_the_last_count",
        calls: &[Call::ClocksHigh],
        ends: ANSWERED,
        like: Like::Checked,
        when: |_, handed| counts_to_the_top(handed, &[handed.args[0], 1], layout::time_at(handed.args, 2)),
    },
    Row {
        name: "divider_zero",
        calls: &[Call::ClocksTicks, Call::ClocksAfter, Call::WaitPause, Call::WaitEdgesBefore, Call::WaitSelect],
        ends: &[[BY_ZERO, BY_ZERO, TWO]],
        like: Like::Both,
        when: |_, handed| handed.args[1] == 0,
    },
    Row {
        name: "prescaler_sum",
        calls: &[Call::TicksS, Call::TicksW],
        ends: ANSWERED,
        like: Like::Checked,
        when: |_, _| true,
    },
    Row {
        name: "prescaler_sum",
        calls: &[Call::ClocksTicks],
        ends: ANSWERED,
        like: Like::Checked,
        when: prescaler_sum,
    },
    Row {
        name: "prescaler_sum",
        calls: &[Call::ClocksAfter, Call::WaitAfter, Call::WaitResume],
        ends: WRAPPED,
        like: Like::Checked,
        when: prescaler_sum,
    },
    Row {
        name: "prescaler_sum_of_other_waits",
        calls: &[Call::WaitEdgesBefore],
        ends: ANSWERED,
        like: Like::Checked,
        when: prescaler_sum,
    },
    Row {
        name: "prescaler_sum_of_other_waits",
        calls: &[Call::WaitPause],
        ends: &[[DONE, TOO_LARGE, SEVEN], [EIGHT, TOO_LARGE, SEVEN]],
        like: Like::Checked,
        when: prescaler_sum,
    },
    Row {
        name: "prescaler_sum_of_other_waits",
        calls: &[Call::WaitSelect, Call::WaitLaterEdge],
        ends: WRAPPED,
        like: Like::Checked,
        when: prescaler_sum,
    },
    Row {
        name: "no_number_after_the_count",
        calls: &[Call::WaitEdgesBefore],
        ends: ANSWERED,
        like: Like::Checked,
        when: |_, handed| {
            let end = layout::time_at(handed.args, layout::WAIT);
            counts_to_the_top(handed, handed.args, end.wrapping_sub(1))
        },
    },
];

/// The parting that a row allows where both builds of the Rust end a call so.
pub fn parting(call: Call, handed: &Handed, plain: End, checked: End) -> Option<Parting> {
    ROWS.iter().find_map(|row| row.parting(call, plain, checked).filter(|_| (row.when)(call, handed)))
}

/// The domain whose level is asked for, and the time. The half counts of a set ask for that of the system clock.
fn level_asked<'a>(call: Call, handed: &Handed<'a>) -> (&'a [u64], u128) {
    let args = handed.args;
    match call {
        Call::DomainHalfTicks => (&args[..layout::DOMAIN], layout::time_at(args, layout::DOMAIN)),
        Call::HalfTicks => (domain_of(handed.words, &[0, 1]), layout::time_at(args, 0)),
        _ => (domain_of(handed.words, args), layout::time_at(args, layout::TAP)),
    }
}

fn counts_to_the_top(handed: &Handed, tap: &[u64], now: u128) -> bool {
    handed.set.is_some_and(|set| {
        let answer = ticks(set, tap, now);
        answer.end == DONE && answer.words[1] == u64::MAX
    })
}

/// Whether a prescaler's sum passes 64 bits at the tap and the time at which the function counts.
fn prescaler_sum(call: Call, handed: &Handed) -> bool {
    let args = handed.args;
    let behind_wait = &args[layout::WAIT..];
    let (tap, now) = match call {
        Call::WaitPause | Call::WaitResume => (&args[..], layout::time_at(behind_wait, 0)),
        Call::WaitEdgesBefore => (&args[..], layout::time_at(behind_wait, 0).wrapping_sub(1)),
        // The tap that is selected.
        Call::WaitSelect => (behind_wait, layout::time_at(behind_wait, layout::TAP)),
        // Only a wait that is ready counts there, from the time at which it is.
        Call::WaitLaterEdge => (&args[..], layout::time_at(args, 3)),
        _ => (&args[..], layout::time_at(args, layout::TAP)),
    };
    // On the old tap a wait that is so far behind is past, and refused before it is counted, unless its clock, moved up, stands
    // still or hasn't started.
    let paused = call == Call::WaitSelect;
    handed.set.is_some_and(|set| sum_too_large(set, tap, now) || paused && sum_too_large(set, args, now))
}

/// Every call and its ends that a row allows.
#[cfg(test)]
pub fn allowed() -> Vec<(&'static str, Call, Ends)> {
    super::allowed(ROWS)
}
