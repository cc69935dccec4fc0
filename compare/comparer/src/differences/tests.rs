//! docs/DIFFERENCES.md, row by row: how the plain build of the Rust, the checked one and the port end just the call that the
//! page names, and that the tables allow it by the row of the test's name.
mod decided;
mod peripheral;
mod sensor;
use super::{functions, peripheral as machines, sensor as sensors};
use crate::inputs::{counted, plain_set, FREQUENCIES as DEFAULT};
use crate::judge::{self, Judge};
use traffic::exact;
use words::calls::{self, Answer, Call, End, Reference};
use words::layout::{self, Set};

const FASTEST: [u64; 3] = [u64::MAX, 32_768, 1_310_720];
const TOP: u64 = u64::MAX;
/// Source and divider.
const SYSTEM_1: [u64; 2] = [0, 1];
const SYSTEM_2: [u64; 2] = [0, 2];
const CPU_0: [u64; 2] = [1, 0];
const SUBCLOCK: [u64; 2] = [5, 1];
const RUNNING: u64 = 0;
const PAUSED: u64 = 1;
const READY: u64 = 2;
const BELOW_ZERO: &str = "trapped (Subtract)";
const TOO_LARGE: &str = "trapped (Overflow)";
const TOO_FAR: &str = "trapped (Shift)";
const BY_ZERO: &str = "trapped (Divide)";
const NO_PLACE: &str = "trapped (Index)";

/// The number of a refusal, "trapped", or "answered" and the words of the answer.
fn seen(answer: &Answer, gives: usize) -> String {
    match answer.end {
        End::Done => format!("answered {:?}", &answer.words[1..=gives]),
        End::Refused(number) => number.to_string(),
        End::Trapped(trap) => format!("trapped ({trap:?})"),
    }
}

/// The row by which a call may end so: the given one, or none where all end alike.
fn row_of(row: &'static str, ends: [&str; 3]) -> Option<&'static str> {
    (ends[0] != ends[1] || ends[1] != ends[2]).then_some(row)
}

/// The ends of a call in the plain build, the checked one and the port, and the row that allows them.
fn check(row: &'static str, call: Call, set: &Set, given: &[u64], expected: [&str; 3]) {
    let function = calls::TIME.iter().chain(calls::CLOCKS).find(|f| f.call == call).unwrap();
    let mut args = [0; layout::ARGS];
    args[..given.len()].copy_from_slice(given);
    let sets = judge::sets(set);
    let (plain_set, checked_set) = sets.as_ref().unwrap();
    let mut answers = [Answer::empty(), Answer::empty(), Answer::empty()];
    reference::Bridge::answer(call, function.set.then_some(plain_set), &args, &mut answers[0]);
    checked::Bridge::answer(call, function.set.then_some(checked_set), &args, &mut answers[1]);
    port::answer(call, set, &args, &mut answers[2]);
    assert_eq!(answers.map(|answer| seen(&answer, function.gives)), expected, "{} {given:?}", function.name);
    let mut judge = Judge::new();
    let wanted = judge.run(function, set, &sets, &args);
    assert_eq!(wanted.row(), row_of(row, expected), "{} {given:?}", function.name);
    assert!(judge.agrees(function, &args, wanted), "{} {given:?}", function.name);
}

/// A prescaler's words: anchor, phase, running, what the stages have counted, and behind them stage and parent.
fn staged(stages: usize, counted: u64, stage: u64, parent: u64) -> Vec<u64> {
    [&[0, 0, 1][..], &vec![counted; stages], &[stage, parent]].concat()
}

/// The system prescaler's.
fn prescaler(counted: u64, stage: u64, parent: u64) -> Vec<u64> {
    staged(layout::STAGES_S, counted, stage, parent)
}

/// The fraction at which an edge of the default system clock falls.
fn system_edge(edge: u64) -> u64 {
    ((u128::from(edge) << 64) / 3_686_400) as u64
}

/// A set whose clocks start at 0:0000000000000001 and whose system clock stands still, held at time 0.
fn held_early() -> Set {
    let mut set = plain_set(1, DEFAULT);
    set[layout::RUNNING..layout::DOMAIN].fill(0);
    set
}

/// The half count of a set, and that of its system domain alone.
fn check_half_ticks(row: &'static str, set: &Set, now: [u64; 2], expected: [&str; 3]) {
    check(row, Call::HalfTicks, set, &now, expected);
    check(row, Call::DomainHalfTicks, set, &[layout::domain(set, 0), &now].concat(), expected);
}

#[test]
fn level_before_the_start() {
    const ROW: &str = "level_before_the_start";
    let set = plain_set(1, DEFAULT);
    check(ROW, Call::ClocksHigh, &set, &[0, 1, 0, 0], ["answered [0]", BELOW_ZERO, "answered [0]"]);
    check_half_ticks(ROW, &set, [0, 0], ["answered [1]", BELOW_ZERO, "answered [1]"]);
    check_half_ticks(ROW, &set, [0, 1], ["answered [0]"; 3]);
}

#[test]
fn high_at_the_last_count() {
    const ROW: &str = "high_at_the_last_count";
    let set = plain_set(0, FASTEST);
    check(ROW, Call::ClocksHigh, &set, &[0, 1, 1, 0], ["answered [1]", TOO_LARGE, "7"]);
    check_half_ticks(ROW, &set, [1, 0], ["7"; 3]);
}

#[test]
fn divider_zero() {
    const ROW: &str = "divider_zero";
    let set = plain_set(0, DEFAULT);
    let running = [CPU_0[0], CPU_0[1], RUNNING, 0, 0];
    let with = |more: &[u64]| [&running[..], more].concat();
    let traps = [BY_ZERO, BY_ZERO, "2"];
    check(ROW, Call::ClocksTicks, &set, &[1, 0, 0, 0], traps);
    check(ROW, Call::ClocksAfter, &set, &[1, 0, 0, 0, 1], traps);
    check(ROW, Call::WaitPause, &set, &with(&[0, 0]), traps);
    check(ROW, Call::WaitEdgesBefore, &set, &with(&[0, 1]), traps);
    check(ROW, Call::WaitSelect, &set, &with(&[SYSTEM_1[0], SYSTEM_1[1], 0, 0]), traps);
    // Where a wait is started the Rust refuses by itself.
    check(ROW, Call::WaitAfter, &set, &[1, 0, 0, 0, 1], ["2"; 3]);
    check(ROW, Call::WaitSelect, &set, &with(&[CPU_0[0], CPU_0[1], 0, 0]), ["2"; 3]);
    check(ROW, Call::ClocksEdge, &set, &[1, 0, 5], ["answered [0, 0]"; 3]);
}

#[test]
fn stage_out_of_range() {
    const ROW: &str = "stage_out_of_range";
    let set = plain_set(0, DEFAULT);
    let indexed = [NO_PLACE, BELOW_ZERO, "3"];
    check(ROW, Call::TicksS, &set, &prescaler(0, 0, 0), indexed);
    check(ROW, Call::ParentEdgeS, &set, &prescaler(0, 0, 0), indexed);
    check(ROW, Call::TicksS, &set, &prescaler(0, 14, 0), [NO_PLACE, NO_PLACE, "3"]);
    check(ROW, Call::ParentEdgeS, &set, &prescaler(0, 14, 0), [NO_PLACE, NO_PLACE, "3"]);
    check(ROW, Call::HighS, &set, &prescaler(0, 0, 0), ["answered [1]", BELOW_ZERO, "3"]);
    check(ROW, Call::HighS, &set, &prescaler(0, 14, 0), ["answered [1]", "answered [1]", "3"]);
    check(ROW, Call::HighS, &set, &prescaler(0, 65, 0), ["answered [1]", TOO_FAR, "3"]);
    check(ROW, Call::CrossingsS, &set, &[0, 0, 0], indexed);
    // The watch clock's has 8.
    let watch = |stage: u64| staged(layout::STAGES_W, 0, stage, 0);
    check(ROW, Call::TicksW, &set, &watch(0), indexed);
    check(ROW, Call::TicksW, &set, &watch(9), [NO_PLACE, NO_PLACE, "3"]);
    check(ROW, Call::ParentEdgeW, &set, &watch(9), [NO_PLACE, NO_PLACE, "3"]);
    check(ROW, Call::HighW, &set, &watch(9), ["answered [1]", "answered [1]", "3"]);
    check(ROW, Call::TicksW, &set, &watch(8), ["answered [0]"; 3]);
}

#[test]
fn level_of_a_clock_held_before_its_start() {
    const ROW: &str = "level_of_a_clock_held_before_its_start";
    for now in [0, 1, TOP] {
        check(ROW, Call::ClocksHigh, &held_early(), &[0, 1, 0, now], ["answered [0]", BELOW_ZERO, "answered [0]"]);
        check_half_ticks(ROW, &held_early(), [0, now], ["answered [1]", BELOW_ZERO, "answered [1]"]);
    }
    // Held at its start.
    let mut set = held_early();
    set[layout::HELD_AT + 1] = 1;
    check_half_ticks(ROW, &set, [0, 0], ["answered [0]"; 3]);
}

/// At the second edge of the system clock the sum is 2^64, which wraps to 0; at the fourth it wraps to 1.
#[test]
fn prescaler_sum() {
    const ROW: &str = "prescaler_sum";
    let (set, at, later) = (counted(TOP), system_edge(2), system_edge(4));
    check(ROW, Call::TicksS, &set, &prescaler(TOP, 1, 2), ["answered [0]", TOO_LARGE, "7"]);
    check(ROW, Call::TicksW, &set, &staged(layout::STAGES_W, TOP, 1, 2), ["answered [0]", TOO_LARGE, "7"]);
    check(ROW, Call::ClocksTicks, &set, &[0, 2, 0, at], ["answered [0]", TOO_LARGE, "7"]);
    for call in [Call::ClocksAfter, Call::WaitAfter] {
        check(ROW, call, &set, &[0, 2, 0, at, 1], ["8", TOO_LARGE, "7"]);
        check(ROW, call, &set, &[0, 2, 0, later, TOP], ["7", TOO_LARGE, "7"]);
    }
    check(ROW, Call::ClocksAfter, &set, &[0, 2, 0, at, TOP], ["answered [0, 0]", TOO_LARGE, "7"]);
    let made = "answered [0, 2, 0, 18446744073709551615, 0]";
    check(ROW, Call::WaitAfter, &set, &[0, 2, 0, at, TOP], [made, TOO_LARGE, "7"]);
    let paused = |left: u64, now: u64| [SYSTEM_2[0], SYSTEM_2[1], PAUSED, left, 0, 0, now];
    check(ROW, Call::WaitResume, &set, &paused(1, at), ["8", TOO_LARGE, "7"]);
    check(ROW, Call::WaitResume, &set, &paused(TOP, later), ["7", TOO_LARGE, "7"]);
    check(ROW, Call::WaitResume, &set, &paused(TOP, at), [made, TOO_LARGE, "7"]);
}

/// The same inside what else counts: the edges before a time, a wait that goes on behind another tap, and the edges after
/// one that is ready.
#[test]
fn prescaler_sum_of_other_waits() {
    const ROW: &str = "prescaler_sum_of_other_waits";
    let (set, at, later) = (counted(TOP), system_edge(2), system_edge(4));
    let before = [SYSTEM_2[0], SYSTEM_2[1], RUNNING, 1, 0, 0, at + 1];
    check(ROW, Call::WaitEdgesBefore, &set, &before, ["answered [0]", TOO_LARGE, "7"]);
    let ready = |now: u64, count: u64| [SYSTEM_2[0], SYSTEM_2[1], READY, 0, now, count];
    check(ROW, Call::WaitLaterEdge, &set, &ready(at, 1), ["8", TOO_LARGE, "7"]);
    check(ROW, Call::WaitLaterEdge, &set, &ready(later, TOP), ["7", TOO_LARGE, "7"]);
    check(ROW, Call::WaitLaterEdge, &set, &ready(at, TOP), ["answered [1, 0, 0]", TOO_LARGE, "7"]);
    // The subclock has no edge yet, so that all of the target is left.
    let selected = |left: u64, now: u64| [SUBCLOCK[0], SUBCLOCK[1], RUNNING, left, 0, SYSTEM_2[0], SYSTEM_2[1], 0, now];
    check(ROW, Call::WaitSelect, &set, &selected(1, at), ["8", TOO_LARGE, "7"]);
    check(ROW, Call::WaitSelect, &set, &selected(TOP, later), ["7", TOO_LARGE, "7"]);
    let made = "answered [0, 2, 0, 18446744073709551615, 0]";
    check(ROW, Call::WaitSelect, &set, &selected(TOP, at), [made, TOO_LARGE, "7"]);
    // A system clock that was moved up by two edges and stands still: no time is past for it.
    let mut moved = set;
    moved[..layout::CLOCK].copy_from_slice(&exact::moved(&exact::clock(layout::domain(&set, 0)), 2));
    moved[layout::RUNNING] = 0;
    let pause = [SYSTEM_2[0], SYSTEM_2[1], RUNNING, TOP, 0, 0, at];
    check(ROW, Call::WaitPause, &moved, &pause, ["answered [0, 2, 1, 18446744073709551615, 0]", TOO_LARGE, "7"]);
}

#[test]
fn no_number_after_the_count() {
    const ROW: &str = "no_number_after_the_count";
    let set = plain_set(0, FASTEST);
    let running = [SYSTEM_1[0], SYSTEM_1[1], RUNNING, 1, 0];
    let with = |end: [u64; 2]| [&running[..], &end[..]].concat();
    check(ROW, Call::WaitEdgesBefore, &set, &with([1, 1]), ["answered [0]", TOO_LARGE, "7"]);
    check(ROW, Call::WaitEdgesBefore, &set, &with([1, 0]), ["answered [18446744073709551614]"; 3]);
}

#[test]
fn a_clock_with_a_zero() {
    let mut set = plain_set(0, DEFAULT);
    // The subclock's denominator, though only the system domain is asked for.
    set[layout::AT_S - layout::DOMAIN + 3] = 0;
    assert!(judge::sets(&set).is_none());
    let mut answer = Answer::empty();
    for function in calls::CLOCKS.iter().filter(|function| function.set && function.call != Call::ClocksHasZero) {
        port::answer(function.call, &set, &[0; layout::ARGS], &mut answer);
        assert_eq!(answer.end, End::Refused(1), "{}", function.name);
    }
    check("a_clock_with_a_zero", Call::ClockNew, &plain_set(0, DEFAULT), &[0, 0, 0, 1], ["1"; 3]);
}

const PAGE: &str = include_str!("../../../../docs/DIFFERENCES.md");
const HERE: &str = include_str!("tests.rs");
const THERE: &str = include_str!("tests/peripheral.rs");
const SENSOR: &str = include_str!("tests/sensor.rs");

/// The rows of the tables are rows of the page, by the name of a test that there is.
#[test]
fn rows_of_the_tables_are_on_the_page() {
    let added = [1, 3, 9, 10, 14].map(super::row_added);
    for name in functions::allowed()
        .into_iter()
        .map(|(name, _, _)| name)
        .chain(machines::names().map(|(name, _)| name))
        .chain(sensors::ROWS)
        .chain(added)
    {
        assert!(PAGE.lines().any(|line| line.starts_with("| ") && line.contains(&format!("`{name}`"))), "{name}");
        let test = format!("#[test]\nfn {name}() {{");
        assert!([HERE, THERE, SENSOR].iter().any(|file| file.contains(&test)), "{name}");
    }
}

/// Only the first row on the peripheral can be met from the default, as the page says.
#[test]
fn rows_met_from_the_default() {
    let (_, peripheral) = PAGE.split_once("## The peripheral").unwrap();
    let first = peripheral.lines().filter(|line| line.starts_with("| ")).nth(1).unwrap();
    for (name, _) in machines::names() {
        let from_default = machines::names().any(|row| row == (name, true));
        assert_eq!(first.contains(&format!("`{name}`")), from_default, "{name}");
    }
    assert!(peripheral.contains("Of these rows only the first can be met from the default"));
}
