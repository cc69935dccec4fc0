//! The peripheral's part of the page.
use super::{counted, held_early, row_of, seen, system_edge};
use super::{BELOW_ZERO, BY_ZERO, PAUSED, READY, RUNNING, SYSTEM_2, TOO_LARGE, TOP};
use crate::inputs::{plain_set, FREQUENCIES as DEFAULT};
use crate::peripheral::machine::{ClockSet, Machine};
use crate::peripheral::scenes::Stage;
use crate::peripheral::system;
use crate::peripheral::tally::Tally;
use crate::peripheral::trial::Trial;
use traffic::exact;
use words::calls::{Answer, End, Reference, Trap};
use words::iic::{self, Call, Peripheral, State};
use words::layout::{self, Args, Set};
use words::rates::Rates;

/// The state of the port and the words of both builds', after one call on a state that is handed in.
struct Left {
    plain: Vec<u64>,
    checked: Vec<u64>,
    port: State,
}

fn args(now: [u64; 2], operands: [u64; 2]) -> Args {
    iic::args(layout::joined(now[0], now[1]), operands)
}

/// Runs a call on a state that is handed in, in the plain build, the checked one and the port. The tables allow the ends by the
/// row, and what the port leaves.
fn check(row: &'static str, call: Call, state: &State, set: &Set, args: &Args, expected: [&str; 3]) -> Left {
    let mut answers = [Answer::empty(), Answer::empty(), Answer::empty()];
    let mut left = Left { plain: Vec::new(), checked: Vec::new(), port: *state };
    let mut plain = reference::Bridge::state(state);
    reference::Bridge::call(call, &mut plain, &reference::Bridge::set(set).unwrap(), args, &mut answers[0]);
    reference::Bridge::words(&plain, &mut left.plain);
    let mut checked = checked::Bridge::state(state);
    checked::Bridge::call(call, &mut checked, &checked::Bridge::set(set).unwrap(), args, &mut answers[1]);
    checked::Bridge::words(&checked, &mut left.checked);
    port::iic::call(call, &mut left.port, set, args, &mut answers[2]);
    assert_eq!(answers.map(|answer| seen(&answer, call.gives())), expected, "{call:?}");
    let set = ClockSet::new(*set);
    let mut machine = Machine::made(state, &set, args);
    machine.call(call, &set, args).unwrap();
    assert_eq!(machine.parted.pop().map(|parted| parted.row), row_of(row, expected), "{call:?}");
    left
}

/// The state after calls from the default, all of which end alike in both builds and the port.
pub fn alike(play: impl FnOnce(&mut Stage) -> Option<()>) -> State {
    let (set, mut tally) = (plain_set(0, DEFAULT), Tally::default());
    let mut trial = Trial::fresh(&Rates::DEFAULT, set, &mut tally).unwrap();
    play(&mut Stage::new(&mut trial, system(&set), 0)).expect("a difference");
    let state = *trial.state();
    assert!(tally.partings.is_empty());
    state
}

/// A slave with own address 00: the START byte 01 selects it, turns it to transmit and is acknowledged.
#[test]
fn start_byte() {
    let after_start_byte = |own: u64| {
        alike(|slave| {
            slave.gate(1)?;
            slave.write(5, own)?;
            slave.write(0, 0x80)?;
            slave.start()?;
            slave.bits(0x01, 8)
        })
    };
    let places = [iic::STATUS, iic::CONTROL, iic::SELECTED, iic::DRIVE, iic::DRIVE + 1];
    assert_eq!(places.map(|place| after_start_byte(0x00)[place]), [0x82, 0x90, 1, 1, 0]);
    // With any other own address nobody pulls SDA.
    assert_eq!(places.map(|place| after_start_byte(0xa0)[place]), [0x00, 0x80, 0, 1, 1]);
}

/// A clock that starts at 0:0000000000000001, at time 0: a start command begins a half wait.
#[test]
fn times_before_the_start() {
    const ROW: &str = "times_before_the_start";
    let set = plain_set(1, DEFAULT);
    let mut state = port::iic::fresh();
    for (call, operands) in [(Call::SetGate, [1, 0]), (Call::Write, [0, 0xb0])] {
        state = check(ROW, call, &state, &set, &args([0, 0], operands), ["answered []"; 3]).port;
    }
    let start = args([0, 0], [1, 0x90]);
    let left = check(ROW, Call::Write, &state, &set, &start, ["answered []", BELOW_ZERO, "answered []"]);
    assert_eq!(left.plain, left.port);
    assert_eq!(left.port[iic::CLOCK_WAIT..iic::MONITOR_WAIT], [1, 1 + 28, 0]);
}

/// An enabled peripheral whose SCL rises at time 0, in a frame of its data phase with so many bits to go.
fn about_to_rise(remaining: u64) -> State {
    let mut state = port::iic::fresh();
    state[iic::CONTROL] = 0x80;
    state[iic::GATE] = 1;
    state[iic::FILTERED] = 0;
    state[iic::FILTER_WAIT..iic::CLOCK_WAIT].copy_from_slice(&[1, 0, 1, 2, 0, 0]);
    state[iic::FRAME..iic::SELECTED].copy_from_slice(&[1, 0, remaining, 0, 0, 0, 1, 0]);
    state
}

#[test]
fn a_frame_without_bits_to_go() {
    const ROW: &str = "a_frame_without_bits_to_go";
    let (set, now) = (plain_set(0, DEFAULT), args([0, 0], [0, 0]));
    let state = about_to_rise(0);
    let left = check(ROW, Call::Advance, &state, &set, &now, ["answered []", BELOW_ZERO, "10"]);
    assert_eq!(left.port, state);
    assert_eq!(left.plain[iic::FRAME + 2], 255);
    check(ROW, Call::Advance, &about_to_rise(1), &set, &now, ["answered []"; 3]);
    // The Rust has no such test outside `validate`, where all three refuse.
    check(ROW, Call::Validate, &state, &set, &now, ["10"; 3]);
    let mut done = about_to_rise(1);
    done[iic::FRAME + 3] = 2;
    check(ROW, Call::Advance, &done, &set, &now, ["answered []", "answered []", "10"]);
}

#[test]
fn count_or_mode_out_of_range() {
    const ROW: &str = "count_or_mode_out_of_range";
    let (set, now) = (plain_set(0, DEFAULT), args([0, 0], [0, 0]));
    for (place, word) in [(iic::COUNT, 8), (iic::MODE, 1)] {
        let mut state = port::iic::fresh();
        state[place] = word;
        for call in [Call::Write, Call::SetGate, Call::Advance] {
            let left = check(ROW, call, &state, &set, &now, ["answered []", "answered []", "9"]);
            assert_eq!(left.port, state);
        }
        check(ROW, Call::Read, &state, &set, &now, ["answered [0]", "answered [0]", "9"]);
        check(ROW, Call::InputPins, &state, &set, &now, ["answered [0]", "answered [0]", "9"]);
        check(ROW, Call::Validate, &state, &set, &now, ["9"; 3]);
    }
}

/// The gate is shut on a filter wait whose tap has the divider 0, at the clock's start: it is counted with, and the state is
/// left as it is at that point. Later the wait is past before it is counted with. Opened, the gate draws 2 in the Rust, too.
#[test]
fn divider_zero_of_a_wait() {
    const ROW: &str = "divider_zero_of_a_wait";
    let set = plain_set(0, DEFAULT);
    let mut state = port::iic::fresh();
    state[iic::GATE] = 1;
    state[iic::FILTER_WAIT..iic::CLOCK_WAIT].copy_from_slice(&[1, 1, 0, RUNNING, 0, 0]);
    let off = |now| args(now, [0, 0]);
    let left = check(ROW, Call::SetGate, &state, &set, &off([0, 0]), [BY_ZERO, BY_ZERO, "2"]);
    assert_eq!(left.port[iic::GATE], 0);
    assert_eq!((&left.plain[..], &left.checked[..]), (&left.port[..], &left.port[..]));
    check(ROW, Call::SetGate, &state, &set, &off([0, 1]), ["8"; 3]);
    state[iic::GATE] = 0;
    state[iic::FILTER_WAIT + 3] = PAUSED;
    check(ROW, Call::SetGate, &state, &set, &args([0, 0], [1, 0]), ["2"; 3]);
}

/// A wait whose words are put at a place of the state.
fn put_wait(state: &mut State, place: usize, words: [u64; layout::WAIT]) {
    state[place] = 1;
    state[place + 1..][..layout::WAIT].copy_from_slice(&words);
}

/// A clock wait with so many half counts.
fn put_half(state: &mut State, count: u64, paused: bool) {
    state[iic::CLOCK_WAIT..iic::MONITOR_WAIT].copy_from_slice(&[1, count, u64::from(paused)]);
}

/// The gate is opened on a filter wait behind a prescaler whose sum passes 64 bits: it wraps to 0 at the second edge, and to 1
/// at the fourth.
#[test]
fn prescaler_sum_of_a_wait() {
    const ROW: &str = "prescaler_sum_of_a_wait";
    let set = counted(TOP);
    for (edge, left, plain) in [(2, 1, "8"), (4, TOP, "7"), (2, TOP, "answered []")] {
        let mut state = port::iic::fresh();
        put_wait(&mut state, iic::FILTER_WAIT, [SYSTEM_2[0], SYSTEM_2[1], PAUSED, left, 0]);
        let on = args([0, system_edge(edge)], [1, 0]);
        let left = check(ROW, Call::SetGate, &state, &set, &on, [plain, TOO_LARGE, "7"]);
        assert_eq!(left.checked, left.port);
        state[iic::GATE] = 1;
        assert_eq!(left.port, state);
    }
    // Plain goes on after the wrap, to a setup wait with the divider 0.
    let mut state = port::iic::fresh();
    put_wait(&mut state, iic::FILTER_WAIT, [SYSTEM_2[0], SYSTEM_2[1], PAUSED, TOP, 0]);
    put_wait(&mut state, iic::SETUP_WAIT, [1, 0, PAUSED, 0, 0]);
    check(ROW, Call::SetGate, &state, &set, &args([0, system_edge(2)], [1, 0]), ["2", TOO_LARGE, "7"]);
}

/// Before the start of the system clock, or where it is held before it: a half wait can't go on or be stopped, or a wait
/// after it.
fn refused_later(row: &'static str, mut set: Set, now: [u64; 2]) {
    let mut state = port::iic::fresh();
    put_half(&mut state, TOP, true);
    let left = check(row, Call::SetGate, &state, &set, &args(now, [1, 0]), ["7", BELOW_ZERO, "13"]);
    assert_eq!(left.plain, left.port);
    state[iic::GATE] = 1;
    put_half(&mut state, 0, false);
    let left = check(row, Call::SetGate, &state, &set, &args(now, [0, 0]), ["8", BELOW_ZERO, "8"]);
    assert_eq!(left.plain, left.port);
    // SCL rises, and the clock wait that was held until then goes on.
    let mut state = about_to_rise(1);
    put_wait(&mut state, iic::FILTER_WAIT, [0, 1, READY, now[0], now[1]]);
    state[iic::SYNCHRONIZED_HOLD] = 1;
    put_half(&mut state, TOP, true);
    let left = check(row, Call::Advance, &state, &set, &args(now, [0, 0]), ["7", BELOW_ZERO, "13"]);
    assert_eq!(left.plain, left.port);
    // It does; but the setup wait's edge was given at the anchor of its prescaler.
    put_half(&mut state, 0, true);
    put_wait(&mut state, iic::SETUP_WAIT, [2, 8, RUNNING, 0, 0]);
    set[layout::AT_W + layout::DIVIDER] = 1;
    let left = check(row, Call::Advance, &state, &set, &args(now, [0, 0]), ["8", BELOW_ZERO, "8"]);
    assert_eq!(left.plain, left.port);
}

#[test]
fn refused_before_the_start() {
    const ROW: &str = "refused_before_the_start";
    refused_later(ROW, plain_set(1, DEFAULT), [0, 0]);
    // From the default, over a clock that starts at the last time: the clock wait goes on, the filter wait can't be made.
    let set = plain_set(u128::MAX, DEFAULT);
    let goes_on = ["answered []", BELOW_ZERO, "answered []"];
    let calls = [
        (Call::SetGate, [1, 0], ["answered []"; 3]),
        (Call::Write, [0, 0xb0], ["answered []"; 3]),
        (Call::Write, [1, 0x90], goes_on),
        (Call::SetGate, [0, 0], goes_on),
        (Call::InputPins, [0, 1], ["answered [0]"; 3]),
        (Call::SetGate, [1, 0], ["7", BELOW_ZERO, "7"]),
    ];
    let mut state = port::iic::fresh();
    for (call, operands, ends) in calls {
        let row = if ends[0] == "7" { ROW } else { "times_before_the_start" };
        state = check(row, call, &state, &set, &args([0, 0], operands), ends).port;
    }
}

/// Calls from the default, each at a time of its own, and the row and the ends of the last one.
fn last_from_the_default(set: Set, calls: &[(u128, Call, [u64; 2])]) -> (&'static str, [Option<End>; 3]) {
    let set = ClockSet::new(set);
    let mut machine = Machine::fresh(&Rates::DEFAULT).unwrap();
    for (now, call, operands) in calls {
        machine.parted.clear();
        machine.call(*call, &set, &args(layout::halves(*now), *operands)).unwrap();
    }
    let parted = machine.parted.pop().expect("the last call parts");
    (parted.row, parted.ends)
}

/// From the default, with times that go back: a wait with no edge to go is ready at a time before the clock's start.
#[test]
fn refused_before_the_start_from_the_default() {
    let refused = |number: u8| [End::Refused(number), End::Trapped(Trap::Subtract), End::Refused(number)].map(Some);
    // The gate off, one unit after the filter wait was ready.
    let set = plain_set(2, DEFAULT);
    let edge = exact::edge(&system(&set), 1);
    let shut = [
        (0, Call::SetGate, [1, 0]),
        (0, Call::Write, [0, 0xb0]),
        (0, Call::InputPins, [0, 1]),
        (edge, Call::SetGate, [0, 0]),
        (0, Call::SetGate, [1, 0]),
        (0, Call::Write, [1, 0x90]),
        (1, Call::SetGate, [0, 0]),
    ];
    assert_eq!(last_from_the_default(set, &shut), ("refused_before_the_start", refused(8)));
    // SCL falls in a frame, and a command that waits for that starts a clock wait, whose half count has no time: the clock
    // starts so late that it has an edge 6 and none after it.
    let set = plain_set(u128::MAX - exact::edge(&system(&plain_set(0, DEFAULT)), 6), DEFAULT);
    let [edge, second] = [1, 2].map(|n| exact::edge(&system(&set), n));
    let ready = [(edge, Call::SetGate, [0, 0]), (0, Call::SetGate, [1, 0]), (0, Call::Advance, [0, 0])];
    let begun = [
        (0, Call::SetGate, [1, 0]),
        (0, Call::Write, [0, 0x80]),
        (0, Call::InputPins, [1, 0]),
        (edge, Call::Advance, [0, 0]),
        (second, Call::Advance, [0, 0]),
        (0, Call::Write, [0, 0xa0]),
        (0, Call::Write, [1, 0x90]),
        (0, Call::InputPins, [0, 0]),
    ];
    let falls = [&begun[..], &ready, &ready].concat();
    assert_eq!(last_from_the_default(set, &falls), ("refused_before_the_start", refused(7)));
}

/// The system clock stands still, held at time 0, and starts a unit later: what holds before its start holds at any time.
#[test]
fn a_clock_held_before_its_start() {
    const ROW: &str = "a_clock_held_before_its_start";
    for now in [[0, 0], [0, 1], [5, 0]] {
        let mut state = port::iic::fresh();
        for (call, operands) in [(Call::SetGate, [1, 0]), (Call::Write, [0, 0xb0])] {
            state = check(ROW, call, &state, &held_early(), &args(now, operands), ["answered []"; 3]).port;
        }
        let ends = ["answered []", BELOW_ZERO, "answered []"];
        let left = check(ROW, Call::Write, &state, &held_early(), &args(now, [1, 0x90]), ends);
        assert_eq!(left.plain, left.port);
        assert_eq!(left.port[iic::CLOCK_WAIT..iic::MONITOR_WAIT], [1, 1 + 28, 0]);
        refused_later(ROW, held_early(), now);
    }
}

/// The gate is shut, and opened, on a half wait before the clock's start and a filter wait with the divider 0 behind it.
#[test]
fn divider_zero_after_a_level() {
    const ROW: &str = "divider_zero_after_a_level";
    let set = plain_set(1, DEFAULT);
    let mut state = port::iic::fresh();
    state[iic::GATE] = 1;
    put_half(&mut state, 1, false);
    put_wait(&mut state, iic::FILTER_WAIT, [1, 0, RUNNING, 0, 0]);
    let left = check(ROW, Call::SetGate, &state, &set, &args([0, 0], [0, 0]), [BY_ZERO, BELOW_ZERO, "2"]);
    assert_eq!(left.plain, left.port);
    assert_eq!(left.port[iic::CLOCK_WAIT..iic::MONITOR_WAIT], [1, 0, 1]);
    state[iic::GATE] = 0;
    put_half(&mut state, 0, true);
    put_wait(&mut state, iic::FILTER_WAIT, [1, 0, PAUSED, 0, 0]);
    let left = check(ROW, Call::SetGate, &state, &set, &args([0, 0], [1, 0]), ["2", BELOW_ZERO, "2"]);
    assert_eq!(left.plain, left.port);
    assert_eq!(left.port[iic::CLOCK_WAIT..iic::MONITOR_WAIT], [1, 1, 0]);
}

/// The gate is opened on a half wait before the system clock's start and a filter wait behind it on the watch clock, which has
/// started: the sum of its prescaler wraps to 0 at the eighth edge, and to 1 at the sixteenth.
#[test]
fn prescaler_sum_after_a_level() {
    const ROW: &str = "prescaler_sum_after_a_level";
    let mut set = counted(TOP);
    set[..2].copy_from_slice(&[1, 0]);
    for (edge, left, plain) in [(8, 1, "8"), (16, TOP, "7"), (8, TOP, "answered []")] {
        let mut state = port::iic::fresh();
        put_half(&mut state, 0, true);
        put_wait(&mut state, iic::FILTER_WAIT, [2, 8, PAUSED, left, 0]);
        let on = args([0, edge << (64 - 15)], [1, 0]);
        let left = check(ROW, Call::SetGate, &state, &set, &on, [plain, BELOW_ZERO, "7"]);
        state[iic::GATE] = 1;
        put_half(&mut state, 1, false);
        assert_eq!(left.port, state);
    }
    let mut state = port::iic::fresh();
    put_half(&mut state, 0, true);
    put_wait(&mut state, iic::FILTER_WAIT, [2, 8, PAUSED, TOP, 0]);
    put_wait(&mut state, iic::SETUP_WAIT, [1, 0, PAUSED, 0, 0]);
    check(ROW, Call::SetGate, &state, &set, &args([0, 8 << (64 - 15)], [1, 0]), ["2", BELOW_ZERO, "7"]);
}

/// A clock that holds a zero draws 1 at each call that is handed the set, first of all and without a change.
#[test]
fn a_clock_with_a_zero() {
    let mut set = plain_set(0, DEFAULT);
    set[layout::AT_S - layout::DOMAIN + 3] = 0;
    assert!(reference::Bridge::set(&set).is_none());
    let mut state = about_to_rise(0);
    state[iic::COUNT] = 8;
    let before = state;
    let mut answer = Answer::empty();
    for call in [Call::Read, Call::Write, Call::InputPins, Call::SetGate, Call::Advance, Call::Deadline] {
        port::iic::call(call, &mut state, &set, &args([0, 0], [0, 0]), &mut answer);
        assert_eq!((seen(&answer, 0), state), ("1".to_string(), before), "{call:?}");
    }
}

/// A monitor that isn't below every half clock of its group: 14 where the set is given, at each call that can change the state
/// and at `validate`, after 1 and before 9. `deadline` and what is only looked at answer.
#[test]
fn a_rate_set_out_of_range() {
    let mut rates = Rates::DEFAULT;
    rates.monitors[1] = 80;
    let (state, end) = port::iic::with_rates(&rates);
    assert_eq!((end, iic::rates(&state)), (End::Refused(14), rates));
    assert_eq!(state[..iic::FIELDS], port::iic::fresh()[..iic::FIELDS]);
    let [sound, mut zero] = [plain_set(0, DEFAULT); 2];
    zero[2] = 0;
    let mut nine = state;
    nine[iic::COUNT] = 8;
    let refused = [Call::Read, Call::Write, Call::InputPins, Call::SetGate, Call::Advance, Call::Validate];
    for (call, before) in refused.into_iter().flat_map(|call| [(call, state), (call, nine)]) {
        for (set, first) in [(&sound, 14), (&zero, if call.takes_set() { 1 } else { 14 })] {
            let (mut left, mut answer) = (before, Answer::empty());
            port::iic::call(call, &mut left, set, &args([0, 0], [1, 0]), &mut answer);
            assert_eq!((answer.end, left), (End::Refused(first), before), "{call:?}");
        }
    }
    for call in [Call::Deadline, Call::Observe] {
        let (mut left, mut answer) = (nine, Answer::empty());
        port::iic::call(call, &mut left, &sound, &args([0, 0], [0, 0]), &mut answer);
        assert_eq!((answer.end, left), (End::Done, nine), "{call:?}");
    }
}
