//! The rows for the sensor.
use crate::differences::sensor::{parting, Call};
use crate::sensor::trial::Trial;
use words::calls::{End, Trap};
use words::sensor::{self, Given, Left, Rest, Sensor, State, ACKNOWLEDGE, MASTER_ACKNOWLEDGE, READ, RECEIVE};

const HIGH: [bool; 2] = [true, true];
const LOW: [bool; 2] = [false, false];

/// An edge with nothing to convert and a byte to send.
fn given(previous: [bool; 2], current: [bool; 2], tx: Option<u8>) -> Given {
    let rest = Rest::default();
    Given { tx, previous, current, now: 0, rest, converted: Some(Ok(rest)), written: Ok(false), prepared: None }
}

/// A state with bits and what they hold, or what a phase holds; the pointer is 0.
fn state(phase: u8, first: u8, second: u8, bits: u8, low: u8) -> State {
    sensor::state([phase, first, second, 0, bits, 0, low])
}

fn edge<S: Sensor>(state: State, given: &Given) -> Left {
    S::made(state).edge(given)
}

/// The plain build, the port and, but for a trap, the checked build leave a state so; where it traps the row allows it.
fn check(row: &str, before: State, given: &Given, after: State, trap: Option<Trap>) {
    let plain = edge::<reference::Bma150>(before, given);
    let checked = edge::<checked::Bma150>(before, given);
    let port = edge::<port::sensor::Port>(before, given);
    assert_eq!((plain.end, plain.state, port), (End::Done, after, plain), "{before:#x}");
    assert_eq!(checked.end, trap.map_or(End::Done, End::Trapped), "{before:#x}");
    let allowed = parting(before, Call::Edge(given), [plain.end, checked.end, port.end]).map(|parting| parting.row);
    assert_eq!(allowed, trap.map(|_| row), "{before:#x}");
    assert!(Trial::made(before).edge(given).is_ok());
}

#[test]
fn a_bit_past_255() {
    let rise = given(LOW, [true, false], None);
    let (before, after) = (state(RECEIVE, 0, 0, 255, 0), state(RECEIVE, 0, 0, 0, 0));
    check("a_bit_past_255", before, &rise, after, Some(Trap::Overflow));
    // One bit fewer goes on in all three.
    check("a_bit_past_255", state(RECEIVE, 0, 0, 254, 0), &rise, before, None);
}

#[test]
fn a_bit_sent_past_the_eighth() {
    const ROW: &str = "a_bit_sent_past_the_eighth";
    // After nine bits the second is shown again, which is 0 in bf, and released without a byte.
    let before = state(READ, 9, 0, 0, 0);
    let fall = |tx| given(HIGH, [false, true], tx);
    check(ROW, before, &fall(Some(0xbf)), state(READ, 9, 0, 0, 1), Some(Trap::Shift));
    check(ROW, before, &fall(None), before, Some(Trap::Shift));
    check(ROW, state(READ, 8, 0, 0, 1), &fall(Some(0)), state(MASTER_ACKNOWLEDGE, 0, 0, 0, 0), None);
}

#[test]
fn edges_of_eight_bits_or_more() {
    let asked = |state: State| {
        let plain = reference::Bma150::made(state).ask().edges;
        [plain, checked::Bma150::made(state).ask().edges, port::sensor::Port::made(state).ask().edges]
    };
    let trapped = Err(End::Trapped(Trap::Subtract));
    assert_eq!(asked(state(RECEIVE, 0, 0, 7, 0)), [Ok(1); 3]);
    assert_eq!(asked(state(RECEIVE, 0, 0, 8, 0)), [Ok(255), trapped, Ok(255)]);
    assert_eq!(asked(state(RECEIVE, 0, 0, 9, 0)), [Ok(253), trapped, Ok(253)]);
    // The run goes on: an edge at which nothing moves, and the question after it.
    assert!(Trial::made(state(RECEIVE, 0, 0, 8, 0)).edge(&given(LOW, LOW, None)).is_ok());
}

/// A state that the sensor can't reach without a rise that has no fall before it: `validate` refuses it in all three.
#[test]
fn previous_scl_that_is_not_the_scl_before() {
    let rise = given(LOW, [true, false], None);
    let after = state(ACKNOWLEDGE, 0, 2, 0, 0);
    check("", state(ACKNOWLEDGE, 0, 0, 0, 0), &rise, after, None);
    let refused = [false, false];
    assert_eq!(reference::Bma150::made(after).ask().valid, refused);
    assert_eq!(port::sensor::Port::made(after).ask().valid, refused);
}
