use super::{bench, half_counts, watched, Benched};
use crate::tests::tabs;
use crate::trace_clocks;

fn played(units: usize, script: &str, capacity: usize) -> Benched {
    bench(units, Some(&trace_clocks()), &tabs(script), capacity)
}

fn answers(units: usize, script: &str) -> String {
    String::from_utf8(played(units, script, usize::MAX).bytes).unwrap().replace('\t', " ")
}

/// Both units gated on and enabled, in the first moment.
const BOTH: &str = "0 0000000000000000 0 g 1\n0 0000000000000000 1 g 1\n0 0000000000000000 0 w 0 80\n\
    0 0000000000000000 1 w 0 80\n";
const BOTH_ANSWERED: &str = "1 0 0 - - 00\n2 1 0 - - 00\n3 0 0 - 11 00\n4 1 0 - 11 00\n";

#[test]
fn one_unit_sees_what_another_pulls() {
    // SDA falls with SCL high: after the filter both are busy.
    let script = format!(
        "{BOTH}0 0000000000000001 0 w 1 40\n0 0000000000000002 1 r 1\n0 0001000000000000 1 r 1\n0 0001000000000000 0 r 1\n"
    );
    let said = "5 0 0 - 10 00\n6 1 0 7d 11 00\n7 1 0 fd 11 00\n8 0 0 dd 10 00\n";
    assert_eq!(answers(2, &script), format!("{BOTH_ANSWERED}{said}"));
}

#[test]
fn a_unit_without_pins_pulls_nothing() {
    // Unit 0 drives SDA low, and then is disabled: the wires are high, and unit 1 sees a start and a stop.
    let script = format!(
        "{BOTH}0 0000000000000001 0 w 1 40\n0 0001000000000000 0 w 0 00\n0 0002000000000000 1 r 1\n0 0002000000000000 0 r 1\n"
    );
    let said = "5 0 0 - 10 00\n6 0 0 - - 00\n7 1 0 7d 11 00\n8 0 0 fd - 00\n";
    assert_eq!(answers(2, &script), format!("{BOTH_ANSWERED}{said}"));
}

#[test]
fn lines_that_are_refused() {
    let script =
        "5 0000000000000000 1 r 4\n5 0000000000000000 0 r 4\n4 0000000000000000 1 r 4\n4 0000000000000000 2 r 4\n\
        6 0000000000000000 1 v\n6 0000000000000000 1 p 1 1\n6 0000000000000000 1 d\n6 0000000000000000 r 4\n\n\
        6 0000000000000000 01 r 4\n6 0000000000000000 a r 4\n6 0000000000000000 1 r 4";
    let bad = |number: usize| format!("{number} - 4 - - -\n");
    let said: String = (4..=11).map(bad).collect();
    let first = "1 1 0 00 - 00\n2 0 0 00 - 00\n3 1 5 - - 00\n";
    assert_eq!(answers(2, script), format!("{first}{said}12 1 0 00 - 00\n"));
    assert_eq!(played(2, script, usize::MAX).lines, 12);
    // The unit is there on a bench that has it.
    assert!(answers(3, script).contains("\n4 2 5 - - 00\n"));
}

#[test]
fn numbers_of_units_that_no_bench_has() {
    for units in [0, 5, usize::MAX] {
        let Benched { bytes, lines, refusal, .. } = played(units, BOTH, 0);
        assert_eq!((bytes, lines, refusal), (Vec::new(), 0, 15));
    }
}

#[test]
fn room_before_every_call() {
    // The last answer line, and then two reports.
    let all = BOTH_ANSWERED.len();
    for (capacity, lines, refusal) in [(79, 0, 6), (80, 1, 6), (all + 79, 4, 6), (all + 80, 4, 0)] {
        let Benched { lines: answered, refusal: end, .. } = played(2, BOTH, capacity);
        assert_eq!((answered, end), (lines, refusal), "{capacity}");
    }
    assert_eq!(played(2, "", 0).refusal, 0);
}

#[test]
fn what_is_refused_in_between() {
    // Past the half counts: unit 0, a master of synchronous mode, can start no wait, and pulls SCL all the same.
    let late = ["g 1", "w 5 01", "w 0 b0", "w 6 55"].map(|call| format!("2501999792984 0000000000000000 0 {call}\n"));
    let visits = "0 0 7 - 01 80\n0 0 7 - 00 80\n0 0 7 - 00 80\n0 0 7 - 00 80\n";
    let said = format!("1 0 0 - - 00\n2 0 0 - - 00\n3 0 0 - 11 80\n4 0 7 - 01 80\n{visits}");
    assert_eq!(answers(1, &late.concat()), said);
    let Benched { lines, refusal, .. } = played(1, &late.concat(), usize::MAX);
    assert_eq!((lines, refusal), (4, 0));
    // Which of them are 13 is told by other answers.
    let half_count = said.replace("0 0 7 - 01 80", "0 0 13 - 01 80");
    let places = half_counts(&tabs(&half_count));
    let told = watched(&mut (), places, 1, Some(&trace_clocks()), &tabs(&late.concat()), usize::MAX);
    assert_eq!(told.bytes, tabs(&half_count));
}

#[test]
fn the_bench_goes_on_after_the_last_line() {
    let start = "0 0000000000000000 0 g 1\n0 0000000000000000 0 w 0 b0\n0 0000000000000000 0 w 6 a0\n";
    let script = format!("{start}{}0 0000000000000000 0 w 1 90\n0 0000000000000000 0 r 4\n", "\n".repeat(999_996));
    let Benched { lines, refusal, states, .. } = played(1, &script, usize::MAX);
    assert_eq!((lines, refusal), (1_000_000, 0));
    // The address byte is sent, and nobody acknowledged it.
    assert_eq!((states[0].peek(4), states[0].peek(3)), (0xc0, 0x02));
}

#[test]
fn a_clock_set_that_every_call_refuses() {
    let played = bench(2, None, &tabs("0 0000000000000000 1 g 1\n"), usize::MAX);
    assert_eq!(played.bytes, tabs("1 1 1 - - 00\n0 0 1 - - 00\n0 1 1 - - 00\n"));
}
