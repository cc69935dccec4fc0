use crate::busy::report;
use crate::{busy, header, play, wave, Played, Runs};

/// A trace or answer lines with spaces for tabs.
pub fn tabs(text: &str) -> Vec<u8> {
    text.replace(' ', "\t").into_bytes()
}

fn answers(trace: &str) -> String {
    String::from_utf8(play(&tabs(trace), usize::MAX).bytes).unwrap().replace('\t', " ")
}

fn reports(trace: &str) -> String {
    String::from_utf8(busy(&tabs(trace), usize::MAX).bytes).unwrap().replace('\t', " ")
}

const EXAMPLE: &str = "0 0000000000000001 g 1\n0 0000000000000002 w 0 b0\n0 0000000000000003 r 4\n\
    0 0000000000000004 w 1 90\n0 0000000000000005 r 1\n";
const ANSWERS: &str = "1 0 - - 00\n2 0 - 11 80\n3 0 80 11 80\n4 0 - 01 80\n5 0 75 01 80\n";

#[test]
fn the_example_of_document_01() {
    assert_eq!(answers(EXAMPLE), ANSWERS);
    assert_eq!(play(&tabs(EXAMPLE), 1000), Played { bytes: tabs(ANSWERS), lines: 5, refusal: 0 });
}

#[test]
fn the_last_newline_may_be_missing() {
    assert_eq!(answers(EXAMPLE.trim_end()), ANSWERS);
    assert_eq!(answers(""), "");
    assert_eq!(answers("\n"), "1 4 - - 00\n");
}

#[test]
fn levels_and_deadlines() {
    let trace = "0 0000000000000000 g 1\n0 0000000000000001 w 0 80\n0 0000000000000002 d\n0 0000000000000003 p 1 0\n\
        0 0000000000000004 d\n0 0000000000000005 p 1 0\n0 0000048d159e26af v\n";
    let said =
        "1 0 - - 00\n2 0 - 11 00\n3 0 - 11 00\n4 0 1 11 00\n5 0 0:0000048d159e26af 11 00\n6 0 0 11 00\n7 0 - 11 00\n";
    assert_eq!(answers(trace), said);
    assert_eq!(answers("0 0000000000000000 p 1 0\n"), "1 0 0 - 00\n");
}

#[test]
fn malformed_lines() {
    let lines = [
        "00 0000000000000001 v",
        " 0000000000000001 v",
        "+1 0000000000000001 v",
        "18446744073709551616 0000000000000001 v",
        "0 000000000000001 v",
        "0 00000000000000001 v",
        "0 000000000000000A v",
        "0 0000000000000001",
        "0 0000000000000001 ",
        "0 0000000000000001 x",
        "0 0000000000000001 v ",
        "0 0000000000000001 v 0",
        "0 0000000000000001 v\r",
        "0 0000000000000001 r",
        "0 0000000000000001 r 8",
        "0 0000000000000001 r 00",
        "0 0000000000000001 w 0",
        "0 0000000000000001 w 0 f",
        "0 0000000000000001 w 0 F0",
        "0 0000000000000001 p 1",
        "0 0000000000000001 p 11",
        "0 0000000000000001 p 1 2",
        "0 0000000000000001 g 2",
        "0 0000000000000001 d 1",
        "0 0000000000000001 v 00000000000000000000000000000000000000000000000",
    ];
    for line in lines {
        assert_eq!(answers(line), "1 4 - - 00\n", "{line}");
    }
    assert_eq!(answers("18446744073709551615 ffffffffffffffff v"), "1 0 - - 00\n");
}

#[test]
fn no_time_is_earlier() {
    let trace = "5 0000000000000000 v\n5 0000000000000000 v\n4 ffffffffffffffff v\n6 0000000000000000 x\n\
        5 0000000000000000 v\n";
    assert_eq!(answers(trace), "1 0 - - 00\n2 0 - - 00\n3 5 - - 00\n4 4 - - 00\n5 0 - - 00\n");
    // A line refused 7 counts.
    let late = "0 0000000000000000 g 1\n18446744073709551615 0000000000000000 w 0 a0\n\
        18446744073709551615 0000000000000001 w 1 90\n18446744073709551615 0000000000000000 v\n";
    assert_eq!(answers(late), "1 0 - - 00\n2 0 - 11 00\n3 7 - 01 00\n4 5 - 01 00\n");
}

#[test]
fn room_of_80_bytes_before_each_line() {
    let first = ANSWERS.find('\n').unwrap() + 1;
    for (capacity, lines) in [(0, 0), (79, 0), (80, 1), (79 + first, 1), (80 + first, 2)] {
        let bytes: Vec<u8> = tabs(ANSWERS).split_inclusive(|b| *b == b'\n').take(lines).flatten().copied().collect();
        assert_eq!(play(&tabs(EXAMPLE), capacity), Played { bytes, lines, refusal: 6 }, "{capacity}");
    }
    assert_eq!(play(b"", 0).refusal, 0);
}

#[test]
fn a_million_lines_and_no_more() {
    let played = play(&b"\n".repeat(1_000_001), usize::MAX);
    assert_eq!((played.lines, played.refusal), (1_000_000, 0));
    assert!(played.bytes.ends_with(b"\n1000000\t4\t-\t-\t00\n"));
    // The room is asked for before a line that is played, not behind the last.
    let exact = played.bytes.len() + 80 - b"1000000\t4\t-\t-\t00\n".len();
    assert_eq!(play(&b"\n".repeat(1_000_001), exact).refusal, 0);
    assert_eq!(play(&b"\n".repeat(1_000_001), exact - 1).lines, 999_999);
}

#[test]
fn lines_in_which_a_flag_rose() {
    assert_eq!(reports(EXAMPLE), "1 0\n2 1\n3 1\n4 1\n5 1\n");
    assert_eq!(reports(""), "");
    // TDRE rises, lines refused 4 and 5, TDRE falls, and rises once more.
    let trace = "1 0000000000000000 w 0 10\nx\n0 ffffffffffffffff r 4\n1 0000000000000001 r 4\n\
        1 0000000000000002 w 4 00\n1 0000000000000003 w 0 00\n1 0000000000000004 w 0 10\n";
    let said = "1 0 - - 80\n2 4 - - 80\n3 5 - - 80\n4 0 80 - 80\n5 0 - - 00\n6 0 - - 00\n7 0 - - 80\n";
    assert_eq!(answers(trace), said);
    assert_eq!(reports(trace), "1 1\n2 1\n3 1\n4 1\n5 1\n6 1\n7 2\n");
}

#[test]
fn reports_have_the_room_of_answers() {
    let bytes = tabs("1 0\n2 1\n");
    assert_eq!(busy(&tabs(EXAMPLE), 80 + 4), Played { bytes, lines: 2, refusal: 6 });
    assert_eq!(busy(&tabs(EXAMPLE), 79), Played { bytes: Vec::new(), lines: 0, refusal: 6 });
    assert_eq!(busy(&b"\n".repeat(1_000_001), usize::MAX).lines, 1_000_000);
}

/// The signals of a trace, the values of a line in one word.
fn signals(trace: &str) -> String {
    let text = String::from_utf8(wave(&tabs(trace), usize::MAX).bytes).unwrap();
    let mut names = ('!'..='/').cycle();
    let lines = text.lines().map(|line| match line.strip_prefix('#') {
        Some(time) => format!(" {time}:"),
        None => line.strip_suffix(names.next().unwrap()).unwrap().into(),
    });
    lines.collect()
}

#[test]
fn signals_after_each_line() {
    // TDRE is set as the second line enables the peripheral; the fourth has SCL driven low.
    let off = "1111zz000000001";
    let on = "111111100000001";
    let low = "011101100000001";
    assert_eq!(signals(EXAMPLE), format!(" 0:{off} 0:{on} 0:{on} 0:{low} 0:{low}"));
    assert_eq!(signals(""), "");
}

#[test]
fn signals_have_times_from_the_first_line_on() {
    // Malformed, the first, half a second later, earlier, at the last time; SCL is reported low.
    let trace = "x\n5 8000000000000000 g 1\n6 0000000000000000 p 0 1\n5 0000000000000000 v\n\
        18446744073709551615 ffffffffffffffff v\n";
    let low = "0101zz000000001";
    assert_eq!(signals(trace), format!(" 0:1111zz000000001 500000000:{low} 18446744073000000000:{low}"));
    assert_eq!(wave(&tabs(trace), 79), Played { bytes: Vec::new(), lines: 0, refusal: 6 });
    assert!(header().ends_with(b"$var wire 1 / gate $end\n$upscope $end\n$enddefinitions $end\n"));
}

#[test]
fn reports_on_the_latest_64_lines() {
    let all = [true; 96];
    for lines in 0..=96 {
        assert_eq!(report(&all[..lines]), lines.min(64));
    }
    // One line alone.
    let mut one = [false; 96];
    one[16] = true;
    for lines in 0..=96 {
        assert_eq!(report(&one[..lines]), usize::from((17..=80).contains(&lines)), "{lines}");
    }
}

#[test]
fn the_shortest_run() {
    // Lines 3 and 5 are earlier than those before them; 1 and 4 are malformed.
    let trace = tabs("x\n5 0000000000000000 v\n4 0000000000000000 v\nx\n3 0000000000000000 v\n");
    let runs = Runs::of(&trace, 256, |_| 7);
    let found = |number| runs.shortest(number, 5);
    assert_eq!([4, 5, 0, 6, 7].map(found), [Ok((1, 1)), Ok((2, 2)), Err(18), Err(18), Err(18)]);
    assert_eq!([4, 6].map(|number| runs.shortest(number, 4)), [Err(17); 2]);
    assert_eq!(Runs::of(b"", 0, |_| 7).shortest(4, 0), Err(18));
    // Two lines between the time and the earlier one.
    let apart = Runs::of(&tabs("x\n2 0000000000000000 v\nx\nx\n1 0000000000000000 v\n"), 5, |_| 7);
    assert_eq!(apart.shortest(5, 5), Ok((2, 4)));
}
