//! Scripts made for what scripts at random rarely meet, and clock sets.
use super::trace_set;
use crate::peripheral;
use crate::searches::hostile;
use std::fmt::Write;
use traffic::exact;
use traffic::random::Random;
use words::layout::{self, Set};

/// From this second on every half count of the traces' clock is refused, and from the other every count.
const NO_HALF_COUNTS: u64 = 2_501_999_792_984;
const NO_COUNTS: u64 = 5_003_999_585_968;

/// The half count at which the wait of `gated` is due.
pub const DUE: u64 = 2074 + 20;

/// Visits before the late part of `many_visits`, less those that it is told to add.
const EARLY_VISITS: u64 = 65_530;

/// The set of traces, another one as `Clocks::new` makes it, its clock moved up or not, or one with a zero.
pub fn set(random: &mut Random) -> Set {
    match random.below(40) {
        0..=19 => trace_set(),
        20 => {
            let mut set = peripheral::moved_set(random).0;
            set[random.below(layout::DOMAINS as u64) as usize * layout::DOMAIN + 2] = 0;
            set
        }
        _ => peripheral::moved_set(random).0,
    }
}

/// A script out of order, doubled, late, with bytes changed, or bytes at random.
pub fn damaged(random: &mut Random, script: &[u8]) -> Vec<u8> {
    hostile::spoilt(random, script)
}

/// Puts a line behind a script.
fn put(script: &mut String, at: u128, call: &str) {
    let [seconds, fraction] = layout::halves(at);
    let call = call.replace(' ', "\t");
    writeln!(script, "{seconds}\t{fraction:016x}\t{call}").expect("a string takes all");
}

/// Calls at half counts of a set's system clock.
pub fn at_halves(set: &Set, calls: &[(u64, &str)]) -> Vec<u8> {
    let clock = peripheral::system(set);
    let mut script = String::new();
    calls.iter().for_each(|(half, call)| put(&mut script, exact::half_edge(&clock, *half), call));
    script.into_bytes()
}

/// Unit 0 a master of synchronous mode with a byte to send, which every visit makes start a wait.
const SENDS: [&str; 4] = ["0 g 1", "0 w 5 01", "0 w 0 b0", "0 w 6 55"];

/// Lines, visits and reports that are refused, among bad lines.
pub fn refused(units: usize) -> Vec<u8> {
    let mut script = String::new();
    for unit in 1..units {
        put(&mut script, 0, &format!("{unit} g 1"));
        put(&mut script, 0, &format!("{unit} w 0 80"));
    }
    SENDS.iter().for_each(|call| put(&mut script, layout::joined(NO_HALF_COUNTS, 0), call));
    put(&mut script, 5, "0 r 4");
    put(&mut script, layout::joined(NO_HALF_COUNTS, 0), "9 r 4");
    put(&mut script, layout::joined(NO_COUNTS, 0), "0 w 0 00");
    put(&mut script, layout::joined(NO_COUNTS, 0), "0 r 4");
    script.into_bytes()
}

/// The last half counts, in which waits of two masters are refused, one of them in synchronous mode: a refused visit leaves a
/// wait that is due in its moment.
pub fn balks() -> Vec<u8> {
    let before = |halves: u64| u64::MAX - halves + 1;
    let begin = ["0 g 1", "0 w 0 b2", "0 w 1 90", "1 g 1", "1 w 5 01", "1 w 0 b2", "1 w 1 40"];
    let mut calls: Vec<(u64, &str)> = begin.iter().map(|call| (before(524), *call)).collect();
    calls.extend([(before(307), "1 w 6 ac"), (before(163), "0 w 6 ac"), (before(17), "0 w 1 90")]);
    at_halves(&trace_set(), &calls)
}

/// Unit 0, called by unit 1, ends its hold while its gate is off, and so has a wait that runs on: it is due at `DUE`, and past
/// where the gate is on again later.
pub fn gated(on: u64) -> Vec<u8> {
    let begin = ["0 g 1", "0 w 5 e0", "0 w 0 80", "1 g 1", "1 w 0 b0", "1 w 6 e0", "1 w 1 90"];
    let mut calls: Vec<(u64, &str)> = begin.iter().map(|call| (176, *call)).collect();
    calls.extend([(1292, "1 w 6 dc"), (1852, "0 g 0"), (2074, "0 r 7"), (on, "0 g 1")]);
    at_halves(&trace_set(), &calls)
}

/// About the most visits that a bench of two units makes, so many more than a few too few: unit 1 sees its SDA fall and
/// rise, two visits each, and pulses shorter than a clock, one visit each. At the end, in one moment, a visit of unit 0 that is
/// refused and one of unit 1.
pub fn many_visits(more: u64) -> Vec<u8> {
    let set = trace_set();
    let clock = peripheral::system(&set);
    let mut script = String::new();
    ["1 g 1", "1 w 0 80"].iter().for_each(|call| put(&mut script, 0, call));
    let (low, high) = ("1 w 1 40", "1 w 1 60");
    let falls = EARLY_VISITS / 2;
    for change in 0..falls {
        let call = if change % 2 == 0 { low } else { high };
        put(&mut script, exact::edge(&clock, 4 + change * 4), call);
    }
    // The last of them, an even one, left it low.
    let (now, back) = (high, low);
    for pulse in 0..more {
        let at = exact::edge(&clock, 4 + (falls + pulse) * 4);
        put(&mut script, at, now);
        put(&mut script, at + 1, back);
    }
    SENDS.iter().for_each(|call| put(&mut script, layout::joined(NO_HALF_COUNTS, 0), call));
    script.into_bytes()
}

/// One unit calls another after the millionth line, and a line follows that is never read.
pub fn million() -> Vec<u8> {
    let mut script = String::new();
    let calls = ["0 g 1", "1 g 1", "1 w 5 a0", "1 w 0 80", "0 w 0 b0", "0 w 6 a0"];
    calls.iter().for_each(|call| put(&mut script, 0, call));
    script.push_str(&"\n".repeat(plain_player::MOST_LINES - calls.len() - 1));
    ["0 w 1 90", "0 r 4"].iter().for_each(|call| put(&mut script, 0, call));
    script.into_bytes()
}
