//! Every boundary: all combinations of the boundaries of a function's arguments, or a random part of them where they are
//! too many. A combination is a number, whose digits choose the boundaries.
use super::focus::Focus;
use super::numbers::{self, DENOMINATORS, DIVIDERS, FREQUENCIES, STAGES, WORDS};
use super::plain_set;
use traffic::exact;
use traffic::random::Random;
use words::calls::{Function, Kind};
use words::layout::{self, Args, Set};

/// At most this many combinations of a function.
const MOST: u64 = 60_000;

const LATE: u128 = u128::MAX - (1 << 80);
const STARTS: [u128; 6] = [0, 1, 1 << 64, LATE, u128::MAX - 1, u128::MAX];
const ORDINALS: [u64; 4] = [0, 1, 1 << 63, u64::MAX];
const ANCHORS: [u64; 4] = [0, 1, 1 << 32, u64::MAX];
const PHASES: [u64; 13] = [0, 1, 2, 127, 128, 255, 256, 4095, 4096, 8191, 8192, 32768, 65535];
const EMITTED: [u64; 4] = [0, 1, u64::MAX - 1, u64::MAX];
const WAIT_DIVIDERS: [u64; 8] = [0, 1, 2, 3, 8, 1024, 8192, 8193];
const WAIT_COUNTS: [u64; 6] = [0, 1, 2, 1 << 32, u64::MAX - 1, u64::MAX];
/// Words, and three near what the focus is on.
const NEAR: usize = WORDS.len() + 3;
const SETS_OF: [[u64; 3]; 8] = [
    super::FREQUENCIES,
    [0, 32_768, 1_310_720],
    [3_686_400, 0, 1_310_720],
    [3_686_400, 32_768, 0],
    [1, 1, 1],
    [3, 5, 7],
    [6_000_000_000, 1 << 32, (1 << 32) + 1],
    [u64::MAX, u64::MAX - 1, 1 << 63],
];

/// Calls `visit` with every combination of a set and arguments.
pub fn each(random: &mut Random, function: &Function, visit: &mut impl FnMut(&Set, &Args)) {
    let sets = if function.set { sets() } else { vec![plain_set(0, [1, 1, 1])] };
    let all = function.takes.iter().fold(sets.len() as u64, |n, kind| n.saturating_mul(size(*kind)));
    let mut args = [0; layout::ARGS];
    for number in 0..all.min(MOST) {
        let mut digits = Digits(if all > MOST { random.below(all) } else { number });
        let set = digits.pick(&sets);
        let mut focus = Focus::new(&set);
        let mut at = 0;
        for kind in function.takes {
            let out = &mut args[at..at + kind.words()];
            boundary(*kind, &mut digits, &focus, out);
            focus.look(*kind, out, &set);
            at += kind.words();
        }
        visit(&set, &args);
    }
}

/// A number as digits of any base.
struct Digits(u64);

impl Digits {
    fn below(&mut self, base: usize) -> usize {
        let digit = self.0 % base as u64;
        self.0 /= base as u64;
        digit as usize
    }
    fn pick<T: Copy>(&mut self, of: &[T]) -> T {
        of[self.below(of.len())]
    }
    /// One of the words, or the word itself or a neighbour of it.
    fn near(&mut self, word: u64) -> u64 {
        match self.below(NEAR) {
            place if place < WORDS.len() => WORDS[place],
            place => word.wrapping_add((place - WORDS.len()) as u64).wrapping_sub(1),
        }
    }
}

/// How many boundaries an argument has.
fn size(kind: Kind) -> u64 {
    let size = match kind {
        Kind::Time => numbers::FIXED_TIMES,
        Kind::Span => 7,
        Kind::Hz => FREQUENCIES.len(),
        Kind::Denominator => DENOMINATORS.len(),
        Kind::Clock => STARTS.len() * FREQUENCIES.len() * DENOMINATORS.len() * ORDINALS.len() * 4,
        Kind::Domain => STARTS.len() * FREQUENCIES.len() * DENOMINATORS.len() * ORDINALS.len() * 4 * 6,
        Kind::Edges | Kind::Parent | Kind::Tick => NEAR,
        Kind::PrescalerS | Kind::PrescalerW => ANCHORS.len() * 4 * 2 * EMITTED.len(),
        Kind::Phase => PHASES.len(),
        Kind::Stage => STAGES.len(),
        Kind::Tap => layout::DOMAINS * DIVIDERS.len(),
        Kind::Divide => DIVIDERS.len(),
        Kind::Frequencies => SETS_OF.len(),
        Kind::Wait => layout::DOMAINS * WAIT_DIVIDERS.len() * (2 * WAIT_COUNTS.len() + numbers::FIXED_TIMES),
    };
    size as u64
}

/// Writes the boundary of an argument that the digits choose.
fn boundary(kind: Kind, digits: &mut Digits, focus: &Focus, out: &mut [u64]) {
    match kind {
        Kind::Time => put_time(digits.pick(&numbers::fixed_times(focus)), out),
        Kind::Span => {
            let left = u128::MAX - focus.now;
            let spans = [0, 1, 1 << 64, left.wrapping_sub(1), left, left.wrapping_add(1), u128::MAX];
            put_time(digits.pick(&spans), out);
        }
        Kind::Hz => out[0] = digits.pick(&FREQUENCIES),
        Kind::Denominator => out[0] = digits.pick(&DENOMINATORS),
        Kind::Clock => put_clock(digits, out),
        Kind::Domain => {
            put_clock(digits, out);
            let start = layout::time_at(out, 0);
            out[layout::RUNNING] = digits.below(2) as u64;
            let held = digits.pick(&[start.wrapping_sub(1), start, u128::MAX]);
            put_time(held, &mut out[layout::HELD_AT..]);
        }
        Kind::Edges => out[0] = digits.near(exact::last(&focus.clock)),
        Kind::Parent => out[0] = digits.near(focus.anchor()),
        Kind::Tick => out[0] = digits.near(focus.emitted()),
        Kind::PrescalerS | Kind::PrescalerW => {
            let stages = out.len() - layout::DIVIDER;
            out[0] = digits.pick(&ANCHORS);
            out[1] = digits.pick(&[0, 1, (1 << stages) - 1, 65535]);
            out[2] = digits.below(2) as u64;
            out[layout::DIVIDER..].fill(digits.pick(&EMITTED));
        }
        Kind::Phase => out[0] = digits.pick(&PHASES),
        Kind::Stage => out[0] = digits.pick(&STAGES),
        Kind::Tap => put_tap(digits, &DIVIDERS, out),
        Kind::Divide => out[0] = digits.pick(&DIVIDERS),
        Kind::Frequencies => out.copy_from_slice(&digits.pick(&SETS_OF)),
        Kind::Wait => {
            put_tap(digits, &WAIT_DIVIDERS, out);
            put_state(digits, focus, &mut out[layout::TAP..]);
        }
    }
}

fn put_time(time: u128, out: &mut [u64]) {
    out[..2].copy_from_slice(&layout::halves(time));
}

fn put_clock(digits: &mut Digits, out: &mut [u64]) {
    put_time(digits.pick(&STARTS), out);
    out[2] = digits.pick(&FREQUENCIES);
    out[3] = digits.pick(&DENOMINATORS);
    let numerator = out[2];
    out[layout::ORDINAL] = digits.pick(&ORDINALS);
    out[layout::FRACTION] = digits.pick(&[0, 1, numerator.wrapping_sub(1), numerator]);
}

fn put_tap(digits: &mut Digits, dividers: &[u64], out: &mut [u64]) {
    out[0] = digits.below(layout::DOMAINS) as u64;
    out[1] = digits.pick(dividers);
}

fn put_state(digits: &mut Digits, focus: &Focus, out: &mut [u64]) {
    let counts = WAIT_COUNTS.len();
    match digits.below(2 * counts + numbers::FIXED_TIMES) {
        place if place < 2 * counts => {
            out.copy_from_slice(&[(place / counts) as u64, WAIT_COUNTS[place % counts], 0]);
        }
        place => {
            out[0] = 2;
            put_time(numbers::fixed_times(focus)[place - 2 * counts], &mut out[1..]);
        }
    }
}

/// New sets at every frequency and start, and the same with all domains stopped, at their start or before it, with prescalers
/// about to overflow, and with those stopped.
fn sets() -> Vec<Set> {
    let mut sets = Vec::new();
    for start in [0, 5 << 64, LATE, u128::MAX] {
        for frequencies in SETS_OF {
            let set = plain_set(start, frequencies);
            let full = full_prescalers(set);
            let mut paused = full;
            paused[layout::AT_S + 2] = 0;
            paused[layout::AT_W + 2] = 0;
            sets.extend([set, stopped(set, start), stopped(set, start.saturating_sub(1)), full, paused]);
        }
    }
    sets
}

/// A set whose domains are held at a time.
fn stopped(mut set: Set, held_at: u128) -> Set {
    for domain in set[..layout::AT_S].chunks_mut(layout::DOMAIN) {
        domain[layout::RUNNING] = 0;
        put_time(held_at, &mut domain[layout::HELD_AT..]);
    }
    set
}

/// A set whose prescalers have counted nearly all that they can.
fn full_prescalers(mut set: Set) -> Set {
    for at in [layout::AT_S, layout::AT_W] {
        set[at] = 3;
        set[at + 1] = 65535;
    }
    set[layout::AT_S + layout::DIVIDER..layout::AT_W].fill(u64::MAX);
    set[layout::AT_W + layout::DIVIDER..].fill(u64::MAX - 1);
    set
}
