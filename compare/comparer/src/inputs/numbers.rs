//! Words, counts and times: the boundaries, and random ones that lie near them more often than not.
use super::focus::Focus;
use traffic::exact;
use traffic::random::Random;
use words::layout;

const TOP: u64 = u64::MAX;
/// How many times are boundaries, whatever the clock.
pub const FIXED_TIMES: usize = 20;

pub const WORDS: [u64; 18] = [
    0,
    1,
    2,
    3,
    4,
    7,
    8,
    9,
    (1 << 32) - 1,
    1 << 32,
    (1 << 32) + 1,
    (1 << 63) - 1,
    1 << 63,
    (1 << 63) + 1,
    TOP - 1024,
    TOP - 2,
    TOP - 1,
    TOP,
];

pub const FREQUENCIES: [u64; 18] = [
    0,
    1,
    2,
    3,
    7,
    10,
    32_768,
    1_310_720,
    3_686_400,
    (1 << 32) - 1,
    1 << 32,
    (1 << 32) + 1,
    6_000_000_000,
    (1 << 63) - 1,
    1 << 63,
    (1 << 63) + 1,
    TOP - 1,
    TOP,
];

pub const DENOMINATORS: [u64; 9] = [0, 1, 2, 3, 8, (1 << 32) - 1, (1 << 32) + 1, TOP - 1, TOP];

pub const DIVIDERS: [u64; 33] = [
    0,
    1,
    2,
    3,
    4,
    5,
    6,
    7,
    8,
    9,
    12,
    16,
    24,
    32,
    64,
    100,
    128,
    256,
    512,
    1000,
    1023,
    1024,
    1025,
    2048,
    4096,
    6000,
    8191,
    8192,
    8193,
    16384,
    1 << 31,
    (1 << 32) - 2,
    (1 << 32) - 1,
];

pub const STAGES: [u64; 23] =
    [0, 1, 2, 3, 4, 5, 6, 7, 8, 9, 10, 11, 12, 13, 14, 15, 31, 32, 33, 63, 64, 65, (1 << 32) - 1];

pub fn word(random: &mut Random) -> u64 {
    match random.below(4) {
        0 => random.pick(&WORDS),
        1 => random.word(),
        2 => {
            let power = 1 << random.below(64);
            random.near(power)
        }
        _ => random.any_length(),
    }
}

pub fn frequency(random: &mut Random) -> u64 {
    match random.below(20) {
        0..=7 => random.pick(&FREQUENCIES[1..]),
        8..=12 => 1 + random.below(1000),
        13 => {
            let power = 1 << random.below(64);
            random.near(power).max(1)
        }
        _ => random.any_length().max(1),
    }
}

pub fn denominator(random: &mut Random) -> u64 {
    match random.below(10) {
        0..=3 => 1,
        4 => 8,
        5 => random.pick(&DENOMINATORS[1..]),
        6 => 1 + random.below(1000),
        _ => random.any_length().max(1),
    }
}

/// A zero once in a while, for a clock that is damaged.
pub fn or_zero(random: &mut Random, n: u64, once_in: u64) -> u64 {
    if random.once_in(once_in) {
        0
    } else {
        n
    }
}

pub fn divider(random: &mut Random) -> u64 {
    match random.below(8) {
        0..=2 => 1 << random.below(15),
        3..=4 => random.pick(&DIVIDERS),
        5 => 1,
        6 => random.below(9000),
        _ => random.any_length() >> 32,
    }
}

pub fn stage(random: &mut Random, stages: u64) -> u64 {
    if random.once_in(12) {
        random.pick(&STAGES)
    } else {
        1 + random.below(stages)
    }
}

pub fn start(random: &mut Random) -> u128 {
    match random.below(12) {
        0..=3 => 0,
        4 => u128::from(random.below(1000)) << 64,
        5 => u128::from(random.any_length()) << 64,
        6 => u128::MAX - u128::from(random.any_length()),
        7 => u128::MAX - (u128::from(random.any_length()) << random.below(65)),
        8 => u128::from(random.word()),
        _ => any_time(random),
    }
}

fn any_time(random: &mut Random) -> u128 {
    let raw = layout::joined(random.word(), random.word());
    raw >> random.below(128)
}

/// A number of edges that is remarkable for the clock, whatever divides it.
fn edges(random: &mut Random, focus: &Focus) -> u64 {
    let parents = |n: u64| n.wrapping_mul(focus.divide.max(1));
    match random.below(10) {
        0 => random.below(4),
        1 => parents(random.below(1 << 13)),
        2 => parents(focus.tick),
        3 => random.near(exact::last(&focus.clock)),
        4 => random.near(1 << 63),
        5 => TOP - random.below(4),
        6 => random.below(exact::last(&focus.clock).max(1)),
        7 => focus.anchor().wrapping_add(random.below(1 << 14)),
        _ => random.any_length(),
    }
}

/// A time at most 2 units away.
pub fn step(random: &mut Random, at: u128) -> u128 {
    at.wrapping_add(u128::from(random.below(5))).wrapping_sub(2)
}

/// A time that is remarkable for the clock in play.
pub fn time(random: &mut Random, focus: &Focus) -> u128 {
    let clock = &focus.clock;
    match random.below(16) {
        0 => random.pick(&fixed_times(focus)),
        1 => any_time(random),
        2 => step(random, focus.now),
        3 => u128::MAX - u128::from(random.any_length()),
        4..=6 => {
            let n = edges(random, focus);
            let (a, b) = (exact::edge(clock, n), exact::edge(clock, n.saturating_add(1)));
            step(random, a.wrapping_add(b.wrapping_sub(a) / 2))
        }
        _ => {
            let n = edges(random, focus);
            step(random, exact::edge(clock, n))
        }
    }
}

/// The boundaries of time, and those of the clock in play.
pub fn fixed_times(focus: &Focus) -> [u128; FIXED_TIMES] {
    let clock = &focus.clock;
    let start = layout::time_at(clock, 0);
    let first = exact::edge(clock, exact::first(clock));
    let top = exact::edge(clock, TOP);
    let half = exact::edge(clock, 1 << 63);
    [
        0,
        1,
        u128::from(u32::MAX),
        u128::from(TOP),
        1 << 64,
        1 << 127,
        u128::MAX - 1,
        u128::MAX,
        start.wrapping_sub(1),
        start,
        start.wrapping_add(1),
        first.wrapping_sub(1),
        first,
        start.wrapping_add(first.wrapping_sub(start) / 2),
        start.wrapping_add(first.wrapping_sub(start) / 2).wrapping_sub(1),
        half.wrapping_sub(1),
        half,
        top.wrapping_sub(1),
        top,
        exact::edge(clock, exact::last(clock)),
    ]
}

/// A tick of a divided clock: near what its stage has counted, and near what has no time any more.
pub fn tick(random: &mut Random, focus: &Focus) -> u64 {
    let divide = if focus.stage > 0 && focus.stage < 64 { 1 << focus.stage } else { focus.divide.max(1) };
    match random.below(8) {
        0 => random.pick(&WORDS),
        1 => random.near(focus.emitted()),
        2 => focus.emitted().wrapping_add(random.any_length()),
        3 => random.near(focus.emitted().wrapping_add((TOP - focus.anchor()) / divide)),
        4 => random.near(exact::last(&focus.clock) / divide),
        5 => random.near(exact::last(&focus.clock).saturating_mul(2)),
        6 => random.near(TOP / divide),
        _ => random.any_length(),
    }
}

/// How many edges more: few, or so many that the sum or its time just passes the end.
pub fn more(random: &mut Random, focus: &Focus) -> u64 {
    let divide = focus.divide.max(1);
    let now = exact::count(&focus.clock, focus.now) / divide;
    match random.below(8) {
        0 => random.pick(&WORDS),
        1..=2 => random.below(40),
        3 => random.near(TOP - now),
        4 => random.near((exact::last(&focus.clock) / divide).wrapping_sub(now)),
        5 => random.near((TOP - focus.emitted()).wrapping_sub(now)),
        _ => random.any_length(),
    }
}

pub fn parent(random: &mut Random, focus: &Focus) -> u64 {
    match random.below(6) {
        0 => random.pick(&WORDS),
        1 => random.near(focus.anchor()),
        2 => TOP - random.any_length(),
        3 => focus.anchor().wrapping_add(random.below(1 << 14)),
        _ => focus.anchor().wrapping_add(random.any_length()),
    }
}
