//! The peripheral: runs of calls from the default, and a few calls from states made at random.
pub mod machine;
mod rare;
pub mod rates;
mod runs;
pub mod scenes;
mod states;
pub mod tally;
pub mod trial;
use crate::inputs;
use crate::options::Options;
use std::time::Instant;
use tally::Tally;
use traffic::exact;
use traffic::host::Host;
use traffic::random::Random;
use trial::Trial;
use words::layout::{self, Set};
use words::rates::Rates;

/// Which rate set a run has.
type Draw = fn(&mut Random) -> Rates;

/// Compares over the default rate set, which is the unmodified Rust's. Prints what was found, and returns how many
/// differences there are.
pub fn compare(options: &Options) -> u64 {
    let (tally, seconds) = runs(|_| Rates::DEFAULT, options);
    let missing = tally.rare.print(&tally, options);
    tally.close("iic", options.seed, seconds);
    tally.differences + missing
}

/// The same over other sets, with the copy of iic.rs that looks its rates up.
pub fn compare_rates(options: &Options) -> u64 {
    let (tally, seconds) = runs(rates::random, options);
    let mut missing = tally.rare.print(&tally, options);
    for what in tally.rates.print() {
        if options.count >= rare::ENOUGH {
            println!("difference: never came up: {what}");
            missing += 1;
        }
    }
    tally.close("rates", options.seed, seconds);
    tally.differences + missing
}

/// Runs over sets that are drawn so, and the seconds that they took.
fn runs(draw: Draw, options: &Options) -> (Tally, f64) {
    let mut random = Random::new(options.seed);
    let mut tally = Tally::default();
    let start = Instant::now();
    while tally.calls() < options.count && tally.differences < 100 {
        let most = random.pick(&[40, 400, 4000]);
        let length = 1 + random.below(most);
        if options.begins("default") {
            from_default(&mut random, draw, length, &mut tally);
            from_scene(&mut random, draw, &mut tally);
        }
        for _ in 0..60 {
            if options.begins("made") {
                from_made(&mut random, draw, &mut tally);
            }
        }
    }
    tally.print();
    (tally, start.elapsed().as_secs_f64())
}

/// A set as `Clocks::new` makes it, at any frequency and start, and a time at which a run begins.
pub fn new_set(random: &mut Random) -> (Set, u128) {
    let main = match random.below(8) {
        0..=2 => 3_686_400,
        3 => 1 + random.below(10),
        4 => random.pick(&[6_000_000_000, u64::MAX, (1 << 63) + 1, 1 << 32]),
        5 => random.any_length().max(1),
        _ => 3 + 2 * random.below(1000),
    };
    let set = inputs::plain_set(inputs::start(random), [main, 32_768, 1_310_720]);
    (set, begin(random, &set))
}

/// The same with a system clock whose start may have been moved up.
pub fn moved_set(random: &mut Random) -> (Set, u128) {
    let (mut set, _) = new_set(random);
    let moved = inputs::moved(random, system(&set));
    set[..layout::CLOCK].copy_from_slice(&moved);
    (set, begin(random, &set))
}

/// A time near the clock's start, near half counts of 2^64, near the last time, or anywhere.
fn begin(random: &mut Random, set: &Set) -> u128 {
    let clock = system(set);
    let start = layout::time_at(&clock, 0);
    let step = exact::edge(&clock, exact::first(&clock)).saturating_sub(start).max(1);
    let near = u128::from(random.any_length()) % step;
    match random.below(20) {
        0 => start.saturating_sub(near),
        1 => {
            let before = random.pick(&[400, 2000]);
            exact::edge(&clock, (1 << 63) - random.below(before)).saturating_add(near)
        }
        2 => exact::edge(&clock, exact::last(&clock).saturating_sub(random.below(200))).saturating_add(near),
        3 => layout::joined(random.any_length(), random.word()),
        _ => exact::edge(&clock, clock[layout::ORDINAL].saturating_add(random.below(1000))).saturating_add(near),
    }
}

/// The system clock of a set.
pub fn system(set: &Set) -> exact::Clock {
    exact::clock(layout::domain(set, 0))
}

fn from_default(random: &mut Random, draw: Draw, length: u64, tally: &mut Tally) {
    let rates = draw(random);
    let (set, now) = moved_set(random);
    let host = Host::new(random, now, system(&set));
    // Over a refused set nothing moves.
    let length = if rates::refused(&rates) { length.min(20) } else { length };
    if let Some(mut trial) = Trial::fresh(&rates, set, tally) {
        trial.play(random, host, length);
    }
}

/// A scene, and what a host makes of it.
fn from_scene(random: &mut Random, draw: Draw, tally: &mut Tally) {
    let rates = draw(random);
    let set = inputs::plain_set(inputs::start(random) >> random.below(128), inputs::FREQUENCIES);
    let clock = system(&set);
    let now = exact::edge(&clock, random.below(1000));
    let scene = random.pick(&scenes::ALL);
    let Some(mut trial) = Trial::fresh(&rates, set, tally) else {
        return;
    };
    if let Some(now) = scenes::play(&mut trial, clock, now, scene) {
        let host = Host::over_state(random, now, clock);
        let length = random.below(60);
        trial.play(random, host, length);
    }
}

fn from_made(random: &mut Random, draw: Draw, tally: &mut Tally) {
    let rates = draw(random);
    let set = if random.once_in(2) { inputs::set(random) } else { moved_set(random).0 };
    // On an edge of the system clock, as a rule, so that waits can end just then.
    let begin = begin(random, &set);
    let clock = system(&set);
    let now = if random.once_in(4) { begin } else { exact::edge(&clock, exact::count(&clock, begin)) };
    let state = states::random(random, &rates, &set, now);
    let host = Host::over_state(random, now, clock);
    let length = 1 + random.below(6);
    Trial::made(set, &state, now, tally).play(random, host, length);
}
