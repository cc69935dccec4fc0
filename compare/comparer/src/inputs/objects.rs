//! Clocks, domains, prescalers, taps, waits and whole sets, sound ones and damaged ones.
use super::focus::Focus;
use super::fresh::plain_set;
use super::numbers;
use traffic::exact;
use traffic::random::Random;
use words::layout::{self, Set};

pub fn clock(random: &mut Random, damaged: bool) -> [u64; layout::CLOCK] {
    let [seconds, fraction] = layout::halves(numbers::start(random));
    let (mut numerator, mut denominator) = (numbers::frequency(random), numbers::denominator(random));
    if damaged {
        numerator = numbers::or_zero(random, numerator, 2);
        denominator = numbers::or_zero(random, denominator, 2);
    }
    let clock = moved(random, [seconds, fraction, numerator, denominator, 0, 0]);
    if damaged && random.once_in(3) {
        let over = numerator.saturating_add(random.below(3));
        return [seconds, fraction, numerator, denominator, clock[layout::ORDINAL], over];
    }
    clock
}

/// A clock as it was, moved up once or a few times, or with any ordinal and fraction.
pub fn moved(random: &mut Random, mut clock: [u64; layout::CLOCK]) -> [u64; layout::CLOCK] {
    match random.below(8) {
        0..=3 => clock,
        4 => {
            clock[layout::ORDINAL] = numbers::word(random);
            clock[layout::FRACTION] = random.below(clock[2].max(1));
            clock
        }
        times => {
            for _ in 4..times {
                let most = random.pick(&[4, 1000, 1 << 20, 1 << 40, u64::MAX]);
                clock = exact::moved(&clock, random.below(most));
            }
            clock
        }
    }
}

pub fn domain(random: &mut Random, damaged: bool) -> [u64; layout::DOMAIN] {
    let clock = clock(random, damaged);
    held(random, clock)
}

/// A clock as a domain, which mostly runs, held at a time near its edges.
fn held(random: &mut Random, clock: [u64; layout::CLOCK]) -> [u64; layout::DOMAIN] {
    let mut domain = [0; layout::DOMAIN];
    domain[..layout::CLOCK].copy_from_slice(&clock);
    domain[layout::RUNNING] = u64::from(!random.once_in(8));
    let mut focus = Focus::new(&[1; layout::SET]);
    focus.clock = clock;
    let at = if random.once_in(2) { layout::time_at(&clock, 0) } else { numbers::time(random, &focus) };
    domain[layout::HELD_AT..].copy_from_slice(&layout::halves(at));
    domain
}

/// Anchor, phase, running, counts: as a new one, as one in use, or damaged.
pub fn prescaler(random: &mut Random, stages: usize, out: &mut [u64]) {
    out.fill(0);
    out[2] = u64::from(!random.once_in(8));
    let kind = random.below(10);
    if kind < 2 {
        return;
    }
    let anchor = numbers::word(random);
    out[0] = anchor;
    out[1] = random.below(1 << stages);
    for (i, emitted) in out[layout::DIVIDER..].iter_mut().enumerate() {
        *emitted = if kind < 7 { anchored(random, anchor, i) } else { numbers::word(random) };
    }
    if kind >= 8 {
        out[1] = numbers::word(random) & 0xffff;
    }
}

/// What a stage has counted at the anchor, in one that is sound.
fn anchored(random: &mut Random, anchor: u64, stage: usize) -> u64 {
    let most = anchor >> (stage + 1);
    if random.once_in(3) {
        random.below(most.max(1))
    } else {
        most
    }
}

pub fn tap(random: &mut Random) -> [u64; layout::TAP] {
    let source = match random.below(10) {
        0..=3 => 0,
        4..=5 => 2,
        _ => random.below(layout::DOMAINS as u64),
    };
    [source, numbers::divider(random)]
}

pub fn wait(random: &mut Random, set: &Set) -> [u64; layout::WAIT] {
    let tap = tap(random);
    let mut focus = Focus::new(set);
    focus.look(words::calls::Kind::Tap, &tap, set);
    let state = random.pick(&[0, 0, 0, 1, 1, 2]);
    let [first, second] = match state {
        0 => [numbers::tick(random, &focus), 0],
        1 => [numbers::more(random, &focus), 0],
        _ => layout::halves(numbers::time(random, &focus)),
    };
    [tap[0], tap[1], state, first, second]
}

pub fn frequencies(random: &mut Random) -> [u64; layout::FREQUENCIES] {
    if random.once_in(8) {
        return super::FREQUENCIES;
    }
    core::array::from_fn(|_| {
        let n = numbers::frequency(random);
        numbers::or_zero(random, n, 40)
    })
}

/// A set as `Clocks::new` makes it, that with prescalers of any kind, or six domains and two prescalers of any kind; now and
/// then with a damaged clock.
pub fn set(random: &mut Random) -> Set {
    let damaged = random.once_in(25);
    let broken = random.below(layout::DOMAINS as u64) as usize;
    let fresh = random.once_in(4);
    let frequencies = frequencies(random).map(|hz| hz.max(1));
    let start = numbers::start(random);
    let set = if fresh { plain_set(start, frequencies) } else { any_domains(random, damaged.then_some(broken)) };
    let mut used = set;
    let system = moved(random, exact::clock(layout::domain(&set, 0)));
    used[..layout::CLOCK].copy_from_slice(&system);
    prescaler(random, layout::STAGES_S, &mut used[layout::AT_S..layout::AT_W]);
    prescaler(random, layout::STAGES_W, &mut used[layout::AT_W..]);
    if fresh && !random.once_in(4) {
        set
    } else {
        used
    }
}

/// Domains that have nothing to do with one another, one of them damaged or none.
fn any_domains(random: &mut Random, broken: Option<usize>) -> Set {
    let mut set = [0; layout::SET];
    for source in 0..layout::DOMAINS {
        let words = domain(random, broken == Some(source));
        set[source * layout::DOMAIN..][..layout::DOMAIN].copy_from_slice(&words);
    }
    set
}
