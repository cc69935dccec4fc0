//! Clock sets, domains and prescalers of words. A child of `clocks`, which can see what is private there.
use super::super::domain::Domain;
use super::super::prescaler::Prescaler;
use super::super::{ClockWait, Clocks, Frequencies, LockMemo, Projection, Revision, Source, Tap};
use crate::time::{Clock, Time};
use crate::Error;
use words::layout::{self, STAGES_S, STAGES_W};
use words::{Reader, Take};

pub(crate) fn time(words: &[u64], at: usize) -> Time {
    Time::from_raw(layout::time_at(words, at))
}

/// None where the clock holds a zero, or a fraction that isn't below its numerator.
pub(crate) fn clock(words: &[u64]) -> Option<Clock> {
    if layout::has_zero(words) {
        return None;
    }
    let mut clock = Clock::new(time(words, 0), words[2], words[3]).ok()?;
    clock.ordinal = words[layout::ORDINAL];
    clock.fraction = words[layout::FRACTION];
    Some(clock)
}

/// Start, numerator, denominator, ordinal and fraction.
pub(crate) fn put_clock(clock: &Clock, out: &mut [u64]) {
    let period = clock.whole * u128::from(clock.denominator) + u128::from(clock.remainder);
    let [denominator, rest] = layout::halves(period);
    assert!(rest == 0, "a period that is no multiple of a second");
    out[..2].copy_from_slice(&layout::halves(clock.at.raw()));
    out[2] = clock.denominator;
    out[3] = denominator;
    out[layout::ORDINAL] = clock.ordinal;
    out[layout::FRACTION] = clock.fraction;
}

fn domain(words: &[u64]) -> Option<Domain> {
    Some(Domain { clock: clock(words)?, running: words[layout::RUNNING] != 0, held_at: time(words, layout::HELD_AT) })
}

fn put_domain(domain: &Domain, out: &mut [u64]) {
    put_clock(&domain.clock, out);
    out[layout::RUNNING] = u64::from(domain.running);
    out[layout::HELD_AT..][..layout::TIME].copy_from_slice(&layout::halves(domain.held_at.raw()));
}

pub(crate) fn domain_new(now: Time, hz: u64, divide: u64, out: &mut [u64]) -> Result<(), Error> {
    put_domain(&Domain::new(now, hz, divide)?, out);
    Ok(())
}

/// The domain's time and its count; none where its clock holds a zero.
pub(crate) fn domain_time(words: &[u64], now: Time) -> Option<Time> {
    domain(words).map(|d| d.time(now))
}

pub(crate) fn domain_ticks(words: &[u64], now: Time) -> Option<u64> {
    domain(words).map(|d| d.ticks(now))
}

/// A set of that domain alone, in the place of each: half counts and half edges look at the system domain.
pub(crate) fn set_of(words: &[u64]) -> Option<Clocks> {
    let mut of = [0; layout::SET];
    of[..layout::AT_S].chunks_mut(layout::DOMAIN).for_each(|domain| domain.copy_from_slice(&words[..layout::DOMAIN]));
    set(&of)
}

/// Anchor, phase and running lie before the stages; the Rust has its flag behind them.
fn prescaler<const N: usize>(words: &[u64]) -> Prescaler<N> {
    let mut order = [0; layout::PRESCALER_S];
    order[..2].copy_from_slice(&words[..2]);
    order[2..2 + N].copy_from_slice(&words[layout::DIVIDER..][..N]);
    order[2 + N] = words[2];
    Prescaler::take(&mut Reader::new(&order))
}

fn put_prescaler<const N: usize>(prescaler: &Prescaler<N>, out: &mut [u64]) {
    let order = words::of(prescaler);
    out[..2].copy_from_slice(&order[..2]);
    out[2] = order[2 + N];
    out[layout::DIVIDER..][..N].copy_from_slice(&order[2..2 + N]);
}

pub(crate) fn prescaler_ticks<const N: usize>(words: &[u64], parent: u64, stage: u32) -> u64 {
    prescaler::<N>(words).ticks(parent, stage)
}

pub(crate) fn prescaler_high<const N: usize>(words: &[u64], parent: u64, stage: u32) -> bool {
    prescaler::<N>(words).high(parent, stage)
}

pub(crate) fn parent_edge<const N: usize>(words: &[u64], tick: u64, stage: u32) -> Result<u64, Error> {
    prescaler::<N>(words).parent_edge(tick, stage)
}

/// None where a clock of the set holds a zero.
pub(crate) fn set(words: &layout::Set) -> Option<Clocks> {
    let of = |source: Source| domain(layout::domain(words, source as usize));
    Some(Clocks {
        frequencies: Frequencies::default(),
        system: of(Source::System)?,
        cpu: of(Source::Cpu)?,
        cpu_uses_subclock: false,
        prescaler_s: prescaler::<STAGES_S>(&words[layout::AT_S..]),
        prescaler_w: prescaler::<STAGES_W>(&words[layout::AT_W..]),
        watch: of(Source::Watch)?,
        on_chip: of(Source::OnChip)?,
        oscillator: of(Source::Oscillator)?,
        subclock: of(Source::Subclock)?,
        watch_crystal: of(Source::Watch)?,
        watch_uses_on_chip: false,
        subclock_divide: 8,
        system_source: Source::Oscillator,
        system_divide: 1,
        system_numerator: 1,
        system_denominator: 1,
        revision: Revision::default(),
        lock: LockMemo::default(),
        projection: Projection::default(),
    })
}

/// The set with the start of its system clock moved up.
pub(crate) fn advance_system(clocks: &Clocks, edges: u64) -> Result<Clocks, Error> {
    let mut moved = clocks.clone();
    moved.system.clock.advance(edges)?;
    Ok(moved)
}

pub(crate) fn put_set(clocks: &Clocks, out: &mut [u64]) {
    let domains =
        [&clocks.system, &clocks.cpu, &clocks.watch, &clocks.on_chip, &clocks.oscillator, &clocks.subclock];
    for (domain, out) in domains.into_iter().zip(out.chunks_mut(layout::DOMAIN)) {
        put_domain(domain, out);
    }
    put_prescaler(&clocks.prescaler_s, &mut out[layout::AT_S..]);
    put_prescaler(&clocks.prescaler_w, &mut out[layout::AT_W..]);
}

pub(crate) fn tap(words: &[u64]) -> Tap {
    Tap::take(&mut Reader::new(words))
}

pub(crate) fn wait(words: &[u64]) -> ClockWait {
    ClockWait::take(&mut Reader::new(words))
}

