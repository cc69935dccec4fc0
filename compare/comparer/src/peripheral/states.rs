//! States made at random: sound ones, and ones that no call leads to. Waits end at, just before or just after a time.
use crate::inputs::{divider, word};
use traffic::exact;
use traffic::random::Random;
use words::iic::{self, State};
use words::layout::{self, Set};
use words::rates::Rates;

/// A state with that rate set in which waits end about `now`.
pub fn random(random: &mut Random, rates: &Rates, set: &Set, now: u128) -> State {
    let mut state = iic::blank(rates);
    let unsound = random.once_in(6);
    put_registers(random, unsound, &mut state);
    put_flags(random, &mut state);
    for place in [iic::FILTER_WAIT, iic::SETUP_WAIT] {
        put_wait(random, set, now, unsound, &mut state[place..=place + layout::WAIT]);
    }
    for place in [iic::CLOCK_WAIT, iic::MONITOR_WAIT] {
        put_half(random, set, now, &mut state[place..place + 3]);
    }
    // A condition, a command and a hold, by their numbers; each may be absent.
    for (place, once_in, numbers) in [(iic::CONDITION, 4, 7), (iic::COMMAND, 3, 2), (iic::HOLD, 4, 2)] {
        if random.once_in(once_in) {
            state[place..place + 2].copy_from_slice(&[1, random.below(numbers)]);
        }
    }
    if !random.once_in(4) {
        put_frame(random, unsound, &mut state[iic::FRAME..iic::SELECTED]);
    }
    if random.once_in(2) {
        put_eighth_fall(random, now, unsound, &mut state[iic::EIGHTH_FALL..iic::STALE_RELEASE]);
    }
    state
}

/// The nine registers: mostly enabled, and `seen` mostly within the status.
fn put_registers(random: &mut Random, unsound: bool, state: &mut State) {
    state[..iic::BUSY].fill_with(|| random.word() & 0xff);
    state[iic::CONTROL] |= random.pick(&[0, 0x80, 0x80, 0x80]);
    state[iic::SEEN] &= random.pick(&[state[iic::STATUS], state[iic::STATUS], 0xff]);
    if !(unsound && random.once_in(3)) {
        state[iic::MODE] &= 0xc0;
        state[iic::COUNT] &= 7;
    }
}

/// Flags and levels: mostly gated on and out of reset.
fn put_flags(random: &mut Random, state: &mut State) {
    let flags = [iic::BUSY, iic::RESET, iic::GATE, iic::SYNCHRONIZED_HOLD, iic::SELECTED, iic::COMPLETED];
    let more = [iic::RECEIVE_ENABLED, iic::RECEIVE_STOPPED, iic::STALE_RELEASE];
    for place in flags.into_iter().chain(more).chain(iic::DRIVE..iic::FILTER_WAIT) {
        state[place] = random.below(2);
    }
    state[iic::GATE] |= random.below(2);
    state[iic::RESET] &= random.below(2);
    // An edge of SCL that is about to pass the filter, with SDA as it was or not.
    if random.once_in(2) {
        let (old, new) = random.pick(&[(0, 1), (1, 0)]);
        state[iic::RAW] = new;
        state[iic::LATCH] = new;
        state[iic::FILTERED] = old;
    }
}

/// Now or earlier; in an unsound state now or later.
fn put_eighth_fall(random: &mut Random, now: u128, unsound: bool, out: &mut [u64]) {
    let away = if random.once_in(2) { 0 } else { u128::from(random.any_length()) };
    let fall = if unsound { now.wrapping_add(away) } else { now.saturating_sub(away) };
    let [seconds, fraction] = layout::halves(fall);
    out.copy_from_slice(&[1, seconds, fraction]);
}

fn put_frame(random: &mut Random, unsound: bool, out: &mut [u64]) {
    let phase = random.pick(&[0, 0, 0, 1, 2]);
    let remaining = match phase {
        _ if unsound && random.once_in(3) => random.pick(&[0, 1, 8, 9, 255]),
        0 if random.once_in(2) => 1,
        0 => 1 + random.below(8),
        _ => 0,
    };
    let transmit = random.below(2);
    let loaded = if transmit == 0 && !unsound { 1 } else { random.below(2) };
    let [shift, address, last] = [random.word() & 0xff, random.below(2), random.below(2)];
    out.copy_from_slice(&[1, shift, remaining, phase, address, transmit, loaded, last]);
}

/// The half count at a time, as near as a guess goes.
fn halves(set: &Set, now: u128) -> u64 {
    let clock = exact::clock(layout::domain(set, 0));
    let count = exact::count(&clock, now);
    let (a, b) = (exact::edge(&clock, count), exact::edge(&clock, count.saturating_add(1)));
    let late = now.wrapping_sub(a) >= b.wrapping_sub(a) / 2;
    count.wrapping_mul(2).wrapping_add(u64::from(late))
}

fn put_half(random: &mut Random, set: &Set, now: u128, out: &mut [u64]) {
    if random.once_in(3) {
        return;
    }
    let at = halves(set, now);
    let paused = random.once_in(4);
    let count = match random.below(10) {
        0 => word(random),
        1 => u64::MAX - random.below(2000),
        2..=5 if paused => random.below(300),
        2..=5 => at,
        6 => at.wrapping_sub(1 + random.below(3)),
        _ => at.wrapping_add(random.below(300)),
    };
    out.copy_from_slice(&[1, count, u64::from(paused)]);
}

fn put_wait(random: &mut Random, set: &Set, now: u128, unsound: bool, out: &mut [u64]) {
    if random.once_in(3) {
        return;
    }
    let (source, divide) = match random.below(8) {
        0 => (random.below(layout::DOMAINS as u64), divider(random)),
        1 => (0, 1 << random.below(14)),
        2 if unsound => (random.below(layout::DOMAINS as u64), 0),
        _ => (0, 1),
    };
    let divide = if unsound { divide } else { divide.max(1) };
    let clock = exact::clock(layout::domain(set, source as usize));
    let at = exact::count(&clock, now) / divide.max(1);
    let state = random.pick(&[0, 0, 0, 1, 2]);
    let any = word(random);
    let [first, second] = match state {
        0 => [random.pick(&[at, at, at.wrapping_add(1), at.wrapping_sub(1), any]), 0],
        1 => [random.pick(&[0, 1, 10, any]), 0],
        _ => layout::halves(random.pick(&[now, now, now.wrapping_add(1), now.wrapping_sub(1)])),
    };
    out.copy_from_slice(&[1, source, divide, state, first, second]);
}
