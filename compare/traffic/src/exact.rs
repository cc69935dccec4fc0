//! Edges and counts of a clock in whole numbers, to aim inputs with. Nothing is compared with them.
use words::layout;

pub type Clock = [u64; layout::CLOCK];

/// The clock of a domain.
pub fn clock(domain: &[u64]) -> Clock {
    core::array::from_fn(|place| domain[place])
}

/// The time of the edge of that number: the start for one below the ordinal, and the last time where the edge lies past it or
/// the clock has none.
pub fn edge(clock: &Clock, edges: u64) -> u128 {
    let [numerator, denominator] = [clock[2], clock[3]].map(u128::from);
    if numerator == 0 {
        return u128::MAX;
    }
    let periods = u128::from(edges.saturating_sub(clock[layout::ORDINAL])) * denominator;
    let (seconds, rest) = (periods / numerator, periods % numerator);
    if seconds >> 64 != 0 {
        return u128::MAX;
    }
    let since = (seconds << 64).saturating_add(((rest << 64) + u128::from(clock[layout::FRACTION])) / numerator);
    layout::time_at(clock, 0).saturating_add(since)
}

/// The time of a half edge: an odd one lies in the middle between two edges.
pub fn half_edge(clock: &Clock, half: u64) -> u128 {
    let before = edge(clock, half / 2);
    before + (edge(clock, half / 2 + half % 2) - before) / 2
}

/// The number of the last edge at or before a time, at most 2^64 - 1, near enough: what is left over counts as nothing.
pub fn count(clock: &Clock, now: u128) -> u64 {
    let since = now.saturating_sub(layout::time_at(clock, 0));
    let [high, low] = layout::halves(since).map(u128::from);
    let numerator = u128::from(clock[2]);
    let seconds = high * numerator + ((low * numerator) >> 64);
    let count = seconds.checked_div(u128::from(clock[3])).unwrap_or(0);
    clock[layout::ORDINAL].saturating_add(u64::try_from(count).unwrap_or(u64::MAX))
}

/// The first edge after the start.
pub fn first(clock: &Clock) -> u64 {
    clock[layout::ORDINAL].saturating_add(1)
}

/// The clock moved up by so many edges, and as it was where that can't be.
pub fn moved(clock: &Clock, edges: u64) -> Clock {
    let ordinal = clock[layout::ORDINAL].checked_add(edges);
    let start = ordinal.map_or(u128::MAX, |ordinal| edge(clock, ordinal));
    if layout::has_zero(clock) || start == u128::MAX {
        return *clock;
    }
    let numerator = u128::from(clock[2]);
    let rest = u128::from(edges) * u128::from(clock[3]) % numerator;
    let left = ((rest << 64) + u128::from(clock[layout::FRACTION])) % numerator;
    let [seconds, fraction] = layout::halves(start);
    [seconds, fraction, clock[2], clock[3], clock[layout::ORDINAL] + edges, left as u64]
}

/// The last edge that has a time, at most 2^64 - 1.
pub fn last(clock: &Clock) -> u64 {
    count(clock, u128::MAX)
}
