//! The rate set that `rated.rs`, the copy of iic.rs, looks its three tables up in.
use std::cell::Cell;
use words::rates::{Rates, HALF_CLOCKS, MONITORS, SETUPS};

thread_local! {
    static RATES: Cell<Rates> = const { Cell::new(Rates::DEFAULT) };
}

/// Makes a call of the copy over that set.
pub(crate) fn over<T>(rates: &Rates, call: impl FnOnce() -> T) -> T {
    RATES.set(*rates);
    call()
}

pub(crate) fn half_clocks() -> [u64; HALF_CLOCKS] {
    RATES.get().half_clocks.map(u64::from)
}

pub(crate) fn monitors() -> [u64; MONITORS] {
    RATES.get().monitors.map(u64::from)
}

pub(crate) fn setups() -> [u64; SETUPS] {
    RATES.get().setups.map(u64::from)
}
