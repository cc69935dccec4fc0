//! time.rs. What the port has under a name of its own, the Rust writes out where it needs it.
use super::{inside, put_time};
use crate::time::{Clock, Duration, Time, TimeError};
use crate::Error;
use words::calls::Call;
use words::layout::{self, Args};

pub fn answer(call: Call, args: &Args, out: &mut [u64]) -> Result<(), Error> {
    let (a, b) = (inside::time(args, 0), inside::time(args, 2));
    match call {
        Call::TimeBefore => out[0] = u64::from(a < b),
        Call::TimeSame => out[0] = u64::from(a == b),
        Call::TimeCheckedAdd => put_time(a.checked_add(Duration::from_raw(b.raw())).ok_or(TimeError::Overflow)?, out),
        Call::TimeDurationSince => {
            let since = a.duration_since(b).ok_or(TimeError::Reversed)?;
            put_time(Time::from_raw(since.raw()), out)
        }
        Call::TimeNext => put_time(Time::from_raw(a.raw().saturating_add(1)), out),
        // The Rust never asks for the middle of two times in the wrong order; the port says the first.
        Call::TimeMidway if b < a => put_time(a, out),
        Call::TimeMidway => put_time(Time::from_raw(a.raw() + (b.raw() - a.raw()) / 2), out),
        Call::ClockNew => inside::put_clock(&Clock::new(a, args[2], args[3])?, out),
        Call::ClockHasZero => out[0] = u64::from(inside::clock(args).is_none()),
        // An edge by its own number and a whole count, as clocks.rs and domain.rs ask for them.
        Call::ClockAfter => {
            let clock = clock(args)?;
            let edges = args[layout::CLOCK].checked_sub(clock.ordinal()).ok_or(TimeError::Reversed)?;
            put_time(clock.after(edges)?, out)
        }
        Call::ClockEdgesBefore => {
            let clock = clock(args)?;
            out[0] = clock.ordinal().saturating_add(clock.edges_before(inside::time(args, layout::CLOCK)))
        }
        Call::ClockAdvance => {
            let mut clock = clock(args)?;
            clock.advance(args[layout::CLOCK])?;
            inside::put_clock(&clock, out)
        }
        _ => return Err(Error::Internal("no call of time.rs")),
    }
    Ok(())
}

fn clock(args: &Args) -> Result<Clock, Error> {
    inside::clock(args).ok_or(Error::Time(TimeError::ZeroFrequency))
}
