//! prescaler.rs, domain.rs and clocks.rs, less the waits.
use super::inside::{self, parent_edge, prescaler_high, prescaler_ticks};
use super::{put, put_time, time, wait};
use crate::mcu::clocks::{Clocks, Frequencies, Tap};
use crate::time::TimeError;
use crate::{Error, Time};
use words::calls::Call;
use words::layout::{self, Args, PRESCALER_S, STAGES_S, STAGES_W};

/// The calls that are handed no clock set.
pub fn plain(call: Call, args: &Args, out: &mut [u64]) -> Result<(), Error> {
    match call {
        Call::DomainNew => inside::domain_new(inside::time(args, 0), args[2], args[3], out)?,
        Call::DomainTime => put_time(inside::domain_time(args, now(args)).ok_or(TimeError::ZeroFrequency)?, out),
        Call::DomainTicks => out[0] = inside::domain_ticks(args, now(args)).ok_or(TimeError::ZeroFrequency)?,
        Call::DomainHalfTicks => out[0] = set_of(args)?.system_half_ticks(now(args))?,
        Call::DomainHalfEdge => put_time(set_of(args)?.system_half_edge(args[layout::DOMAIN])?, out),
        Call::TapCpu => put(&Tap::cpu(), out),
        Call::TapSystem => put(&Tap::system(args[0] as u32), out),
        Call::TapWatch => put(&Tap::watch(args[0] as u32), out),
        Call::TapOnChip => put(&Tap::on_chip(args[0] as u32), out),
        Call::TapOscillator => put(&Tap::oscillator(), out),
        Call::TapSubclock => put(&Tap::subclock(), out),
        Call::TapValidate => inside::tap(args).validate()?,
        Call::FrequenciesDefault => put(&Frequencies::default(), out),
        Call::ClocksNew => {
            let frequencies = Frequencies { main_hz: args[2], watch_hz: args[3], on_chip_hz: args[4] };
            inside::put_set(&Clocks::new(inside::time(args, 0), frequencies)?, out);
        }
        // No set is handed in where a clock holds a zero.
        Call::ClocksHasZero => out[0] = 1,
        Call::WaitValidate => inside::wait(args).validate()?,
        Call::WaitUses => out[0] = u64::from(inside::wait(args).uses(inside::tap(&args[layout::WAIT..]))),
        Call::CrossingsS | Call::TicksS | Call::HighS | Call::ParentEdgeS => {
            out[0] = prescaled::<STAGES_S>(call, args)?
        }
        Call::CrossingsW | Call::TicksW | Call::HighW | Call::ParentEdgeW => {
            out[0] = prescaled::<STAGES_W>(call, args)?
        }
        _ => return time::answer(call, args, out),
    }
    Ok(())
}

/// The calls of a prescaler with so many stages: its words, the stage, and a count of its parent or a tick.
fn prescaled<const N: usize>(call: Call, args: &Args) -> Result<u64, Error> {
    let behind = layout::DIVIDER + N;
    match call {
        Call::CrossingsS | Call::CrossingsW => Ok(crossings::<N>(args)),
        Call::TicksS | Call::TicksW => Ok(prescaler_ticks::<N>(args, parent(args, behind), stage(args, behind))),
        Call::HighS | Call::HighW => {
            Ok(u64::from(prescaler_high::<N>(args, parent(args, behind), stage(args, behind))))
        }
        _ => parent_edge::<N>(args, parent(args, behind), stage(args, behind)),
    }
}

/// The calls that are handed a clock set.
pub fn over_set(call: Call, set: &Clocks, args: &Args, out: &mut [u64]) -> Result<(), Error> {
    let tap = || inside::tap(args);
    let now = inside::time(args, layout::TAP);
    match call {
        Call::ClocksHasZero => out[0] = 0,
        Call::ClocksTicks => out[0] = set.ticks(now, tap()),
        Call::ClocksEdge => put_time(set.edge(args[2], tap())?, out),
        Call::ClocksAfter => put_time(set.after(now, args[4], tap())?, out),
        Call::ClocksAvailable => out[0] = u64::from(set.available(tap())),
        Call::ClocksHigh => out[0] = u64::from(set.high(now, tap())),
        Call::HalfTicks => out[0] = set.system_half_ticks(inside::time(args, 0))?,
        Call::HalfEdge => put_time(set.system_half_edge(args[0])?, out),
        Call::ClocksAdvanceSystem => inside::put_set(&inside::advance_system(set, args[0])?, out),
        _ => return wait::answer(call, set, args, out),
    }
    Ok(())
}

fn set_of(args: &Args) -> Result<Clocks, Error> {
    Ok(inside::set_of(args).ok_or(TimeError::ZeroFrequency)?)
}

/// The function is private; a prescaler that has counted nothing and starts at 0 counts just the crossings.
fn crossings<const N: usize>(args: &Args) -> u64 {
    let mut words = [0; PRESCALER_S];
    words[1] = args[0];
    words[2] = 1;
    prescaler_ticks::<N>(&words, parent(args, 1), stage(args, 1))
}

/// The stage at a place, and the count or tick behind it.
fn stage(args: &Args, at: usize) -> u32 {
    args[at] as u32
}

fn parent(args: &Args, at: usize) -> u64 {
    args[at + 1]
}

fn now(args: &Args) -> Time {
    inside::time(args, layout::DOMAIN)
}
