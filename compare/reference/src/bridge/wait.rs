//! `ClockWait` over a clock set. What a call leaves of the wait is written whatever its end.
use super::{inside, put, put_deadline};
use crate::mcu::clocks::{ClockWait, Clocks};
use crate::Error;
use std::panic::{catch_unwind, resume_unwind, AssertUnwindSafe};
use words::calls::Call;
use words::layout::{Args, TAP, WAIT};

pub fn answer(call: Call, set: &Clocks, args: &Args, out: &mut [u64]) -> Result<(), Error> {
    let now = inside::time(args, WAIT);
    match call {
        Call::WaitAfter => {
            put(&ClockWait::after(inside::time(args, TAP), args[4], inside::tap(args), set)?, out);
            Ok(())
        }
        Call::WaitDeadline => {
            put_deadline(inside::wait(args).deadline(set)?, out);
            Ok(())
        }
        Call::WaitLaterEdge => {
            put_deadline(inside::wait(args).later_edge(args[WAIT], set)?, out);
            Ok(())
        }
        Call::WaitEdgesBefore => {
            out[0] = inside::wait(args).edges_before(now, set);
            Ok(())
        }
        Call::WaitPause => changed(args, out, |wait| wait.pause(now, set)),
        Call::WaitResume => changed(args, out, |wait| wait.resume(now, set)),
        Call::WaitSelect => {
            changed(args, out, |wait| wait.select(inside::time(args, WAIT + TAP), inside::tap(&args[WAIT..]), set))
        }
        _ => Err(Error::Internal("no call over a clock set")),
    }
}

/// Writes the wait as the call leaves it, be it by a trap.
fn changed(args: &Args, out: &mut [u64], call: impl FnOnce(&mut ClockWait) -> Result<(), Error>) -> Result<(), Error> {
    let mut wait = inside::wait(args);
    let end = catch_unwind(AssertUnwindSafe(|| call(&mut wait)));
    put(&wait, out);
    end.unwrap_or_else(|reason| resume_unwind(reason))
}
