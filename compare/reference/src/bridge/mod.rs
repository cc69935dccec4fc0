//! Answers calls in words, and tells how a call ended: with an answer, with the number of a refusal, or in a trap.
mod clocks;
mod iic;
mod time;
mod wait;
use crate::mcu::clocks::startup::inside;
use crate::mcu::clocks::Clocks;
use crate::{Error, Time};
pub use iic::Rated;
use std::any::Any;
use std::panic::{catch_unwind, AssertUnwindSafe};
use words::calls::{Answer, Call, End, Reference, Trap};
use words::layout::{self, Args};
use words::Put;

/// This build of the Rust.
pub struct Bridge;

impl Reference for Bridge {
    type Set = Clocks;

    fn set(words: &layout::Set) -> Option<Clocks> {
        inside::set(words)
    }

    fn answer(call: Call, set: Option<&Clocks>, args: &Args, out: &mut Answer) {
        let words = &mut out.words[1..];
        out.end = ended(|| match set {
            Some(set) => clocks::over_set(call, set, args, words),
            None => clocks::plain(call, args, words),
        });
    }
}

/// Runs a call to its end.
pub(crate) fn ended(call: impl FnOnce() -> Result<(), Error>) -> End {
    match catch_unwind(AssertUnwindSafe(call)) {
        Ok(Ok(())) => End::Done,
        Ok(Err(error)) => End::Refused(error.number()),
        Err(reason) => End::Trapped(trap(&*reason)),
    }
}

fn trap(reason: &(dyn Any + Send)) -> Trap {
    let text = match (reason.downcast_ref::<&str>(), reason.downcast_ref::<String>()) {
        (Some(text), _) => text,
        (_, Some(text)) => text.as_str(),
        _ => "",
    };
    match text {
        "attempt to subtract with overflow" => Trap::Subtract,
        "attempt to add with overflow" => Trap::Overflow,
        "attempt to shift left with overflow" | "attempt to shift right with overflow" => Trap::Shift,
        "attempt to divide by zero" => Trap::Divide,
        _ if text.contains("out of bounds") => Trap::Index,
        _ => Trap::Other,
    }
}

fn put_time(time: Time, out: &mut [u64]) {
    out[..2].copy_from_slice(&layout::halves(time.raw()));
}

/// 0, or 1 and the time.
fn put_deadline(at: Option<Time>, out: &mut [u64]) {
    out[0] = u64::from(at.is_some());
    put_time(at.unwrap_or(Time::ZERO), &mut out[1..]);
}

fn put(value: &impl Put, out: &mut [u64]) {
    let words = words::of(value);
    out[..words.len()].copy_from_slice(&words);
}
