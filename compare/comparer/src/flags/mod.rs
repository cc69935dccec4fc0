//! Request (j) of document 02, on the Rust: what a status write can do to the flags, over any calls from the default, with
//! its rate set or another, refused ones included; and no such calls lead to a state that draws 9 or 10.
mod claim;
mod met;
#[cfg(test)]
mod tests;
use crate::hosts::side::Side;
use crate::hosts::{shown, Clocks};
use crate::options::Options;
use crate::peripheral;
use crate::shrink::SHOWN;
use claim::{Claim, Reads, StatusWrite};
use met::Met;
use std::time::Instant;
use traffic::host::{Host, LULL};
use traffic::random::Random;
use words::calls::{End, Reference};
use words::iic::{self, Call, Peripheral};
use words::layout::{self, Args};

/// Address bits 0 to 2 choose ICSR by 4.
const ICSR: u64 = 4;

/// A host's peripheral, and what was read of ICSR.
struct Run<'a> {
    claim: Claim,
    clocks: Clocks,
    side: Side,
    reads: Reads,
    met: &'a mut Met,
}

/// Prints what was found, and returns how many runs break the claim, and what never came up.
pub fn compare(options: &Options) -> u64 {
    let mut random = Random::new(options.seed);
    let mut met = Met::default();
    let mut broken = 0;
    let start = Instant::now();
    while met.calls < options.count && broken < SHOWN {
        if let Err(what) = run(&mut random, Claim::Document, &mut met) {
            println!("difference: a status write: {what}");
            broken += 1;
        }
    }
    let seconds = start.elapsed().as_secs_f64();
    let missing = met.print(options.count);
    println!(
        "flags: seed {}, {} calls, {seconds:.1} s, {:.2} million calls a second",
        options.seed,
        met.calls,
        met.calls as f64 / seconds / 1e6
    );
    broken + missing
}

/// One host to its end, past refusals too, and how it breaks the claim, if it does.
fn run(random: &mut Random, claim: Claim, met: &mut Met) -> Result<(), String> {
    let (words, now) = peripheral::new_set(random);
    let clocks = reference::Bridge::set(&words).ok_or("a clock with a zero")?;
    let mut host = Host::new(random, now, peripheral::system(&words));
    let side = Side::new(reference::Bridge::fresh(&peripheral::rates::of_run(met.runs)));
    let mut run = Run { claim, clocks, side, reads: Reads::default(), met };
    run.met.runs += 1;
    let most = random.pick(&[40, 400]);
    let mut lull = 0;
    for _ in 0..random.below(most) {
        let extra = if run.side.words[iic::STATUS] == 0 { [0, 0, 0, 0, 0, 1] } else { [0, 0, 0, 1, 1, 2] };
        for _ in 0..random.pick(&extra) {
            let (call, args) = run.about_icsr(random, host.now());
            run.call(call, &args)?;
        }
        let (call, args) = host.next(random, &run.side.words);
        run.call(call, &args)?;
        let deadline = run.side.deadline(&run.clocks);
        lull = if deadline.is_some() { 0 } else { lull + 1 };
        if lull > LULL || host.is_over() && random.once_in(10) {
            break;
        }
        host.saw(deadline);
    }
    Ok(())
}

impl Run<'_> {
    /// A read, a write or a `peek` of ICSR, about the time that it is or at any time at all.
    fn about_icsr(&self, random: &mut Random, now: u128) -> (Call, Args) {
        let now = match random.below(8) {
            0 => now.saturating_add(1),
            1 => self.side.deadline(&self.clocks).unwrap_or(now),
            2 => layout::joined(random.any_length(), random.word()),
            _ => now,
        };
        let status = self.side.words[iic::STATUS];
        let any = random.word();
        let value = random.pick(&[0x00, 0xff, status, !status & 0xff, !(1 << (any >> 16 & 7)) & 0xff, any & 0xff]);
        let address = random.pick(&[ICSR, ICSR, any & 0xfff8 | ICSR]);
        let call = random.pick(&[Call::Read, Call::Write, Call::Write, Call::Observe]);
        (call, iic::args(now, [address, value]))
    }

    fn call(&mut self, call: Call, args: &Args) -> Result<(), String> {
        let before = self.side.words;
        self.side.call(call, &self.clocks, args);
        self.met.calls += 1;
        let end = self.side.answer.end;
        self.met.refused += u64::from(end != End::Done);
        let what = match (call, args[2] & 7) {
            (Call::Read, ICSR) if end == End::Done => self.reads.note(self.side.answer.words[1]),
            (Call::Read, ICSR) => Err("a read of ICSR that isn't answered".to_string()),
            (Call::Write, ICSR) => self.judge(StatusWrite {
                value: args[3],
                was: before[iic::STATUS],
                is: self.side.words[iic::STATUS],
                answered: end == End::Done,
            }),
            _ => Ok(()),
        };
        what.and_then(|()| self.keeps()).map_err(|what| format!("{}: {what}", shown(call, args)))
    }

    fn judge(&mut self, write: StatusWrite) -> Result<(), String> {
        self.met.look(&write, &self.reads);
        self.claim.judge(&write, &self.reads)
    }

    /// What holds after each call, refused or not: a state that neither 9 nor 10 meets, and of whose `seen` each flag
    /// was shown by the latest read and is still set.
    fn keeps(&self) -> Result<(), String> {
        let words = &self.side.words;
        if let Some(number) = peripheral::machine::added(Call::Advance, words) {
            return Err(format!("a state that draws {number}, {words:x?}"));
        }
        let seen = words[iic::SEEN];
        if seen & !(self.reads.shown() & words[iic::STATUS]) != 0 {
            return Err(format!("seen {seen:x}, shown {:x}, {words:x?}", self.reads.shown()));
        }
        Ok(())
    }
}
