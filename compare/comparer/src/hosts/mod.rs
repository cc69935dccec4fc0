//! Demand 3 of document 01, on the Rust: two hosts whose lists of calls are alike once the idle ones are struck out see
//! the same answers and states, as long as none of the calls left was refused. Both have the same rate set, be it another
//! than the default (document 02, (f)).
pub mod idle;
pub mod side;
#[cfg(test)]
mod tests;
use crate::options::Options;
use crate::peripheral;
use crate::shrink::SHOWN;
use idle::Idea;
use side::Side;
use std::time::Instant;
use traffic::host::{Host, LULL};
use traffic::random::Random;
use words::calls::{End, Reference};
use words::iic::{self, Call, Peripheral};
use words::layout::{self, Args};

pub type Clocks = <reference::Bridge as Reference>::Set;

#[derive(Default)]
struct Tally {
    pairs: u64,
    /// Calls left, and idle ones, of both hosts.
    left: u64,
    idle: u64,
    refused_idle: u64,
    /// Idle calls that change the state, and calls that are idle for one host alone: none, unless the idea is wrong.
    changing: u64,
    one_sided: u64,
    ended_by_refusal: u64,
    /// Calls after which a kick would do something, since the reset has just been lifted.
    unsettled: u64,
}

/// Two hosts over the same clocks.
struct Pair<'a> {
    idea: Idea,
    clocks: Clocks,
    sides: [Side; 2],
    tally: &'a mut Tally,
}

/// Prints what was found, and returns how many pairs part.
pub fn compare(options: &Options) -> u64 {
    let mut random = Random::new(options.seed);
    let mut tally = Tally::default();
    let mut parted = 0;
    let start = Instant::now();
    while tally.left + tally.idle < options.count && parted < SHOWN {
        if let Err(what) = pair(&mut random, Idea::Document, &mut tally) {
            println!("difference: two hosts: {what}");
            parted += 1;
        }
    }
    let calls = tally.left + tally.idle;
    let seconds = start.elapsed().as_secs_f64();
    println!(
        "{} pairs of hosts, {} calls left, {} idle, {} of them refused; {} pairs ended by a refusal; \
        {} states just lifted and not settled",
        tally.pairs, tally.left, tally.idle, tally.refused_idle, tally.ended_by_refusal, tally.unsettled
    );
    println!(
        "hosts: seed {}, {calls} calls, {seconds:.1} s, {:.2} million calls a second",
        options.seed,
        calls as f64 / seconds / 1e6
    );
    parted
}

/// One pair of hosts to its end, and how they part, if they do.
fn pair(random: &mut Random, idea: Idea, tally: &mut Tally) -> Result<(), String> {
    let (words, now) = peripheral::new_set(random);
    let clocks = reference::Bridge::set(&words).ok_or("a clock with a zero")?;
    let mut host = Host::new(random, now, peripheral::system(&words));
    let rates = peripheral::rates::of_run(tally.pairs);
    let sides = [(); 2].map(|()| Side::new(reference::Bridge::fresh(&rates)));
    let mut pair = Pair { idea, clocks, sides, tally };
    pair.tally.pairs += 1;
    let most = random.pick(&[40, 400]);
    let mut lull = 0;
    for _ in 0..random.below(most) {
        for side in 0..2 {
            for _ in 0..random.pick(&[0, 0, 0, 1, 1, 3]) {
                let (call, args) = pair.candidate(random, &host, side);
                pair.insert(side, call, &args)?;
            }
        }
        let (call, args) = host.next(random, &pair.sides[0].words);
        if !pair.both(call, &args)? {
            break;
        }
        let deadline = pair.sides[0].deadline(&pair.clocks);
        lull = if deadline.is_some() { 0 } else { lull + 1 };
        if lull > LULL || host.is_over() && random.once_in(10) {
            break;
        }
        host.saw(deadline);
    }
    Ok(())
}

impl Pair<'_> {
    /// A call that may be idle: about the time that it is, or at any time at all.
    fn candidate(&self, random: &mut Random, host: &Host, side: usize) -> (Call, Args) {
        let state = &self.sides[side].words;
        let deadline = self.sides[side].deadline(&self.clocks).unwrap_or(host.now());
        let now = match random.below(12) {
            0..=3 => host.now(),
            4..=5 => host.now().saturating_add(1),
            6..=7 => deadline,
            8 => deadline.saturating_sub(1),
            9 => deadline.saturating_add(1),
            10 => host.now().saturating_sub(u128::from(random.any_length())),
            _ => layout::joined(random.any_length(), random.word()),
        };
        let level = |place: usize| state[place];
        let (call, operands) = match random.below(12) {
            0..=4 => (Call::Advance, [0, 0]),
            5 => (Call::InputPins, [level(iic::RAW), level(iic::RAW + 1)]),
            6 => (Call::InputPins, [random.below(2), random.below(2)]),
            7 => (Call::SetGate, [random.pick(&[level(iic::GATE), 0, 1]), 0]),
            8 => (Call::Write, [random.below(8), state[random.below(9) as usize]]),
            9 => (random.pick(&[Call::Deadline, Call::Validate, Call::Observe]), [random.below(8), random.below(256)]),
            _ => (Call::Read, [random.below(8), 0]),
        };
        (call, iic::args(now, operands))
    }

    /// Makes a call of one host, if it is idle there: it changes nothing.
    fn insert(&mut self, side: usize, call: Call, args: &Args) -> Result<bool, String> {
        let host = &mut self.sides[side];
        if !self.idea.idle(host, &self.clocks, call, args) {
            return Ok(false);
        }
        let before = host.words;
        host.call(call, &self.clocks, args);
        self.tally.idle += 1;
        self.tally.refused_idle += u64::from(host.answer.end != End::Done);
        if host.words != before {
            self.tally.changing += 1;
            if self.idea.holds() {
                let left = host.words;
                return Err(format!("{}: idle, yet {before:x?} becomes {left:x?}", shown(call, args)));
            }
        }
        self.keeps(side, call, args)?;
        Ok(true)
    }

    /// A call of both lists: struck out where it is idle, else compared. Whether the pair goes on.
    fn both(&mut self, call: Call, args: &Args) -> Result<bool, String> {
        match [self.insert(0, call, args)?, self.insert(1, call, args)?] {
            [true, true] => return Ok(true),
            [false, false] => {}
            struck => return self.one_sided(call, args, struck),
        }
        for side in 0..2 {
            self.tally.left += 1;
            self.sides[side].call(call, &self.clocks, args);
            self.keeps(side, call, args)?;
        }
        let [one, other] = &self.sides;
        let gives = if one.answer.end == End::Done { call.gives() } else { 0 };
        let told = |side: &Side| (side.answer.end, side.answer.words[1..=gives].to_vec());
        if told(one) != told(other) {
            return Err(format!("{}: {:?} and {:?}", shown(call, args), told(one), told(other)));
        }
        if one.iic != other.iic {
            return Err(format!("{}: the states after it, {:x?} and {:x?}", shown(call, args), one.words, other.words));
        }
        let refused = one.answer.end != End::Done;
        self.tally.ended_by_refusal += u64::from(refused);
        Ok(!refused || self.idea == Idea::PastARefusal)
    }

    /// A call that is idle for one host alone: their states, or whether the reset was just lifted, aren't the same any
    /// more. Under a wrong idea the pair ends, since its lists aren't alike from here on.
    fn one_sided(&mut self, call: Call, args: &Args, struck: [bool; 2]) -> Result<bool, String> {
        self.tally.one_sided += 1;
        if !self.idea.holds() {
            return Ok(false);
        }
        let [one, other] = self.sides.each_ref().map(|side| (side.lifted, side.words));
        Err(format!("{}: idle for one host alone, {struck:?}: {one:x?} and {other:x?}", shown(call, args)))
    }

    /// What holds after each call, refused or not: a state that neither 9 nor 10 meets, and of which `settled` tells
    /// whether a kick does nothing; after an answered one it does nothing, unless the reset was lifted and no visit
    /// came since. Wrong ideas are let off this.
    fn keeps(&mut self, side: usize, call: Call, args: &Args) -> Result<(), String> {
        let host = &self.sides[side];
        if !self.idea.holds() {
            return Ok(());
        }
        if let Some(number) = peripheral::machine::added(Call::Advance, &host.words) {
            return Err(format!("{}: a state that draws {number}, {:x?}", shown(call, args), host.words));
        }
        let settled = side::settled(&host.words);
        if host.rests(&self.clocks, layout::time_at(args, 0)).is_some_and(|rests| rests != settled) {
            let wrong = if settled { "settled, yet a visit changes it" } else { "not settled, yet a visit keeps it" };
            return Err(format!("{}: {wrong}, {:x?}", shown(call, args), host.words));
        }
        if host.answer.end == End::Done && !settled {
            if !host.lifted {
                return Err(format!("{}: not settled, {:x?}", shown(call, args), host.words));
            }
            self.tally.unsettled += 1;
        }
        Ok(())
    }
}

/// A call in words.
pub fn shown(call: Call, args: &Args) -> String {
    format!("{call:?} {:x} {:x} at {}:{:016x}", args[2], args[3], args[0], args[1])
}
