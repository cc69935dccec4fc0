//! Several peripherals on one pair of wires, as document 02 has them in (g), in the order in which it tells of them.
use crate::answer::{self, ended, Shown, Value};
use crate::line::{self, Call, ScriptCall};
use crate::{MOST_LINES, ROOM};
use reference::mcu::clocks::Clocks;
use reference::mcu::iic::Iic;
use reference::Time;
use std::collections::BTreeSet;
use std::io::Write;
use std::iter::Peekable;

/// The most units that a bench has.
pub const MOST_UNITS: usize = 4;
/// The most visits, of all units together.
pub const MOST_VISITS: u64 = 65_536;
/// The place of the refusal in an answer line.
const REFUSAL: usize = 2;

/// What became of a script.
#[derive(Debug)]
pub struct Benched {
    /// The answer lines.
    pub bytes: Vec<u8>,
    /// Script lines answered.
    pub lines: usize,
    /// 0, 6, 15 or 16.
    pub refusal: u8,
    /// The states at the end, at the default those of units that the bench lacks.
    pub states: [Iic; MOST_UNITS],
}

/// When a unit wants to be visited, or its refusal.
pub type Deadline = Result<Option<Time>, u8>;

/// Looks on at a bench, and may make calls of its own.
pub trait Watch {
    /// After a unit was asked for its deadline, and the moment at which it was.
    fn asked(&mut self, _unit: usize, _present: Option<Time>, _deadline: Deadline, _units: &mut [Iic]) {}
    /// After a call of a unit: a visit, a line or a report.
    fn called(&mut self, _unit: usize, _now: Time, _call: Call, _refused: bool, _units: &mut [Iic]) {}
    /// With too little room before that.
    fn lacked_room(&mut self, _before: Before) {}
    /// After the script lines of a pass, before its first report, and after the pass.
    fn played(&mut self, _units: &[Iic]) {}
    fn passed(&mut self, _units: &[Iic]) {}
}

impl Watch for () {}

impl<A: Watch, B: Watch> Watch for (&mut A, &mut B) {
    fn asked(&mut self, unit: usize, present: Option<Time>, deadline: Deadline, units: &mut [Iic]) {
        self.0.asked(unit, present, deadline, units);
        self.1.asked(unit, present, deadline, units);
    }

    fn called(&mut self, unit: usize, now: Time, call: Call, refused: bool, units: &mut [Iic]) {
        self.0.called(unit, now, call, refused, units);
        self.1.called(unit, now, call, refused, units);
    }

    fn lacked_room(&mut self, before: Before) {
        self.0.lacked_room(before);
        self.1.lacked_room(before);
    }

    fn played(&mut self, units: &[Iic]) {
        self.0.played(units);
        self.1.played(units);
    }

    fn passed(&mut self, units: &[Iic]) {
        self.0.passed(units);
        self.1.passed(units);
    }
}

/// What wants room before it.
#[derive(Clone, Copy, PartialEq, Eq, Debug)]
pub enum Before {
    Visit,
    Line,
    /// A line that is refused 4 or 5.
    BadLine,
    Report,
}

/// Plays a script on so many units into at most so many bytes. No clocks stand for a set that every call refuses with 1.
pub fn bench(units: usize, clocks: Option<&Clocks>, script: &[u8], capacity: usize) -> Benched {
    watched(&mut (), BTreeSet::new(), units, clocks, script, capacity)
}

/// The places, from 1, of the answer lines that have 13.
pub fn half_counts(answers: &[u8]) -> BTreeSet<usize> {
    answer::half_counts(answers, REFUSAL)
}

/// The same as `bench` with somebody who looks on, and where overflows are 13 on the answer lines of those places: the Rust
/// doesn't tell them from 7.
pub fn watched(
    watch: &mut impl Watch,
    half_counts: BTreeSet<usize>,
    units: usize,
    clocks: Option<&Clocks>,
    script: &[u8],
    capacity: usize,
) -> Benched {
    let mut states: [Iic; MOST_UNITS] = Default::default();
    if !(1..=MOST_UNITS).contains(&units) {
        return Benched { bytes: Vec::new(), lines: 0, refusal: 15, states };
    }
    let script = script.split_inclusive(|byte| *byte == b'\n').take(MOST_LINES).peekable();
    let mut bench = Bench {
        units: &mut states[..units],
        clocks,
        script,
        last: None,
        lines: 0,
        visits: 0,
        bytes: Vec::new(),
        capacity,
        answers: 0,
        half_counts,
        watch,
    };
    let refusal = bench.run().err().unwrap_or(0);
    let (bytes, lines) = (bench.bytes, bench.lines);
    Benched { bytes, lines, refusal, states }
}

struct Bench<'a, S: Iterator<Item = &'a [u8]>, W> {
    units: &'a mut [Iic],
    clocks: Option<&'a Clocks>,
    /// The lines that aren't answered yet.
    script: Peekable<S>,
    /// The time of the last line that wasn't refused 4 or 5.
    last: Option<Time>,
    lines: usize,
    visits: u64,
    bytes: Vec<u8>,
    capacity: usize,
    /// Answer lines so far, and the places of those whose overflow, if they draw one, is that of a half count.
    answers: usize,
    half_counts: BTreeSet<usize>,
    watch: &'a mut W,
}

/// A line, or its refusal and the unit that it names, if any.
pub type Judged = Result<ScriptCall, (u8, Option<usize>)>;

/// A refusal ends the bench.
type Goes = Result<(), u8>;

impl<'a, S: Iterator<Item = &'a [u8]>, W: Watch> Bench<'a, S, W> {
    fn run(&mut self) -> Goes {
        let (mut present, mut balked) = (None, [false; MOST_UNITS]);
        self.refuse_lines()?;
        loop {
            let named = self.named(present, balked);
            let line = self.next_line().map(|(time, _, _)| time);
            let Some(moment) = named.into_iter().chain([line]).flatten().min() else {
                return Ok(());
            };
            if present != Some(moment) {
                (present, balked) = (Some(moment), [false; MOST_UNITS]);
            }
            for unit in 0..self.units.len() {
                if named[unit] == Some(moment) {
                    balked[unit] = self.visit(unit, moment)?;
                }
            }
            while let Some((_, unit, call)) = self.next_line().filter(|(time, _, _)| *time == moment) {
                self.play(unit, moment, call)?;
                self.refuse_lines()?;
            }
            self.report(moment)?;
        }
    }

    /// The moment that each unit's deadline names: not before the present one, nor that one where its visit was refused.
    fn named(&mut self, present: Option<Time>, balked: [bool; MOST_UNITS]) -> [Option<Time>; MOST_UNITS] {
        let mut named = [None; MOST_UNITS];
        for unit in 0..self.units.len() {
            let deadline =
                self.clocks.map_or(Err(1), |clocks| self.units[unit].deadline(clocks).map_err(|error| error.number()));
            self.watch.asked(unit, present, deadline, self.units);
            let due = |time: &Time| present.is_none_or(|now| *time > now || *time == now && !balked[unit]);
            named[unit] = deadline.ok().flatten().filter(due);
        }
        named
    }

    /// The next line, where it isn't one to be refused 4 or 5.
    fn next_line(&mut self) -> Option<ScriptCall> {
        self.judged()?.ok()
    }

    /// What is to become of the next line.
    fn judged(&mut self) -> Option<Judged> {
        let line = *self.script.peek()?;
        let line = line.strip_suffix(b"\n").unwrap_or(line);
        let read = line::parse_script(line).filter(|(_, unit, _)| *unit < self.units.len());
        Some(match read {
            None => Err((answer::MALFORMED, None)),
            Some((time, unit, _)) if self.last.is_some_and(|last| time < last) => Err((answer::EARLIER, Some(unit))),
            Some(line) => Ok(line),
        })
    }

    /// Answers the next lines as long as they are refused 4 or 5.
    fn refuse_lines(&mut self) -> Goes {
        while let Some(Err((refusal, unit))) = self.judged() {
            self.room(Before::BadLine)?;
            self.take_line();
            self.write(self.lines, unit, Err(refusal));
        }
        Ok(())
    }

    fn take_line(&mut self) {
        self.script.next();
        self.lines += 1;
    }

    fn room(&mut self, before: Before) -> Goes {
        if self.capacity - self.bytes.len() < ROOM {
            self.watch.lacked_room(before);
            return Err(6);
        }
        Ok(())
    }

    /// Visits a unit; whether that was refused.
    fn visit(&mut self, unit: usize, now: Time) -> Result<bool, u8> {
        self.room(Before::Visit)?;
        if self.visits == MOST_VISITS {
            return Err(16);
        }
        self.visits += 1;
        let answer = self.call(unit, now, Call::Visit);
        let refused = answer.is_err();
        self.note(unit, answer);
        Ok(refused)
    }

    /// Plays the next line.
    fn play(&mut self, unit: usize, now: Time, call: Call) -> Goes {
        self.room(Before::Line)?;
        self.take_line();
        self.last = Some(now);
        let answer = self.call(unit, now, call);
        self.write(self.lines, Some(unit), answer);
        Ok(())
    }

    /// Reports the wires, as they are before the first report, to every unit.
    fn report(&mut self, now: Time) -> Goes {
        self.watch.played(self.units);
        let low = |line: usize| self.units.iter().any(|unit| unit.pins().is_some_and(|levels| !levels[line]));
        let [scl, sda] = [!low(0), !low(1)];
        for unit in 0..self.units.len() {
            self.room(Before::Report)?;
            let answer = self.call(unit, now, Call::Pins(scl, sda));
            self.note(unit, answer);
        }
        self.watch.passed(self.units);
        Ok(())
    }

    fn call(&mut self, unit: usize, now: Time, call: Call) -> Result<Value, u8> {
        let answer = self.clocks.map_or(Err(1), |clocks| answer::answer(&mut self.units[unit], clocks, now, call));
        self.watch.called(unit, now, call, answer.is_err(), self.units);
        answer
    }

    /// A visit or a report has an answer line where it is refused.
    fn note(&mut self, unit: usize, answer: Result<Value, u8>) {
        if answer.is_err() {
            self.write(0, Some(unit), answer);
        }
    }

    fn write(&mut self, number: usize, unit: Option<usize>, answer: Result<Value, u8>) {
        self.answers += 1;
        let (refusal, value) = ended(answer, self.half_counts.contains(&self.answers));
        let written = match unit {
            Some(unit) => {
                writeln!(self.bytes, "{number}\t{unit}\t{refusal}\t{value}\t{}", Shown(&self.units[unit]))
            }
            None => writeln!(self.bytes, "{number}\t-\t{refusal}\t{value}\t-\t-"),
        };
        written.expect("a vector takes all");
    }
}

#[cfg(test)]
mod tests;
