//! Another bench over the Rust, step by step, which can be told to be wrong: the tests put it in the port's place.
use super::ours::Ours;
use super::{trace_set, words_of};
use plain_player::bench::Judged;
use plain_player::{parse_script, Call};
use reference::mcu::clocks::Clocks;
use reference::mcu::iic::Iic;
use reference::Time;
use words::bench::{Left, UNITS};
use words::calls::Reference;
use words::layout::Set;

/// What is wrong with it.
#[derive(Clone, Copy, PartialEq, Eq, Debug)]
pub enum Idea {
    Right,
    ReportsBeforeLines,
    FallingUnits,
    NoPinsPullLow,
    /// A deadline in the past is visited, in the present moment.
    PastDeadline,
    /// 16 before 6.
    VisitsBeforeRoom,
    EqualTimeIsEarly,
    /// Bad lines, or reports that nothing is written for, want no room.
    BadLinesWithoutRoom,
    ReportsWithoutRoom,
    /// A unit whose visit was refused is visited in that moment again.
    VisitsAgain,
    /// Lines 0 count as lines answered.
    CountsLinesZero,
    /// A moment is gone over once: what is due in it afterwards is past.
    OnePass,
    /// Bad lines are answered after the reports of a moment.
    BadLinesLast,
    /// The script's lines end, and so does the bench.
    EndsWithTheScript,
}

pub struct Second(pub Idea);

/// What it does next, with the unit whose turn it is.
enum Doing {
    Look,
    Visits(usize),
    Lines,
    Reports([bool; 2], usize),
}

struct State<'a> {
    idea: Idea,
    clocks: Option<&'a Clocks>,
    lines: Vec<&'a [u8]>,
    out: &'a mut [u8],
    written: usize,
    iics: [Iic; UNITS],
    units: usize,
    /// Lines answered, and the place of the next one.
    answered: u64,
    next: usize,
    last: Option<Time>,
    present: Option<Time>,
    balked: [bool; UNITS],
    visits: u64,
}

type Goes = Result<Doing, u8>;

impl Ours for Second {
    const TELLS_HALF_COUNTS: bool = false;

    fn over_set(&self, units: usize, set: &Set, script: &[u8], out: &mut [u8]) -> Left {
        let clocks = reference::Bridge::set(set);
        let mut state = State {
            idea: self.0,
            clocks: clocks.as_ref(),
            lines: script.split_inclusive(|byte| *byte == b'\n').take(1_000_000).collect(),
            out,
            written: 0,
            iics: Default::default(),
            units,
            answered: 0,
            next: 0,
            last: None,
            present: None,
            balked: [false; UNITS],
            visits: 0,
        };
        let refusal = if (1..=UNITS).contains(&units) { state.run() } else { 15 };
        Left {
            refusal: refusal.into(),
            written: state.written as u64,
            lines: state.answered,
            states: state.iics.each_ref().map(words_of),
        }
    }

    fn script(&self, units: usize, script: &[u8], out: &mut [u8]) -> usize {
        self.over_set(units, &trace_set(), script, out).written as usize
    }
}

impl State<'_> {
    fn run(&mut self) -> u8 {
        let mut doing = Doing::Look;
        loop {
            let next = match doing {
                Doing::Look => self.look(),
                Doing::Visits(turn) => self.visits(turn),
                Doing::Lines => self.line(),
                Doing::Reports(wires, turn) => self.reports(wires, turn),
            };
            match next {
                Ok(next) => doing = next,
                Err(refusal) => return refusal,
            }
        }
    }

    fn due(&self, unit: usize) -> Option<Time> {
        let at = self.iics[unit].deadline(self.clocks?).ok()??;
        let Some(now) = self.present else {
            return Some(at);
        };
        if at < now {
            return (self.idea == Idea::PastDeadline && !self.balked[unit]).then_some(now);
        }
        let again = self.balked[unit] && self.idea != Idea::VisitsAgain;
        (at > now || !again && self.idea != Idea::OnePass).then_some(at)
    }

    /// The next line: its time, unit and call, or its refusal and unit.
    fn judged(&self) -> Option<Judged> {
        let line = self.lines.get(self.next)?;
        let read = parse_script(line.strip_suffix(b"\n").unwrap_or(line));
        Some(match read.filter(|(_, unit, _)| *unit < self.units) {
            None => Err((4, None)),
            Some((at, unit, call)) => match self.last {
                Some(last) if at < last || at == last && self.idea == Idea::EqualTimeIsEarly => Err((5, Some(unit))),
                _ => Ok((at, unit, call)),
            },
        })
    }

    fn look(&mut self) -> Goes {
        let line = match self.judged() {
            Some(Err(bad)) => return self.refuse(bad).map(|()| Doing::Look),
            Some(Ok((at, _, _))) => Some(at),
            None if self.idea == Idea::EndsWithTheScript => return Err(0),
            None => None,
        };
        let moment = (0..self.units).filter_map(|unit| self.due(unit)).chain(line).min().ok_or(0)?;
        let again = self.present == Some(moment);
        if !again {
            (self.present, self.balked) = (Some(moment), [false; UNITS]);
        }
        if self.idea == Idea::OnePass && !again {
            return self.visit_all_at(moment);
        }
        Ok(Doing::Visits(0))
    }

    /// Visits of a moment that is gone over once, while its deadlines still count.
    fn visit_all_at(&mut self, moment: Time) -> Goes {
        for unit in 0..self.units {
            let deadline = self.clocks.and_then(|clocks| self.iics[unit].deadline(clocks).ok().flatten());
            if deadline == Some(moment) {
                self.visit(unit)?;
            }
        }
        Ok(Doing::Lines)
    }

    fn turn(&self, turn: usize) -> Option<usize> {
        let unit = if self.idea == Idea::FallingUnits { self.units.checked_sub(turn + 1)? } else { turn };
        (turn < self.units).then_some(unit)
    }

    fn visits(&mut self, turn: usize) -> Goes {
        let Some(unit) = self.turn(turn) else {
            return Ok(if self.idea == Idea::ReportsBeforeLines { self.wires() } else { Doing::Lines });
        };
        if self.due(unit).is_some() && self.due(unit) == self.present {
            self.visit(unit)?;
        }
        Ok(Doing::Visits(turn + 1))
    }

    fn visit(&mut self, unit: usize) -> Result<(), u8> {
        let too_many = if self.visits == 65_536 { Err(16) } else { Ok(()) };
        if self.idea == Idea::VisitsBeforeRoom {
            too_many?;
        }
        self.room()?;
        too_many?;
        self.visits += 1;
        let answer = self.call(unit, Call::Visit);
        self.balked[unit] = answer.is_err();
        self.note(unit, answer);
        Ok(())
    }

    fn line(&mut self) -> Goes {
        match self.judged() {
            Some(Err(bad)) if self.idea != Idea::BadLinesLast => self.refuse(bad).map(|()| Doing::Lines),
            Some(Ok((at, unit, call))) if Some(at) == self.present => {
                self.room()?;
                self.take();
                self.last = Some(at);
                let answer = self.call(unit, call);
                self.write(self.next, Some(unit), answer);
                Ok(Doing::Lines)
            }
            _ if self.idea == Idea::ReportsBeforeLines => Ok(Doing::Look),
            _ => Ok(self.wires()),
        }
    }

    /// The levels that are reported.
    fn wires(&self) -> Doing {
        let none = if self.idea == Idea::NoPinsPullLow { [false; 2] } else { [true; 2] };
        let driven = self.iics[..self.units].iter().map(|iic| iic.pins().unwrap_or(none));
        Doing::Reports(driven.fold([true; 2], |[scl, sda], [by_scl, by_sda]| [scl & by_scl, sda & by_sda]), 0)
    }

    fn reports(&mut self, [scl, sda]: [bool; 2], turn: usize) -> Goes {
        let Some(unit) = self.turn(turn) else {
            return Ok(if self.idea == Idea::ReportsBeforeLines { Doing::Lines } else { Doing::Look });
        };
        if self.idea != Idea::ReportsWithoutRoom {
            self.room()?;
        }
        let answer = self.call(unit, Call::Pins(scl, sda));
        if answer.is_err() {
            self.room()?;
        }
        self.note(unit, answer);
        Ok(Doing::Reports([scl, sda], turn + 1))
    }

    fn refuse(&mut self, (refusal, unit): (u8, Option<usize>)) -> Result<(), u8> {
        // An answer line has fewer than 40 bytes.
        if self.idea != Idea::BadLinesWithoutRoom || self.out.len() - self.written < 40 {
            self.room()?;
        }
        self.take();
        self.write(self.next, unit, Err(refusal));
        Ok(())
    }

    fn take(&mut self) {
        self.next += 1;
        self.answered += 1;
    }

    fn room(&self) -> Result<(), u8> {
        if self.out.len() - self.written < 80 {
            return Err(6);
        }
        Ok(())
    }

    /// The byte of a read, if it is one; or the refusal.
    fn call(&mut self, unit: usize, call: Call) -> Result<Option<u8>, u8> {
        let (clocks, now) = (self.clocks.ok_or(1)?, self.present.unwrap_or(Time::ZERO));
        let iic = &mut self.iics[unit];
        let done = match call {
            Call::Read(address) => iic.read(address, now, clocks).map(Some),
            Call::Write(address, byte) => iic.write(address, byte, now, clocks).map(|()| None),
            Call::Gate(gate) => iic.set_gate(gate, now, clocks).map(|()| None),
            Call::Pins(scl, sda) => iic.input_pins(scl, sda, now, clocks).map(|_| None),
            Call::Visit | Call::Deadline => iic.advance(now, clocks).map(|()| None),
        };
        done.map_err(|error| error.number())
    }

    fn note(&mut self, unit: usize, answer: Result<Option<u8>, u8>) {
        if answer.is_err() {
            self.answered += u64::from(self.idea == Idea::CountsLinesZero);
            self.write(0, Some(unit), answer);
        }
    }

    fn write(&mut self, number: usize, unit: Option<usize>, answer: Result<Option<u8>, u8>) {
        let mut fields = ["-"; 3].map(str::to_string);
        if let Some(unit) = unit {
            let levels =
                self.iics[unit].pins().map(|levels| levels.map(|level| if level { "1" } else { "0" }).concat());
            let status = format!("{:02x}", self.iics[unit].peek(4));
            fields = [unit.to_string(), levels.unwrap_or("-".to_string()), status];
        }
        let value = answer.ok().flatten().map_or("-".to_string(), |byte| format!("{byte:02x}"));
        let [unit, levels, status] = fields;
        let refusal = answer.err().unwrap_or(0).to_string();
        let line = [number.to_string(), unit, refusal, value, levels, status].join("\t") + "\n";
        self.out[self.written..][..line.len()].copy_from_slice(line.as_bytes());
        self.written += line.len();
    }
}
