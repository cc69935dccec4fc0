//! How often scripts meet what is rare: a run that misses some of it isn't aimed as it should be any more.
use plain_player::bench::{Before, Benched, Deadline, Watch, MOST_UNITS};
use plain_player::Call;
use reference::mcu::iic::Iic;
use reference::Time;

/// Calls from which on all of it must have come up.
const ENOUGH: u64 = 1_000_000;

/// The flags of the status below TDRE, from the lowest on, then what else scripts meet.
const KINDS: [&str; 32] = [
    "ADZ",
    "AAS",
    "AL",
    "STOP",
    "NACKF",
    "RDRF",
    "TEND",
    "synchronous mode",
    "reset",
    "gate off after a visit",
    "visit refused",
    "report refused",
    "deadline refused",
    "deadline before the present moment",
    "deadline in a moment of a refused visit",
    "moment gone over again",
    "two units visited in a moment",
    "line in the moment of a visit",
    "line in the moment of the line before",
    "a wire low, and a unit without pins",
    "no room before a visit",
    "no room before a line",
    "no room before a bad line",
    "no room before a report",
    "end with 15",
    "end with 16",
    "refusal 1",
    "refusal 4",
    "refusal 5",
    "refusal 7",
    "refusal 13",
    "equal levels of two units, one low",
];
const SYNCHRONOUS: usize = 7;
const RESET: usize = 8;
const GATE_OFF: usize = 9;
const VISIT_REFUSED: usize = 10;
const REPORT_REFUSED: usize = 11;
const DEADLINE_REFUSED: usize = 12;
const DEADLINE_BEFORE: usize = 13;
const BALKED: usize = 14;
const AGAIN: usize = 15;
const TWO_VISITS: usize = 16;
const LINE_AT_VISIT: usize = 17;
const LINE_AT_LINE: usize = 18;
const WITHOUT_PINS: usize = 19;
const NO_ROOM: usize = 20;
const ENDED: usize = 24;
const REFUSALS: usize = 26;
const EQUAL_LOW: usize = 31;
/// The refusals of answer lines.
const NUMBERS: [&[u8]; 5] = [b"1", b"4", b"5", b"7", b"13"];
const HALF_COUNT: &str = KINDS[REFUSALS + 4];

#[derive(Default)]
pub struct Met {
    pub scripts: u64,
    /// Visits, lines and reports.
    pub calls: u64,
    kinds: [u64; KINDS.len()],
    moment: Moment,
    ever_visited: bool,
}

/// The present moment: its passes and lines, the units visited in it, and those whose visits were refused.
#[derive(Default)]
struct Moment {
    at: Option<Time>,
    passes: u64,
    lines: u64,
    visited: [bool; MOST_UNITS],
    balked: [bool; MOST_UNITS],
}

impl Met {
    fn meet(&mut self, kind: usize, met: bool) {
        self.kinds[kind] += u64::from(met);
    }

    /// Before a script.
    pub fn begin(&mut self) {
        self.scripts += 1;
        (self.moment, self.ever_visited) = (Moment::default(), false);
    }

    /// After a script.
    pub fn end(&mut self, played: &Benched) {
        self.meet(ENDED, played.refusal == 15);
        self.meet(ENDED + 1, played.refusal == 16);
        for line in played.bytes.split(|byte| *byte == b'\n') {
            let number = line.split(|byte| *byte == b'\t').nth(2).unwrap_or(b"0");
            let place = NUMBERS.iter().position(|of| *of == number);
            place.into_iter().for_each(|place| self.kinds[REFUSALS + place] += 1);
        }
    }

    /// After so many passes with a pair of units whose filtered levels were equal and not both high.
    pub fn equal_low(&mut self, passes: u64) {
        self.kinds[EQUAL_LOW] += passes;
    }

    /// What never came up; 13 needn't where it isn't told from 7.
    pub fn missing(&self, tells_half_counts: bool) -> impl Iterator<Item = &'static str> + '_ {
        let needed = move |kind: &str| tells_half_counts || kind != HALF_COUNT;
        KINDS.into_iter().zip(self.kinds).filter(move |(kind, count)| *count == 0 && needed(kind)).map(|(kind, _)| kind)
    }

    /// Prints how often each came up, and names what should have in so many calls and didn't; how much that is.
    pub fn print(&self, count: u64, tells_half_counts: bool) -> u64 {
        for line in KINDS.into_iter().zip(self.kinds).collect::<Vec<_>>().chunks(2) {
            let cells: Vec<String> = line.iter().map(|(kind, count)| format!("{kind:<42}{count:>10}")).collect();
            println!("{}", cells.join("   "));
        }
        if count < ENOUGH {
            return 0;
        }
        self.missing(tells_half_counts).map(|kind| println!("difference: never came up: {kind}")).count() as u64
    }
}

impl Watch for Met {
    fn asked(&mut self, unit: usize, present: Option<Time>, deadline: Deadline, _units: &mut [Iic]) {
        self.meet(DEADLINE_REFUSED, deadline.is_err());
        if let (Some(now), Ok(Some(at))) = (present, deadline) {
            self.meet(DEADLINE_BEFORE, at < now);
            self.meet(BALKED, at == now && self.moment.balked[unit]);
        }
    }

    fn called(&mut self, unit: usize, now: Time, call: Call, refused: bool, units: &mut [Iic]) {
        self.calls += 1;
        if self.moment.at != Some(now) {
            self.moment = Moment { at: Some(now), ..Moment::default() };
        }
        let visited = self.moment.visited.contains(&true);
        match call {
            Call::Visit => {
                self.meet(VISIT_REFUSED, refused);
                self.meet(TWO_VISITS, visited);
                (self.moment.visited[unit], self.moment.balked[unit]) = (true, refused);
                self.ever_visited = true;
            }
            Call::Pins(scl, sda) => {
                self.meet(REPORT_REFUSED, refused);
                self.meet(WITHOUT_PINS, !(scl && sda) && units[unit].pins().is_none());
            }
            _ => {
                self.meet(LINE_AT_VISIT, visited);
                self.meet(LINE_AT_LINE, self.moment.lines > 0);
                self.meet(GATE_OFF, call == Call::Gate(false) && self.ever_visited);
                self.moment.lines += 1;
            }
        }
    }

    fn lacked_room(&mut self, before: Before) {
        self.meet(NO_ROOM + before as usize, true);
    }

    fn passed(&mut self, units: &[Iic]) {
        self.moment.passes += 1;
        self.meet(AGAIN, self.moment.passes > 1);
        for iic in units {
            let status = iic.peek(4);
            (0..SYNCHRONOUS).for_each(|bit| self.meet(bit, status >> bit & 1 != 0));
            self.meet(SYNCHRONOUS, iic.peek(5) & 1 != 0);
            self.meet(RESET, iic.peek(1) & 2 != 0);
        }
    }
}
