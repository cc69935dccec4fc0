//! One peripheral, three times: the port's, and those of both builds of the Rust. After every call all that can be seen of
//! them is compared.
#[cfg(test)]
mod tests;
use super::rates;
use crate::differences::peripheral::{self as rows, Handed, Origin};
use crate::differences::{row_added, Like, Parting};
use crate::inputs::{plain_set, FREQUENCIES};
use crate::judge;
use words::calls::{Answer, End, Reference};
use words::iic::{self, Call, Peripheral, State};
use words::layout::{Args, Set};
use words::rates::Rates;

type Plain = reference::Bridge;
type Checked = checked::Bridge;

/// A clock set as everybody holds it.
pub struct ClockSet {
    pub words: Set,
    plain: <Plain as Reference>::Set,
    checked: <Checked as Reference>::Set,
    /// Whether a clock holds a zero. The Rust has no such clock: it holds a sound set instead, for the questions that take none.
    zero: bool,
}

impl ClockSet {
    pub fn new(words: Set) -> Self {
        let own = judge::sets(&words);
        let zero = own.is_none();
        let sound = || judge::sets(&plain_set(0, FREQUENCIES)).expect("no frequency of the default is zero");
        let (plain, checked) = own.unwrap_or_else(sound);
        Self { words, plain, checked, zero }
    }
}

pub struct Machine {
    origin: Origin,
    port: State,
    plain: <Plain as Peripheral>::State,
    checked: <Checked as Peripheral>::State,
    /// The words of a state of the Rust.
    left: Vec<u64>,
    /// Of the port, the plain build and the checked one.
    answers: [Answer; 3],
    /// The refusal that the last call draws though the Rust doesn't have it; the Rust wasn't asked.
    added: Option<u8>,
    /// The partings since somebody took them.
    pub parted: Vec<Parted>,
}

/// A call that the three ended in ways that aren't the same, as a row of docs/DIFFERENCES.md allows.
pub struct Parted {
    pub call: Call,
    /// The plain build, the checked one and the port; none for the Rust where it wasn't asked.
    pub ends: [Option<End>; 3],
    pub row: &'static str,
}

/// What differs, in words, and what was expected.
#[derive(Debug)]
pub struct Difference {
    pub call: Call,
    pub what: String,
}

impl Machine {
    pub fn new(state: &State, origin: Origin) -> Self {
        Self {
            origin,
            port: *state,
            plain: Plain::state(state),
            checked: Checked::state(state),
            left: Vec::new(),
            answers: [Answer::empty(), Answer::empty(), Answer::empty()],
            added: None,
            parted: Vec::new(),
        }
    }

    /// One in a state that is made; `validate` accepts it at that time or not.
    pub fn made(state: &State, set: &ClockSet, args: &Args) -> Self {
        let mut machine = Self::new(state, Origin::Accepted);
        let [_, _, answer] = &mut machine.answers;
        Checked::call(Call::Validate, &mut machine.checked, &set.checked, args, answer);
        if answer.end != End::Done {
            machine.origin = Origin::Refused;
        }
        machine
    }

    /// One before its first call, with that rate set, and what the states part in.
    pub fn fresh(of: &Rates) -> Result<Self, Difference> {
        let (state, end) = match *of {
            Rates::DEFAULT => (port::iic::fresh(), End::Done),
            _ => port::iic::with_rates(of),
        };
        let expected = if rates::refused(of) { End::Refused(14) } else { End::Done };
        if end != expected {
            return differs(Call::Observe, format!("{expected:?} expected for {of:?}, port {end:?}"));
        }
        let mut machine = Self::new(&state, Origin::Default);
        machine.plain = Plain::fresh(of);
        machine.checked = Checked::fresh(of);
        machine.like_plain(Call::Observe)?;
        machine.like_checked(Call::Observe)?;
        Ok(machine)
    }

    pub fn origin(&self) -> Origin {
        self.origin
    }

    pub fn state(&self) -> &State {
        &self.port
    }

    /// The port's last answer.
    pub fn answer(&self) -> &Answer {
        &self.answers[0]
    }

    /// Runs a call everywhere and compares answer, refusal and state.
    pub fn call(&mut self, call: Call, set: &ClockSet, args: &Args) -> Result<(), Difference> {
        let before = self.port;
        self.run(call, set, args);
        self.judge(call, set, args, &before)
    }

    fn run(&mut self, call: Call, set: &ClockSet, args: &Args) {
        self.added = if set.zero && call.takes_set() { Some(1) } else { added(call, &self.port) };
        port::iic::call(call, &mut self.port, &set.words, args, &mut self.answers[0]);
        if self.added.is_none() {
            Plain::call(call, &mut self.plain, &set.plain, args, &mut self.answers[1]);
            Checked::call(call, &mut self.checked, &set.checked, args, &mut self.answers[2]);
        }
    }

    /// Whether the port did as it should, from the state before the call.
    fn judge(&mut self, call: Call, set: &ClockSet, args: &Args, before: &State) -> Result<(), Difference> {
        let [port, plain, checked] = [0, 1, 2].map(|side| self.answers[side].end);
        if let Some(number) = self.added {
            self.parted.push(Parted { call, ends: [None, None, Some(port)], row: row_added(number) });
            if port != End::Refused(number) {
                return differs(call, format!("refusal {number} expected, port {port:?}"));
            }
            return same_state(call, "before the call", before, &self.port);
        }
        if !matches!(checked, End::Trapped(_)) {
            self.same_end(call, "plain", 1, checked)?;
            self.same_end(call, "port", 0, checked)?;
            if !call.changes() {
                return same_state(call, "before the call", before, &self.port);
            }
            self.like_plain(call)?;
            return self.like_checked(call);
        }
        let (plain_set, checked_set) = (&set.plain, &set.checked);
        let handed = Handed { origin: self.origin, state: before, words: &set.words, plain_set, checked_set, args };
        let Some(parting) = rows::parting(call, &handed, plain, checked) else {
            return differs(call, format!("no row of docs/DIFFERENCES.md: plain {plain:?}, checked {checked:?}"));
        };
        self.parted.push(Parted { call, ends: [plain, checked, port.as_rust()].map(Some), row: parting.row });
        self.parts(call, parting, &handed)
    }

    /// Whether a side ended as the checked build did, and answered the same words.
    fn same_end(&self, call: Call, name: &str, side: usize, end: End) -> Result<(), Difference> {
        let [answer, checked] = [side, 2].map(|side| &self.answers[side]);
        let gives = if end == End::Done { call.gives() } else { 0 };
        let [given, expected] = [answer, checked].map(|answer| &answer.words[1..=gives]);
        let ended = if side == 0 { answer.end.as_rust() } else { answer.end };
        if ended == end && given == expected {
            return Ok(());
        }
        differs(call, format!("{end:?} {expected:x?} expected, {name} {:?} {given:x?}", answer.end))
    }

    /// Whether the port did as the row has it. A build whose state isn't what the row wants is given the port's.
    fn parts(&mut self, call: Call, parting: Parting, handed: &Handed) -> Result<(), Difference> {
        let [port, plain, _] = &self.answers;
        if port.end.as_rust() != parting.end {
            return differs(call, format!("{:?} expected by {}, port {:?}", parting.end, parting.row, port.end));
        }
        if port.end == End::Done && port.words[1..=call.gives()] != plain.words[1..=call.gives()] {
            return differs(call, format!("an answer that isn't the plain build's, in {}", parting.row));
        }
        match parting.like {
            Like::Both => {
                self.like_plain(call)?;
                return self.like_checked(call);
            }
            Like::Plain => self.like_plain(call)?,
            Like::Checked => self.like_checked(call)?,
            Like::PlainUpToTheSum => {
                let left = rows::plain_up_to_the_sum(handed).expect("the row holds where the call comes to the sum");
                same_state(call, "plain up to the sum", &left, &self.port)?;
            }
        }
        self.plain = Plain::state(&self.port);
        self.checked = Checked::state(&self.port);
        Ok(())
    }

    /// Whether the port's state is the plain build's.
    fn like_plain(&mut self, call: Call) -> Result<(), Difference> {
        Plain::words(&self.plain, &mut self.left);
        same_state(call, "plain", &self.left, &self.port)
    }

    fn like_checked(&mut self, call: Call) -> Result<(), Difference> {
        Checked::words(&self.checked, &mut self.left);
        same_state(call, "checked", &self.left, &self.port)
    }
}

fn differs<T>(call: Call, what: String) -> Result<T, Difference> {
    Err(Difference { call, what })
}

fn same_state(call: Call, whose: &str, expected: &[u64], port: &State) -> Result<(), Difference> {
    match (0..iic::STATE).find(|place| expected[*place] != port[*place]) {
        None => Ok(()),
        Some(place) => differs(
            call,
            format!("state word {place} ({}): {whose} {:#x}, port {:#x}", name(place), expected[place], port[place]),
        ),
    }
}

/// 14, which the Rust doesn't have; 9 and 10, which it has at `validate` alone.
pub fn added(call: Call, state: &State) -> Option<u8> {
    if (call.changes() || call == Call::Validate) && rates::refused(&iic::rates(state)) {
        return Some(14);
    }
    if !call.changes() {
        return None;
    }
    if state[iic::COUNT] > 7 || state[iic::MODE] & 0x3f != 0 {
        return Some(9);
    }
    let [present, _, remaining, phase] = core::array::from_fn(|i| state[iic::FRAME + i]);
    let sound = present == 0 || if phase == 0 { (1..=8).contains(&remaining) } else { remaining == 0 };
    (!sound).then_some(10)
}

/// The field that a word belongs to.
fn name(place: usize) -> &'static str {
    const NAMES: [(usize, &str); 28] = [
        (iic::RATES, "the rate set"),
        (iic::STALE_RELEASE, "stale_release"),
        (iic::EIGHTH_FALL, "eighth_fall"),
        (iic::RECEIVE_STOPPED, "receive_stopped"),
        (iic::RECEIVE_ENABLED, "receive_enabled"),
        (iic::HOLD, "hold"),
        (iic::COMPLETED, "completed"),
        (iic::SELECTED, "selected"),
        (iic::FRAME, "frame"),
        (iic::COMMAND, "command"),
        (iic::CONDITION, "condition"),
        (iic::SYNCHRONIZED_HOLD, "synchronized_hold"),
        (iic::SETUP_WAIT, "setup_wait"),
        (iic::MONITOR_WAIT, "monitor_wait"),
        (iic::CLOCK_WAIT, "clock_wait"),
        (iic::FILTER_WAIT, "filter_wait"),
        (iic::FILTERED, "filtered"),
        (iic::LATCH, "latch"),
        (iic::RAW, "raw"),
        (iic::DRIVE, "drive"),
        (iic::GATE, "gate"),
        (iic::RESET, "reset"),
        (iic::BUSY, "busy"),
        (iic::ADDRESS + 1, "tdr or rdr"),
        (iic::ADDRESS, "address"),
        (iic::SEEN, "seen"),
        (iic::STATUS, "status"),
        (0, "control, mode, count or enable"),
    ];
    NAMES.iter().find(|(first, _)| *first <= place).map_or("", |(_, name)| name)
}
