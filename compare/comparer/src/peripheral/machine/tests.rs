//! That the comparison can fail: after a call on which all agree, each word and each end is changed by itself.
use super::super::{begin, new_set, states, system};
use super::*;
use crate::inputs;
use std::collections::BTreeSet;
use traffic::host::Host;
use traffic::random::Random;
use words::calls::Trap;
use words::layout::{self, WAIT};
use words::rates::Rates;

/// The default set, or another.
fn rate_set(random: &mut Random) -> Rates {
    if random.once_in(2) {
        return rates::random(random);
    }
    Rates::DEFAULT
}

/// A call on a state that is made.
struct Case {
    set: ClockSet,
    state: State,
    call: Call,
    args: Args,
}

/// One change to what the sides ended in, by its place or its end.
type Change<'a> = &'a dyn Fn(&mut Machine);

impl Case {
    fn random(random: &mut Random) -> Self {
        let set = if random.once_in(2) { inputs::set(random) } else { new_set(random).0 };
        let now = begin(random, &set);
        let rates = rate_set(random);
        let state = states::random(random, &rates, &set, now);
        let mut host = Host::over_state(random, now, system(&set));
        let (call, mut args) = host.next(random, &state);
        let call = random.pick(&[call, call, call, Call::SetGate, Call::Deadline, Call::Validate, Call::Observe]);
        if call == Call::SetGate {
            args[2] = 1 - state[iic::GATE];
        }
        Self { set: ClockSet::new(set), state, call, args }
    }

    /// One that may meet a row: about the start of the system clock, or held before it, with full prescalers and waits that
    /// have few half counts or edges to go, or nearly as many as there are.
    fn near_a_row(random: &mut Random) -> Self {
        let mut set = plain_set(0, FREQUENCIES);
        set[0] = random.below(2);
        set[layout::ORDINAL] = random.pick(&[0, 0, 2, (1 << 63) - 1]);
        set[layout::RUNNING] = u64::from(!random.once_in(4));
        for stages in [layout::AT_S + layout::DIVIDER..layout::AT_W, layout::AT_W + layout::DIVIDER..layout::SET] {
            set[stages].fill_with(|| random.pick(&[u64::MAX, 1]));
        }
        // The watch clock's eighth and sixteenth edge, and times at which it has none.
        let now = [0, random.pick(&[0, 1, 8 << 49, 16 << 49])];
        let mut state = states::random(random, &Rates::DEFAULT, &set, layout::time_at(&now, 0));
        state[iic::MODE] &= 0xc0;
        state[iic::COUNT] &= 7;
        for place in [iic::CLOCK_WAIT, iic::MONITOR_WAIT] {
            let half = [1, random.pick(&[0, 1, 2, u64::MAX]), random.below(2)];
            state[place..place + 3].copy_from_slice(if random.once_in(3) { &[0; 3] } else { &half });
        }
        for place in [iic::FILTER_WAIT, iic::SETUP_WAIT] {
            let [source, divide] = random.pick(&[[0, 1], [0, 2], [2, 8], [1, 0]]);
            let target = random.pick(&[0, 1, 2, u64::MAX]);
            let wait = random.pick(&[[0, target, 0], [1, target, 0], [2, now[0], now[1]]]);
            let words = [1, source, divide, wait[0], wait[1], wait[2]];
            state[place..=place + WAIT].copy_from_slice(if random.once_in(3) { &[0; 1 + WAIT] } else { &words });
        }
        let (call, operands) = match random.below(6) {
            0 => (Call::Advance, [0, 0]),
            1 => (Call::Read, [7, 0]),
            2 => (Call::Write, [random.below(8), random.below(256)]),
            _ => (Call::SetGate, [1 - state[iic::GATE], 0]),
        };
        let mut args = [0; layout::ARGS];
        args[..4].copy_from_slice(&[now[0], now[1], operands[0], operands[1]]);
        Self { set: ClockSet::new(set), state, call, args }
    }

    /// A machine that has made the call, with a change; and whether it is judged to be right.
    fn judged(&self, change: Change) -> (Machine, bool) {
        let mut machine = Machine::made(&self.state, &self.set, &self.args);
        machine.run(self.call, &self.set, &self.args);
        change(&mut machine);
        let right = machine.judge(self.call, &self.set, &self.args, &self.state).is_ok();
        (machine, right)
    }

    fn is_caught(&self, what: &str, change: Change) {
        let (machine, right) = self.judged(change);
        assert!(!right, "{what} at {:?}, {:?}", self.call, machine.answers.map(|answer| answer.end));
    }
}

/// Every end that a side can be changed to.
fn ends() -> impl Iterator<Item = End> {
    let traps = [Trap::Overflow, Trap::Shift, Trap::Index, Trap::Other].map(End::Trapped);
    [End::Done].into_iter().chain((1..=14).map(End::Refused)).chain(traps)
}

/// Each word of the port's state, each word of its answer, each other end.
fn changes_of_the_port(case: &Case, end: End) {
    for place in 0..iic::STATE {
        case.is_caught(&format!("state word {place}"), &|machine| machine.port[place] ^= 1);
    }
    let gives = if end == End::Done { case.call.gives() } else { 0 };
    for place in 1..=gives {
        case.is_caught(&format!("answer word {place}"), &|machine| machine.answers[0].words[place] ^= 1);
    }
    for other in ends().filter(|other| other.as_rust() != end.as_rust()) {
        case.is_caught(&format!("{other:?}"), &|machine| machine.answers[0].end = other);
    }
}

/// The same of one build of the Rust, by itself, where all ended alike.
fn changes_of_the_rust(case: &Case, end: End, side: usize) {
    let gives = if end == End::Done { case.call.gives() } else { 0 };
    for place in 1..=gives {
        case.is_caught(&format!("word {place} of {side}"), &|machine| machine.answers[side].words[place] ^= 1);
    }
    for other in ends().filter(|other| *other != end.as_rust()) {
        case.is_caught(&format!("{other:?} of {side}"), &|machine| machine.answers[side].end = other);
    }
    // The registers, the flags and the levels; of what is absent a changed word is no change.
    for place in (0..iic::FILTER_WAIT).filter(|_| case.call.changes()) {
        case.is_caught(&format!("state word {place} of {side}"), &|machine| {
            let mut state = machine.port;
            state[place] ^= 1;
            if side == 1 {
                machine.plain = Plain::state(&state);
            } else {
                machine.checked = Checked::state(&state);
            }
        });
    }
}

#[test]
fn each_change_is_a_difference() {
    crate::report::hide_traps();
    let mut random = Random::new(1);
    let mut seen = BTreeSet::new();
    for _ in 0..400_000 {
        let case = Case::random(&mut random);
        let (machine, right) = case.judged(&|_| {});
        assert!(right, "{:?}", case.call);
        let end = machine.answers[0].end;
        let row = machine.parted.last().map_or("", |parted| parted.row);
        if !seen.insert((format!("{:?}", case.call), format!("{end:?}"), row)) {
            continue;
        }
        changes_of_the_port(&case, end);
        if row.is_empty() {
            changes_of_the_rust(&case, end, 1);
            changes_of_the_rust(&case, end, 2);
        }
    }
    let met = |what: &str| seen.iter().any(|(call, end, row)| call == what || end == what || *row == what);
    let calls = ["Read", "Write", "InputPins", "SetGate", "Advance", "Deadline", "Validate", "Observe"];
    let ends = ["Done", "Refused(1)", "Refused(2)", "Refused(7)", "Refused(8)", "Refused(9)", "Refused(10)"];
    let rows = ["times_before_the_start", "a_clock_held_before_its_start", "divider_zero_of_a_wait"];
    for what in calls.into_iter().chain(ends).chain(rows).chain(["Refused(11)", "Refused(12)", "Refused(14)"]) {
        assert!(met(what), "{what} never came up: {seen:?}");
    }
}

/// The same at the partings that hardly come up: their tests' inputs.
#[test]
fn each_change_at_a_sum_is_a_difference() {
    let set = inputs::counted(u64::MAX);
    let mut late = set;
    late[0] = 1;
    let mut state = port::iic::fresh();
    state[iic::CLOCK_WAIT..iic::MONITOR_WAIT].copy_from_slice(&[1, 0, 1]);
    state[iic::FILTER_WAIT..iic::CLOCK_WAIT].copy_from_slice(&[1, 2, 8, 1, u64::MAX, 0]);
    // The eighth edge of 32,768 Hz.
    let args = iic::args(8 << (64 - 15), [1, 0]);
    for (set, row) in [(set, "prescaler_sum_of_a_wait"), (late, "prescaler_sum_after_a_level")] {
        let case = Case { set: ClockSet::new(set), state, call: Call::SetGate, args };
        let (machine, right) = case.judged(&|_| {});
        assert!(right && machine.parted[0].row == row);
        changes_of_the_port(&case, End::Refused(7));
    }
}

/// Near the rows of the table the port does as they say, and every row is met, with each of its calls and ends.
#[test]
fn every_row_is_met() {
    crate::report::hide_traps();
    let mut random = Random::new(1);
    let mut missing = rows::allowed();
    for _ in 0..500_000 {
        let case = Case::near_a_row(&mut random);
        let (machine, right) = case.judged(&|_| {});
        assert!(right, "{:?} {:x?} on {:x?} over {:x?}", case.call, case.args, case.state, case.set.words);
        for parted in machine.parted {
            missing.retain(|(row, call, ends)| (*row, *call, ends.map(Some)) != (parted.row, parted.call, parted.ends));
        }
    }
    assert!(missing.is_empty(), "never met: {missing:?}");
}
