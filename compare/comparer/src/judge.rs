//! What the port must answer, from what the two builds of the Rust do.
use crate::differences::functions::{self, Handed};
use crate::differences::{self, Like, Parting};
use words::calls::{Answer, Call, End, Function, Kind, Reference};
use words::layout::{self, Args, Set};

/// One call as the port and both builds of the Rust end it.
pub struct Judge {
    pub port: Answer,
    pub plain: Answer,
    pub checked: Answer,
}

/// A clock set as both builds hold it; none where a clock holds a zero.
pub type Sets = Option<(<reference::Bridge as Reference>::Set, <checked::Bridge as Reference>::Set)>;

pub fn sets(words: &Set) -> Sets {
    reference::Bridge::set(words).zip(checked::Bridge::set(words))
}

/// What the papers have the port answer.
#[derive(Clone, Copy, PartialEq, Eq, Debug)]
pub enum Expected {
    /// As both builds of the Rust, which agree.
    Rust,
    /// As a row of docs/DIFFERENCES.md has it.
    Parting(Parting),
    /// This refusal, which the Rust doesn't have: it isn't asked.
    Added(u8),
    /// The builds part or trap, and no row of docs/DIFFERENCES.md allows it.
    Unknown,
}

impl Expected {
    /// The row that says so, where it isn't what both builds do.
    pub fn row(self) -> Option<&'static str> {
        match self {
            Expected::Rust => None,
            Expected::Parting(parting) => Some(parting.row),
            Expected::Added(number) => Some(differences::row_added(number)),
            Expected::Unknown => Some("NONE"),
        }
    }
}

impl Judge {
    pub fn new() -> Self {
        Self { port: Answer::empty(), plain: Answer::empty(), checked: Answer::empty() }
    }

    /// Runs the call everywhere, and says what the port should have answered.
    pub fn run(&mut self, function: &Function, words: &Set, sets: &Sets, args: &Args) -> Expected {
        port::answer(function.call, words, args, &mut self.port);
        if let Some(number) = added(function, words, args) {
            return Expected::Added(number);
        }
        let (plain, checked) = match sets {
            Some((plain, checked)) if function.set => (Some(plain), Some(checked)),
            _ => (None, None),
        };
        reference::Bridge::answer(function.call, plain, args, &mut self.plain);
        checked::Bridge::answer(function.call, checked, args, &mut self.checked);
        self.expected(function, &Handed { words, set: checked, args })
    }

    fn expected(&self, function: &Function, handed: &Handed) -> Expected {
        let (plain, checked) = (&self.plain, &self.checked);
        if !matches!(checked.end, End::Trapped(_)) {
            return if same(function, plain, checked) { Expected::Rust } else { Expected::Unknown };
        }
        let parting = functions::parting(function.call, handed, plain.end, checked.end);
        parting.map_or(Expected::Unknown, Expected::Parting)
    }

    /// Whether the port answers as it should.
    pub fn agrees(&self, function: &Function, args: &Args, expected: Expected) -> bool {
        match expected {
            Expected::Rust => same(function, &self.port, &self.plain),
            Expected::Parting(parting) => self.port.end == parting.end && self.left(function, parting),
            Expected::Added(number) => {
                let unchanged = || self.port.words[1..=function.gives] == args[..function.gives];
                self.port.end == End::Refused(number) && (!function.always || unchanged())
            }
            Expected::Unknown => false,
        }
    }

    /// Whether the port's words at a parting are those of the build that the row names.
    fn left(&self, function: &Function, parting: Parting) -> bool {
        if parting.end != End::Done && !function.always {
            return true;
        }
        let like = |answer: &Answer| equal(function, &self.port, answer);
        match parting.like {
            Like::Both => like(&self.plain) && like(&self.checked),
            Like::Plain => like(&self.plain),
            Like::Checked => like(&self.checked),
            Like::PlainUpToTheSum => false,
        }
    }

    /// How the plain build, the checked one and the port ended; none for the Rust where it wasn't asked.
    pub fn ends(&self, expected: Expected) -> [Option<End>; 3] {
        let asked = !matches!(expected, Expected::Added(_));
        [asked.then_some(self.plain.end), asked.then_some(self.checked.end), Some(self.port.end)]
    }
}

fn same(function: &Function, a: &Answer, b: &Answer) -> bool {
    a.end == b.end && (a.end != End::Done && !function.always || equal(function, a, b))
}

fn equal(function: &Function, a: &Answer, b: &Answer) -> bool {
    a.words[1..=function.gives] == b.words[1..=function.gives]
}

/// The refusals that the Rust doesn't have: 1 for a clock that holds a zero, 3 for a stage that a prescaler hasn't.
fn added(function: &Function, words: &Set, args: &Args) -> Option<u8> {
    let zero = match function.call {
        Call::ClocksHasZero | Call::ClockHasZero => false,
        _ if function.set => layout::set_has_zero(words),
        _ => matches!(function.takes.first(), Some(Kind::Clock | Kind::Domain)) && layout::has_zero(args),
    };
    if zero {
        return Some(1);
    }
    if function.call == Call::ClocksHigh && high_at_the_top(words, args) {
        return Some(7);
    }
    let stages = match function.call {
        Call::CrossingsW | Call::TicksW | Call::HighW | Call::ParentEdgeW => layout::STAGES_W,
        _ => layout::STAGES_S,
    };
    let stage = args[function.place(Kind::Stage)?];
    (stage < 1 || stage > stages as u64).then_some(3)
}

/// Whether a moved clock's own level is asked for where its count is the last. The Rust, which asks for edges from the ordinal
/// on, answers by an edge that it hasn't counted.
fn high_at_the_top(words: &Set, args: &Args) -> bool {
    let domain = layout::domain(words, args[0] as usize);
    let ticks = || {
        let (mut undivided, mut answer) = (*args, Answer::empty());
        undivided[1] = 1;
        reference::Bridge::answer(Call::ClocksTicks, reference::Bridge::set(words).as_ref(), &undivided, &mut answer);
        answer.words[1]
    };
    domain[layout::ORDINAL] > 0 && args[1] < 2 && ticks() == u64::MAX
}

#[cfg(test)]
mod tests {
    use super::*;
    use crate::inputs::{grid, plain_set};
    use std::collections::BTreeSet;
    use traffic::random::Random;
    use words::calls;

    /// A call, and how its sides ended when it was made.
    struct Case<'a> {
        function: &'a Function,
        words: &'a Set,
        sets: &'a Sets,
        args: &'a Args,
    }

    impl Case<'_> {
        /// Whether the port is judged to be right after a change to what the sides ended in.
        fn right(&self, change: impl Fn(&mut Judge)) -> bool {
            let mut judge = Judge::new();
            let mut expected = judge.run(self.function, self.words, self.sets, self.args);
            change(&mut judge);
            if !matches!(expected, Expected::Added(_)) {
                let set = self.sets.as_ref().map(|(_, checked)| checked);
                expected = judge.expected(self.function, &Handed { words: self.words, set, args: self.args });
            }
            judge.agrees(self.function, self.args, expected)
        }

        /// Each answer word and each end of a side is changed by itself.
        fn changes_are_caught(&self, end: End, side: fn(&mut Judge) -> &mut Answer) {
            let name = self.function.name;
            if end == End::Done || self.function.always {
                for place in 1..=self.function.gives {
                    assert!(!self.right(|judge| side(judge).words[place] ^= 1), "{name}: word {place}");
                }
            }
            for other in [End::Done].into_iter().chain((1..=12).map(End::Refused)).filter(|other| *other != end) {
                assert!(!self.right(|judge| side(judge).end = other), "{name}: {other:?}");
            }
        }
    }

    #[test]
    fn each_change_is_a_difference() {
        crate::report::hide_traps();
        let mut seen = BTreeSet::new();
        for function in calls::TIME.iter().chain(calls::CLOCKS) {
            grid::each(&mut Random::new(1), function, &mut |words, args| {
                let sets = if function.set { sets(words) } else { None };
                let mut judge = Judge::new();
                let expected = judge.run(function, words, &sets, args);
                let end = judge.port.end;
                if !seen.insert((function.name, format!("{end:?}"), expected.row())) {
                    return;
                }
                let case = Case { function, words, sets: &sets, args };
                assert!(case.right(|_| {}), "{}", function.name);
                case.changes_are_caught(end, |judge| &mut judge.port);
                if expected == Expected::Rust {
                    case.changes_are_caught(end, |judge| &mut judge.plain);
                    case.changes_are_caught(end, |judge| &mut judge.checked);
                }
            });
        }
        for number in [1, 3] {
            let row = differences::row_added(number);
            assert!(seen.iter().any(|(_, _, met)| *met == Some(row)), "{row} never came up");
        }
    }

    /// A set about the start of the system clock, or held before it, or so fast that its counts end, with full prescalers.
    fn set_near_a_row(random: &mut Random) -> Set {
        let main = random.pick(&[3_686_400, 3_686_400, u64::MAX]);
        let mut set = plain_set(0, [main, 32_768, 1_310_720]);
        set[0] = u64::from(random.once_in(4));
        set[layout::ORDINAL] = random.pick(&[0, 0, 2, 4]);
        set[layout::RUNNING] = u64::from(!random.once_in(4));
        set[layout::AT_S + layout::DIVIDER..layout::AT_W].fill(u64::MAX);
        set[layout::AT_W + layout::DIVIDER..].fill(u64::MAX);
        set
    }

    /// Arguments near a row: on edges at which full sums wrap, with few edges to go, or as many as there are.
    fn arguments_near_a_row(random: &mut Random, function: &Function) -> Args {
        let mut args = [0; layout::ARGS];
        let mut at = 0;
        for kind in function.takes {
            let edge = |n: u64| [0, ((u128::from(n) << 64) / 3_686_400) as u64];
            let mut time = random.pick(&[[0, 0], edge(2), edge(4), [0, 8 << 49], [0, 16 << 49], [1, 0]]);
            time[1] += random.below(2);
            let tap = random.pick(&[[0, 1], [0, 2], [2, 8], [1, 0], [5, 1]]);
            let count = random.pick(&[0, 1, u64::MAX]);
            let out = &mut args[at..at + kind.words()];
            match kind {
                Kind::Time => out.copy_from_slice(&time),
                Kind::Tap => out.copy_from_slice(&tap),
                Kind::Domain => out.copy_from_slice(layout::domain(&set_near_a_row(random), 0)),
                Kind::Wait => {
                    let state = random.pick(&[[0, count, 0], [1, count, 0], [2, time[0], time[1]]]);
                    out.copy_from_slice(&[&tap[..], &state].concat());
                }
                Kind::PrescalerS | Kind::PrescalerW => {
                    out[2..].fill(u64::MAX);
                    out[2] = 1;
                }
                Kind::Stage => out[0] = 1,
                Kind::Parent => out[0] = 2,
                _ => out[0] = count,
            }
            at += kind.words();
        }
        args
    }

    /// Near the rows of the table the port does as they say, and every row is met, with each of its calls and ends.
    #[test]
    fn every_row_is_met() {
        crate::report::hide_traps();
        let mut random = Random::new(1);
        let mut missing = functions::allowed();
        let called: Vec<&Function> =
            calls::CLOCKS.iter().filter(|function| missing.iter().any(|(_, call, _)| *call == function.call)).collect();
        for _ in 0..1_000_000 {
            let function = random.pick(&called);
            let (set, args) = (set_near_a_row(&mut random), arguments_near_a_row(&mut random, function));
            let mut judge = Judge::new();
            let expected = judge.run(function, &set, &sets(&set), &args);
            assert!(judge.agrees(function, &args, expected), "{} {args:x?} over {set:x?}", function.name);
            let (row, met) = (expected.row(), judge.ends(expected));
            missing.retain(|(name, call, ends)| (Some(*name), *call, ends.map(Some)) != (row, function.call, met));
        }
        assert!(missing.is_empty(), "never met: {missing:?}");
    }
}
