use super::levels::Without;
use super::second::{Idea, Second};
use super::{inputs, left, made, same, trace_set, Case, Comparison, Idler};
use crate::hosts::idle;
use crate::hosts::side::WAITS;
use plain_player::bench::{Deadline, Watch};
use plain_player::Call;
use reference::mcu::iic::Iic;
use reference::Time;
use traffic::random::Random;
use words::bench::Left;
use words::layout::Set;

/// What a part of the comparison finds of a bench in the port's place.
fn found(idea: Idea, run: impl FnOnce(&mut Comparison<Second>)) -> u64 {
    let mut comparison = Comparison::new(1, Second(idea), None);
    comparison.differences.shown = 0;
    run(&mut comparison);
    comparison.differences.count
}

/// Scripts at random, until one shows a difference.
fn at_random(comparison: &mut Comparison<Second>) {
    let mut rounds = 0;
    while rounds < 1000 && comparison.differences.count == 0 {
        comparison.at_random();
        rounds += 1;
    }
}

#[test]
fn a_right_bench_is_found_right() {
    assert_eq!(found(Idea::Right, at_random), 0);
    assert_eq!(found(Idea::Right, Comparison::examples), 0);
    assert_eq!(found(Idea::Right, Comparison::numbers), 0);
    assert_eq!(found(Idea::Right, Comparison::buffers), 0);
    assert_eq!(found(Idea::Right, Comparison::noise), 0);
    assert_eq!(found(Idea::Right, Comparison::visits), 0);
    assert_eq!(found(Idea::Right, Comparison::million), 0);
}

#[test]
fn wrong_benches_are_noticed() {
    let ideas = [
        Idea::ReportsBeforeLines,
        Idea::FallingUnits,
        Idea::NoPinsPullLow,
        Idea::EqualTimeIsEarly,
        Idea::CountsLinesZero,
        Idea::BadLinesLast,
        Idea::EndsWithTheScript,
    ];
    for idea in ideas {
        assert!(found(idea, at_random) > 0, "{idea:?}");
    }
    let of_buffers =
        [Idea::BadLinesWithoutRoom, Idea::ReportsWithoutRoom, Idea::PastDeadline, Idea::VisitsAgain, Idea::OnePass];
    for idea in of_buffers {
        assert!(found(idea, Comparison::buffers) > 0, "{idea:?}");
    }
    assert!(found(Idea::VisitsBeforeRoom, Comparison::visits) > 0);
}

/// Where the last answer line stands right before the visit that is one too many, 6 goes before 16 in the same place.
#[test]
fn one_visit_too_many() {
    let set = trace_set();
    let end = |more: u64, room: usize| {
        let script = made::many_visits(more);
        let case = Case { units: 2, set: &set, script: &script, size: script.len() * 9 };
        let bytes = case.plain(&mut (), &[]).bytes.len();
        left(&Case { size: bytes + room, ..case }.plain(&mut (), &[]))
    };
    assert_eq!([0, 1, 2, 3, 4, 5].map(|more| end(more, 80).refusal), [0, 0, 0, 16, 16, 16]);
    let [without, with] = [end(5, 79), end(5, 80)];
    assert_eq!([without.refusal, with.refusal], [6, 16]);
    assert_eq!(without, Left { refusal: 6, ..with });
    assert_ne!(end(4, 79).states, end(4, 80).states);
}

#[test]
fn all_that_is_rare_comes_up() {
    let mut comparison = Comparison::new(1, Second(Idea::Right), None);
    comparison.numbers();
    comparison.buffers();
    comparison.noise();
    comparison.visits();
    while comparison.met.calls < 5_000_000 {
        comparison.at_random();
    }
    assert_eq!(comparison.differences.count, 0);
    assert_eq!(comparison.met.missing(false).next(), None);
}

/// The set of traces with its start so many clocks, about, before the last time.
fn ending(clocks: u128) -> Set {
    inputs::plain_set(u128::MAX - clocks * 0x48d_159e_26af, inputs::FREQUENCIES)
}

/// How equal levels are broken by two units with a script.
fn broken(without: Without, set: &Set, script: &[u8]) -> Option<String> {
    Case { units: 2, set, script, size: 100_000 }.levels(without).1.broken
}

/// A small script for each premise of the claim on equal levels: without the premise it breaks the claim.
#[test]
fn each_premise_on_levels_is_needed() {
    let before = |halves: u64| u64::MAX - halves + 1;
    let visit = before(642);
    let visit = [
        (visit, "0 g 1"),
        (visit, "0 w 0 b0"),
        (visit, "1 g 1"),
        (visit, "1 w 0 81"),
        (before(50), "0 w 1 10"),
        (before(19), "0 w 1 60"),
    ];
    let starts = ["0 w 0 b4", "0 g 1", "0 w 6 fd", "0 w 1 90", "1 g 1", "1 w 0 b0", "1 w 6 d4", "1 w 1 90"];
    let deadline = starts.map(|call| (19_360, call));
    let begin = ["0 g 1", "0 w 0 b0", "0 w 1 90", "1 g 1", "1 w 0 8c"].map(|call| (0, call));
    let clocks = ["0 g 1", "0 w 5 59", "0 w 0 a1", "1 g 1", "1 w 0 c5"].map(|call| (0, call));
    let gate = [&clocks[..], &[(362, "0 g 0"), (1160, "0 g 1")]].concat();
    let enable = [&begin[..], &[(504, "0 w 0 30"), (1063, "0 w 0 b0")]].concat();
    let scripts = [
        (Without::RefusedVisit, trace_set(), visit.to_vec()),
        (Without::RefusedDeadline, ending(10_000), deadline.to_vec()),
        (Without::Gate, trace_set(), gate),
        (Without::Enable, trace_set(), enable),
    ];
    for (without, set, calls) in &scripts {
        let script = made::at_halves(set, calls);
        assert!(broken(*without, set, &script).is_some(), "{without:?}");
        let others = scripts.iter().map(|(other, _, _)| *other).filter(|other| other != without);
        for other in others.chain([Without::Nothing]) {
            assert_eq!(broken(other, set, &script), None, "{without:?}, {other:?}");
        }
    }
}

/// Whether visits that are idle by an idea change what scripts leave.
fn idle_changes(idea: idle::Idea) -> bool {
    let mut comparison = Comparison::new(1, Second(Idea::Right), None);
    (0..1500).any(|_| {
        let (units, set) = (2, trace_set());
        let script = comparison.script(units, 40, &set);
        let case = Case { units, set: &set, script: &script, size: 100_000 };
        let clocks = case.clocks().expect("no clock of traces holds a zero");
        let mut idler = Idler::new(idea, Random::new(comparison.random.word()), &clocks);
        !same(&case.plain(&mut idler, &[]), &case.plain(&mut (), &[]))
    })
}

#[test]
fn wrong_ideas_of_idle_visits_are_noticed() {
    assert!(!idle_changes(idle::Idea::Document));
    for idea in WAITS.map(idle::Idea::Due).into_iter().chain([idle::Idea::NoLiftNorFrameStart]) {
        assert!(idle_changes(idea), "{idea:?}");
    }
    assert!(idle_changes(idle::Idea::PastARefusal));
}

/// Of units that are asked for their deadlines, how often one is past, and how often one is due whose visit in that moment was
/// refused.
#[derive(Default)]
struct Unvisited {
    refused: [Option<Time>; 4],
    past: u64,
    balked: u64,
}

impl Watch for Unvisited {
    fn asked(&mut self, unit: usize, present: Option<Time>, deadline: Deadline, _units: &mut [Iic]) {
        if let (Some(now), Ok(Some(at))) = (present, deadline) {
            self.past += u64::from(at < now);
            self.balked += u64::from(at == now && self.refused[unit] == Some(now));
        }
    }

    fn called(&mut self, unit: usize, now: Time, call: Call, refused: bool, _units: &mut [Iic]) {
        if call == Call::Visit && refused {
            self.refused[unit] = Some(now);
        }
    }
}

#[test]
fn deadlines_that_name_no_moment() {
    for (script, balks) in [(made::balks(), true), (made::gated(made::DUE + 1), false)] {
        let mut seen = Unvisited::default();
        Case { units: 2, set: &trace_set(), script: &script, size: 100_000 }.plain(&mut seen, &[]);
        assert_eq!([seen.past > 0, seen.balked > 0], [!balks, balks]);
    }
}
