use super::idle::Idea;
use super::side::{settled, Side, WAITS};
use super::{pair, Tally};
use crate::inputs::{plain_set, FREQUENCIES};
use traffic::random::Random;
use words::calls::Reference;
use words::iic::{self, Peripheral, State};
use words::rates::Rates;

/// What pairs meet with an idea until they part, and how they do, if they do in so many calls.
fn pairs(idea: Idea, calls: u64) -> (Tally, Option<String>) {
    let (mut random, mut tally) = (Random::new(1), Tally::default());
    while tally.left + tally.idle < calls {
        if let Err(what) = pair(&mut random, idea, &mut tally) {
            println!("{idea:?}: after {} calls: {what}", tally.left + tally.idle);
            return (tally, Some(what));
        }
    }
    (tally, None)
}

/// Calls of the kinds about which the claim is silent or makes an exception do come.
#[test]
fn what_pairs_meet() {
    let (tally, parting) = pairs(Idea::Document, 200_000);
    assert_eq!(parting, None);
    assert!(tally.refused_idle > 10, "{} idle calls refused", tally.refused_idle);
    assert!(tally.ended_by_refusal > 10, "{} pairs ended by a refusal", tally.ended_by_refusal);
    assert!(tally.unsettled > 10, "{} states not settled", tally.unsettled);
}

/// Until the first refusal, an idle visit that starts a frame is the first one after a lift, and the other way round
/// nothing else is changed by that one: either half of the rule does.
#[test]
fn half_of_the_rule_on_lifts_does() {
    assert_eq!(pairs(Idea::NoLift, 400_000).1, None);
    assert_eq!(pairs(Idea::NoFrameStart, 400_000).1, None);
}

/// Each shows in a call that is left, though idle calls have changed a state before; some in a call that is idle for
/// one host alone, too.
#[test]
fn wrong_ideas_are_caught() {
    let others = [
        Idea::NoLiftNorFrameStart,
        Idea::ReadOfStatus,
        Idea::ReadOfData,
        Idea::FilteredLevels,
        Idea::AnyGate,
        Idea::SameByte,
        Idea::PastARefusal,
    ];
    let mut one_sided = 0;
    for idea in WAITS.map(Idea::Due).into_iter().chain(others) {
        let (tally, parting) = pairs(idea, 5_000_000);
        assert!(parting.is_some(), "{idea:?}");
        assert!(tally.changing > 0, "{idea:?}");
        one_sided += tally.one_sided;
    }
    assert!(one_sided > 0);
}

/// A state in which whatever a kick looks at is at random; most are enabled, and no wait but the clock's runs.
fn kicked(random: &mut Random) -> State {
    let mut state = iic::blank(&Rates::DEFAULT);
    state[iic::CONTROL] = random.word() & 0x7f | random.pick(&[0x80, 0x80, 0x80, 0]);
    state[iic::RESET] = u64::from(random.once_in(8));
    state[iic::GATE] = u64::from(!random.once_in(8));
    for register in [iic::ENABLE, iic::STATUS, iic::ADDRESS] {
        state[register] = random.word() & 0xff;
    }
    let bits = [iic::BUSY, iic::DRIVE, iic::DRIVE + 1, iic::FILTERED, iic::SELECTED, iic::RECEIVE_ENABLED];
    bits.into_iter().for_each(|bit| state[bit] = random.below(2));
    for rare in [iic::CONDITION, iic::COMMAND, iic::HOLD, iic::SYNCHRONIZED_HOLD, iic::CLOCK_WAIT] {
        state[rare] = u64::from(random.once_in(4));
    }
    if random.once_in(2) {
        let phase = random.below(3);
        let remaining = if phase == 0 { 1 + random.below(8) } else { 0 };
        let [shift, address, transmit, loaded, last] = [256, 2, 2, 2, 2].map(|most| random.below(most));
        let frame = [1, shift, remaining, phase, address, transmit, loaded, last];
        state[iic::FRAME..iic::SELECTED].copy_from_slice(&frame);
    }
    state
}

#[test]
fn settled_is_what_a_kick_keeps() {
    let clocks = reference::Bridge::set(&plain_set(0, FREQUENCIES)).unwrap();
    let (mut random, mut counts) = (Random::new(1), [0; 2]);
    for _ in 0..100_000 {
        let state = kicked(&mut random);
        let side = Side::new(reference::Bridge::state(&state));
        assert_eq!(side.words, state);
        assert_eq!(side.rests(&clocks, 0), Some(settled(&state)), "{state:x?}");
        counts[usize::from(settled(&state))] += 1;
    }
    assert!(counts.iter().all(|count| *count > 10_000), "{counts:?}");
}
