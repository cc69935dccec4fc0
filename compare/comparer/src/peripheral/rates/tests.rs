use super::super::{begin, new_set, states, system};
use super::*;
use crate::inputs;
use crate::judge;
use traffic::exact;
use traffic::host::Host;
use words::calls::{Answer, End};
use words::iic::{self, Call, Peripheral, State};
use words::layout::Args;

/// The default with one number changed.
fn with(change: impl FnOnce(&mut Rates)) -> Rates {
    let mut rates = Rates::DEFAULT;
    change(&mut rates);
    rates
}

#[test]
fn what_is_refused() {
    assert!(!refused(&Rates::DEFAULT));
    for (number, is) in [(14, true), (15, true), (16, false), (4096, false), (4097, true)] {
        // 15 is a length, but no monitor is below it where it isn't doubled.
        for place in 0..8 {
            let rates = Rates { monitors: [15; 4], ..with(|rates| rates.half_clocks[place] = number) };
            assert_eq!(refused(&rates), is, "{number}");
        }
    }
    for (monitor, most) in [(0, 27), (1, 79), (2, 55), (3, 159)] {
        for (number, is) in [(14, true), (15, false), (most, false), (most + 1, true)] {
            assert_eq!(refused(&with(|rates| rates.monitors[monitor] = number)), is, "{monitor} {number}");
        }
    }
    let long = with(|rates| rates.half_clocks = [4096; 8]);
    for (monitor, most) in [(0, 4095), (1, 4095), (2, 4096), (3, 4096)] {
        for number in [most, most + 1] {
            let rates = Rates { monitors: core::array::from_fn(|g| if g == monitor { number } else { 15 }), ..long };
            assert_eq!(refused(&rates), number > most, "{monitor} {number}");
        }
    }
    for (number, is) in [(0, true), (1, false), (4096, false), (4097, true)] {
        assert!((0..2).all(|setup| refused(&with(|rates| rates.setups[setup] = number)) == is), "{number}");
    }
}

/// All that is said of sets comes up; those that should be accepted are.
#[test]
fn what_sets_meet() {
    let (mut draws, mut counts) = (Random::new(1), Counts::default());
    for _ in 0..20_000 {
        counts.add(&random(&mut draws));
        assert!(!refused(&accepted(&mut draws)));
    }
    assert_eq!(counts.print(), Vec::<&str>::new());
    assert!(Counts::default().print().len() == LIMITS.len() + 1 + REASONS.len());
}

/// How a call ends in a build, with what it answers and the state that it leaves.
fn ended<P: Peripheral>(mut state: P::State, set: &P::Set, call: Call, args: &Args) -> (Answer, Vec<u64>) {
    let (mut answer, mut left) = (Answer::empty(), Vec::new());
    P::call(call, &mut state, set, args, &mut answer);
    P::words(&state, &mut left);
    (answer, left)
}

/// A state, and a call that a host makes in it.
fn case(random: &mut Random, rates: &Rates) -> (State, judge::Sets, Call, Args) {
    let set = if random.once_in(2) { inputs::set(random) } else { new_set(random).0 };
    // On an edge, so that waits can end just then.
    let (clock, begin) = (system(&set), begin(random, &set));
    let now = if random.once_in(4) { begin } else { exact::edge(&clock, exact::count(&clock, begin)) };
    let state = states::random(random, rates, &set, now);
    let (call, args) = Host::over_state(random, now, clock).next(random, &state);
    let call = random.pick(&[call, call, call, Call::Advance, Call::Deadline, Call::Validate, Call::Observe]);
    (state, judge::sets(&set), call, args)
}

/// Over the default set the copy of iic.rs does what the unmodified file does, in either build: answers, refusals, traps and
/// states.
#[test]
fn the_copy_over_the_default() {
    crate::report::hide_traps();
    let (mut random, mut ends) = (Random::new(1), [0; 3]);
    for _ in 0..300_000 {
        let (state, sets, call, args) = case(&mut random, &Rates::DEFAULT);
        let Some((plain, checked)) = sets else {
            continue;
        };
        type Plain = reference::Bridge;
        type Checked = checked::Bridge;
        let left = ended::<Plain>(Plain::state(&state), &plain, call, &args);
        assert_eq!(ended::<Plain>(reference::Rated::copy(&state), &plain, call, &args), left, "{call:?} {state:x?}");
        ends[match left.0.end {
            End::Done => 0,
            End::Refused(_) => 1,
            End::Trapped(_) => 2,
        }] += 1;
        let left = ended::<Checked>(Checked::state(&state), &checked, call, &args);
        assert_eq!(ended::<Checked>(checked::Rated::copy(&state), &checked, call, &args), left, "{call:?} {state:x?}");
    }
    assert!(ends.iter().all(|count| *count > 0), "{ends:?}");
}

/// A host's whole run over another set isn't what it is over the default: each number of the set is looked up.
#[test]
fn each_number_is_looked_up() {
    for number in 0..words::rates::RATES {
        let mut words = Rates::DEFAULT.words();
        words[number] += 1;
        let other = Rates::of(&words);
        let mut random = Random::new(number as u64);
        let parts = (0..100_000).any(|_| {
            let (mut state, sets, call, args) = case(&mut random, &Rates::DEFAULT);
            let Some((set, _)) = sets else {
                return false;
            };
            let (_, left) = ended::<reference::Bridge>(reference::Bridge::state(&state), &set, call, &args);
            state[iic::RATES..].copy_from_slice(&other.words());
            let (_, right) = ended::<reference::Bridge>(reference::Bridge::state(&state), &set, call, &args);
            left[..iic::FIELDS] != right[..iic::FIELDS]
        });
        assert!(parts, "number {number} of a set makes no difference");
    }
}
