//! The words of a clock set that nobody has used.
use words::calls::{Answer, Call, End, Reference};
use words::layout::{self, Set};

/// A set as `Clocks::new` makes it, at a start and with a main, watch and on-chip frequency. It is held against what the Rust
/// makes, at every use; of a zero frequency the Rust makes none.
pub fn plain_set(start: u128, frequencies: [u64; layout::FREQUENCIES]) -> Set {
    let set = written(start, frequencies);
    if !frequencies.contains(&0) {
        let made = made(start, frequencies, reference_new);
        assert!(made.words[1..] == set, "not what Clocks::new makes at {start:#x} with {frequencies:?}");
    }
    set
}

/// A set of the default frequencies from time 0 whose prescalers have counted that much at each stage.
#[cfg(test)]
pub fn counted(counted: u64) -> Set {
    let mut set = plain_set(0, super::FREQUENCIES);
    set[layout::AT_S + layout::DIVIDER..layout::AT_W].fill(counted);
    set[layout::AT_W + layout::DIVIDER..].fill(counted);
    set
}

fn written(start: u128, [main, watch, on_chip]: [u64; layout::FREQUENCIES]) -> Set {
    let [seconds, fraction] = layout::halves(start);
    let mut set = [0; layout::SET];
    let rates = [(main, 1), (main, 1), (watch, 1), (on_chip, 1), (main, 1), (watch, 8)];
    for (domain, (hz, divide)) in set.chunks_mut(layout::DOMAIN).zip(rates) {
        domain.copy_from_slice(&[seconds, fraction, hz, divide, 0, 0, 1, seconds, fraction]);
    }
    // The prescalers run, and have counted nothing.
    set[layout::AT_S + 2] = 1;
    set[layout::AT_W + 2] = 1;
    set
}

/// The answer of `Clocks::new` in one build or the port.
fn made(start: u128, frequencies: [u64; layout::FREQUENCIES], new: fn(&layout::Args, &mut Answer)) -> Answer {
    let mut args = [0; layout::ARGS];
    args[..2].copy_from_slice(&layout::halves(start));
    args[2..2 + layout::FREQUENCIES].copy_from_slice(&frequencies);
    let mut answer = Answer::empty();
    new(&args, &mut answer);
    assert!(answer.end == End::Done || frequencies.contains(&0), "Clocks::new ends {:?}", answer.end);
    answer
}

fn reference_new(args: &layout::Args, out: &mut Answer) {
    reference::Bridge::answer(Call::ClocksNew, None, args, out);
}

#[cfg(test)]
mod tests {
    use super::super::numbers::FREQUENCIES;
    use super::*;

    const LAST: u128 = u128::MAX;
    const STARTS: [u128; 10] =
        [0, 1, (1 << 64) - 1, 1 << 64, 1 << 127, LAST - (1 << 80), LAST - (1 << 64), LAST - 2, LAST - 1, LAST];

    fn checked_new(args: &layout::Args, out: &mut Answer) {
        checked::Bridge::answer(Call::ClocksNew, None, args, out);
    }

    fn port_new(args: &layout::Args, out: &mut Answer) {
        port::answer(Call::ClocksNew, &[1; layout::SET], args, out);
    }

    /// Both builds and the port make the words of `plain_set`, at every boundary of the start and the frequencies.
    #[test]
    fn a_plain_set_is_a_new_one() {
        for start in STARTS {
            for (place, main) in FREQUENCIES.into_iter().enumerate() {
                for watch in FREQUENCIES {
                    let frequencies = [main, watch, FREQUENCIES[FREQUENCIES.len() - 1 - place]];
                    for new in [reference_new, checked_new, port_new] {
                        let answer = made(start, frequencies, new);
                        if frequencies.contains(&0) {
                            assert_eq!(answer.end, End::Refused(1), "{frequencies:?}");
                        } else {
                            assert_eq!(answer.words[1..], written(start, frequencies), "{start:#x} {frequencies:?}");
                        }
                    }
                }
            }
        }
    }
}
