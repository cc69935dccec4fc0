//! Makes the input of a difference smaller, word by word or piece by piece, as long as the difference stays.
use crate::judge::{self, Judge};
use std::time::{Duration, Instant};
use words::calls::Function;
use words::layout::{Args, Set};

/// Differences of a function or part that are made smaller and printed; those after them are counted.
pub const SHOWN: u64 = 3;
/// How long a list is made shorter.
const PATIENCE: Duration = Duration::from_secs(20);

/// The smallest set and arguments found, and whether they show the difference by themselves.
pub fn smallest(function: &Function, set: &Set, args: &Args) -> (Set, Args, bool) {
    let (mut set, mut args) = (*set, *args);
    if !differs(function, &set, &args) {
        return (set, args, false);
    }
    let words = function.takes.iter().map(|kind| kind.words()).sum();
    for _ in 0..20 {
        let mut smaller = false;
        for place in 0..words {
            smaller |= lower(args[place], |word| differs_with(function, &set, &mut args, place, word));
        }
        if function.set {
            for place in 0..set.len() {
                smaller |= lower(set[place], |word| {
                    let old = std::mem::replace(&mut set[place], word);
                    let still = differs(function, &set, &args);
                    if !still {
                        set[place] = old;
                    }
                    still
                });
            }
        }
        if !smaller {
            break;
        }
    }
    (set, args, true)
}

fn differs_with(function: &Function, set: &Set, args: &mut Args, place: usize, word: u64) -> bool {
    let old = std::mem::replace(&mut args[place], word);
    let still = differs(function, set, args);
    if !still {
        args[place] = old;
    }
    still
}

/// Tries smaller words until none is taken; whether one was.
fn lower(word: u64, mut takes: impl FnMut(u64) -> bool) -> bool {
    let (mut word, mut smaller) = (word, false);
    loop {
        let tries = [0, 1, word >> 32, word >> 8, word >> 1, word & word.wrapping_sub(1), word.wrapping_sub(1)];
        match tries.into_iter().find(|next| *next < word && takes(*next)) {
            Some(next) => (word, smaller) = (next, true),
            None => return smaller,
        }
    }
}

fn differs(function: &Function, set: &Set, args: &Args) -> bool {
    let mut judge = Judge::new();
    let expected = judge.run(function, set, &judge::sets(set), args);
    !judge.agrees(function, args, expected)
}

/// Leaves out pieces of a list, long ones first, as long as it shows a difference and time is left.
pub fn shorten<T: Clone>(list: &mut Vec<T>, differs: impl Fn(&[T]) -> bool) {
    let end = Instant::now() + PATIENCE;
    let mut length = list.len() / 2;
    while length > 0 {
        let mut at = 0;
        let mut shorter = false;
        while at + length <= list.len() && Instant::now() < end {
            let rest = [&list[..at], &list[at + length..]].concat();
            if differs(&rest) {
                *list = rest;
                shorter = true;
            } else {
                at += length;
            }
        }
        // A piece that couldn't go may be able to now.
        length = if shorter && length == 1 { 1 } else { length / 2 };
    }
}

#[cfg(test)]
mod tests {
    use super::shorten;

    #[test]
    fn only_what_shows_the_difference_is_left() {
        let mut list: Vec<u32> = (0..1000).collect();
        shorten(&mut list, |part| part.contains(&3) && part.contains(&777) && part.contains(&778));
        assert_eq!(list, [3, 777, 778]);
    }
}
