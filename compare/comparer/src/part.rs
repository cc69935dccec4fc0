//! Compares the functions of one part.
use crate::inputs::{self, grid};
use crate::judge::{self, Judge, Sets};
use crate::options::Options;
use crate::report::{self, Partings, Tally};
use crate::shrink::{self, SHOWN};
use std::time::Instant;
use traffic::random::Random;
use words::calls::Function;
use words::layout::{self, Args, Set};

/// Random calls over one clock set, so that what the Rust remembers of a set is tried too.
const CALLS_OF_SET: u64 = 32;

struct Comparison {
    judge: Judge,
    tallies: Vec<Tally>,
    partings: Partings,
}

/// Prints what was found, and returns how many differences there are.
pub fn compare(name: &str, functions: &[Function], options: &Options) -> u64 {
    let functions: Vec<&Function> = functions.iter().collect();
    let tallies = vec![Tally::default(); functions.len()];
    let mut comparison = Comparison { judge: Judge::new(), tallies, partings: Partings::default() };
    let mut random = Random::new(options.seed);
    let start = Instant::now();
    for (row, function) in functions.iter().enumerate() {
        grid::each(&mut random, function, &mut |set, args| {
            let sets = if function.set { judge::sets(set) } else { None };
            comparison.call(row, function, set, &sets, args);
        });
    }
    let boundaries = comparison.calls();
    comparison.at_random(&mut random, &functions, options.count);
    let seconds = start.elapsed().as_secs_f64();
    let rows: Vec<(&Function, Tally)> = functions.into_iter().zip(comparison.tallies.iter().cloned()).collect();
    report::table(&rows);
    comparison.partings.print();
    let calls = comparison.calls();
    println!(
        "{}: seed {}, {boundaries} calls on boundaries, {} at random, {:.1} s, {:.2} million calls a second",
        name,
        options.seed,
        calls - boundaries,
        seconds,
        calls as f64 / seconds / 1e6
    );
    comparison.tallies.iter().map(|tally| tally.differences).sum()
}

impl Comparison {
    fn calls(&self) -> u64 {
        self.tallies.iter().map(|tally| tally.calls).sum()
    }

    /// Random calls of the functions that take anything at all.
    fn at_random(&mut self, random: &mut Random, functions: &[&Function], count: u64) {
        let rows: Vec<usize> = (0..functions.len()).filter(|row| !functions[*row].takes.is_empty()).collect();
        let mut words = [0; layout::SET];
        let mut sets = None;
        let mut args = [0; layout::ARGS];
        for call in 0..count {
            if call % CALLS_OF_SET == 0 && functions.iter().any(|f| f.set) {
                words = inputs::set(random);
                sets = judge::sets(&words);
            }
            let row = random.pick(&rows);
            inputs::arguments(random, functions[row], &words, &mut args);
            self.call(row, functions[row], &words, &sets, &args);
        }
    }

    fn call(&mut self, row: usize, function: &Function, set: &Set, sets: &Sets, args: &Args) {
        let expected = self.judge.run(function, set, sets, args);
        let agrees = self.judge.agrees(function, args, expected);
        self.tallies[row].add(&self.judge, expected, agrees);
        self.partings.add(|| function.name.to_string(), self.judge.ends(expected), expected.row());
        if !agrees && self.tallies[row].differences <= SHOWN {
            show(function, set, args);
        }
    }
}

fn show(function: &Function, set: &Set, args: &Args) {
    let (set, args, alone) = shrink::smallest(function, set, args);
    let mut judge = Judge::new();
    let expected = judge.run(function, &set, &judge::sets(&set), &args);
    report::difference(function, &set, &args, &judge, expected);
    if !alone {
        println!("  only after other calls over the same set");
    }
}
