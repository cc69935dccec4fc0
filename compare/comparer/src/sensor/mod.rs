//! The sensor's end of the wires: runs of edges from the fresh state, and a few edges from states made at random.
mod made;
mod master;
mod rare;
mod source;
pub mod trial;
use crate::options::Options;
use crate::report::Partings;
use rare::Rare;
use source::Source;
use std::time::Instant;
use traffic::random::Random;
use trial::Trial;
use words::sensor::Given;

#[derive(Default)]
struct Tally {
    runs: u64,
    /// Edges of runs from the fresh state, and from states made at random.
    edges: [u64; 2],
    partings: Partings,
    rare: Rare,
    differences: u64,
}

/// Differences that are shown.
const SHOWN: u64 = 5;

/// Prints what was found, and returns how many differences there are.
pub fn compare(options: &Options) -> u64 {
    let mut random = Random::new(options.seed);
    let mut tally = Tally::default();
    let start = Instant::now();
    while tally.edges.iter().sum::<u64>() < options.count && tally.differences < 100 {
        let length = random.pick(&[20, 200, 2000]);
        let length = 1 + random.below(length);
        play(&mut random, &mut tally, Trial::fresh(), 0, length);
        for _ in 0..20 {
            let state = made::state(&mut random);
            let length = 1 + random.below(6);
            play(&mut random, &mut tally, Trial::made(state), 1, length);
        }
    }
    let seconds = start.elapsed().as_secs_f64();
    let edges: u64 = tally.edges.iter().sum();
    tally.partings.print();
    let missing = tally.rare.print(edges);
    println!(
        "sensor: seed {}, {} runs, {} edges from the fresh state, {} from made ones, each with 5 questions after it, \
         {seconds:.1} s, {:.2} million edges a second",
        options.seed,
        tally.runs,
        tally.edges[0],
        tally.edges[1],
        edges as f64 / seconds / 1e6
    );
    tally.differences + missing
}

fn play(random: &mut Random, tally: &mut Tally, mut trial: Trial, origin: usize, length: u64) {
    tally.runs += 1;
    let mut source = Source::new(random);
    for _ in 0..length {
        let given = source.next(random, trial.state(), trial.tx());
        tally.edges[origin] += 1;
        if !step(tally, &mut trial, &given) {
            return;
        }
    }
}

/// Makes an edge everywhere; false where something differs.
fn step(tally: &mut Tally, trial: &mut Trial, given: &Given) -> bool {
    let before = trial.state();
    let Err(difference) = trial.edge(given) else {
        for parted in trial.parted.drain(..) {
            tally.partings.add(|| parted.call.to_string(), parted.ends, Some(parted.row));
        }
        tally.rare.look(before, given, trial.left(), trial.accepted());
        return true;
    };
    tally.differences += 1;
    if tally.differences <= SHOWN {
        println!("difference: {difference}");
        println!("  before: {:?}", before.to_le_bytes());
        println!("  given: {given:?}");
    }
    false
}
