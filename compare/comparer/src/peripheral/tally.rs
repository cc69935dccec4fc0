//! Counts of calls, by where their run began and how they ended.
use super::rare::Rare;
use super::rates::Counts;
use crate::differences::peripheral::Origin;
use crate::report::Partings;
use words::calls::End;

/// The refusals that the peripheral draws.
const NUMBERS: [u8; 10] = [1, 2, 7, 8, 9, 10, 11, 12, 13, 14];

/// Ends of calls by the number of the refusal.
pub type Refusals = [u64; NUMBERS.len()];

/// Where a run begins, by the number of the origin.
const ORIGINS: [&str; 3] = ["the default", "accepted states", "refused states"];

pub fn name(origin: Origin) -> &'static str {
    ORIGINS[origin as usize]
}

#[derive(Default)]
pub struct Tally {
    /// By origin, runs and their calls; each call is followed by thirteen that can't change the state.
    pub runs: [u64; ORIGINS.len()],
    pub calls: [u64; ORIGINS.len()],
    pub refused: Refusals,
    pub deadlines: Refusals,
    pub validated: Refusals,
    pub partings: Partings,
    pub rare: Rare,
    /// The rate sets of runs.
    pub rates: Counts,
    pub differences: u64,
}

/// How often a refusal was counted.
pub fn refusals(counts: &Refusals, number: u8) -> u64 {
    NUMBERS.iter().zip(counts).filter(|(n, _)| **n == number).map(|(_, count)| count).sum()
}

/// Counts an end; an error for a refusal that the peripheral doesn't draw.
pub fn count(refusals: &mut Refusals, end: End) -> Result<(), String> {
    if let End::Refused(number) = end {
        let place = NUMBERS.iter().position(|n| *n == number);
        refusals[place.ok_or(format!("{number}, a refusal that the peripheral doesn't draw"))?] += 1;
    }
    Ok(())
}

impl Tally {
    pub fn calls(&self) -> u64 {
        self.calls.iter().sum()
    }

    pub fn print(&self) {
        for (origin, name) in ORIGINS.iter().enumerate() {
            println!("from {name:<16}{:>12} runs{:>14} calls", self.runs[origin], self.calls[origin]);
        }
        print!("{:<10}", "refused");
        NUMBERS.iter().for_each(|number| print!("{number:>12}"));
        println!();
        for (name, row) in [("calls", self.refused), ("deadline", self.deadlines), ("validate", self.validated)] {
            print!("{name:<10}");
            row.iter().for_each(|count| print!("{count:>12}"));
            println!();
        }
        self.partings.print();
    }

    /// Prints the last line of a part.
    pub fn close(&self, name: &str, seed: u64, seconds: f64) {
        let calls = self.calls();
        let rate = calls as f64 / seconds / 1e6;
        println!(
            "{name}: seed {seed}, {calls} calls, each with 13 questions after it, {seconds:.1} s, {rate:.2} million calls \
             a second"
        );
    }
}
