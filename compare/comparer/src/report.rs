//! Counts of the calls of a function by their ends, and the differences found.
use crate::judge::{Expected, Judge};
use crate::shrink::SHOWN;
use std::collections::BTreeMap;
use words::calls::{End, Function};
use words::layout::{Args, Set};

/// A trap of the Rust, whose files lie in the build folder, is an end like any other: only other panics are printed.
pub fn hide_traps() {
    std::panic::set_hook(Box::new(|panic| {
        if !panic.location().is_some_and(|at| at.file().contains("/out/rust/")) {
            eprintln!("compare: {panic}");
        }
    }));
}

/// Differences of a part.
pub struct Differences {
    pub count: u64,
    /// How many of them are made smaller and printed.
    pub shown: u64,
}

impl Default for Differences {
    fn default() -> Self {
        Self { count: 0, shown: SHOWN }
    }
}

impl Differences {
    /// Counts one, and tells whether it is one of those that are shown.
    pub fn add(&mut self, what: &str) -> bool {
        self.count += 1;
        let shown = self.count <= self.shown;
        if shown {
            println!("difference: {what}");
        }
        shown
    }
}

/// How often the port and the builds of the Rust ended a call in ways that aren't the same: by the call, by the ends of the
/// plain build, the checked one and the port, and by the row of docs/DIFFERENCES.md that allows it, or none.
#[derive(Default)]
pub struct Partings(BTreeMap<(String, String, &'static str), u64>);

impl Partings {
    /// Counts a call, if there is a row for it; the Rust has no end where it wasn't asked.
    pub fn add(&mut self, call: impl Fn() -> String, ends: [Option<End>; 3], row: Option<&'static str>) {
        if let Some(row) = row {
            let ends = ends.map(|end| end.map_or("not asked".to_string(), named)).join(", ");
            *self.0.entry((call(), ends, row)).or_default() += 1;
        }
    }

    pub fn print(&self) {
        println!("{:<32}{:<48}{:>12}  row of docs/DIFFERENCES.md", "partings", "plain, checked, port", "calls");
        for ((call, ends, row), calls) in &self.0 {
            println!("{call:<32}{ends:<48}{calls:>12}  {row}");
        }
    }

    #[cfg(test)]
    pub fn is_empty(&self) -> bool {
        self.0.is_empty()
    }
}

fn named(end: End) -> String {
    match end {
        End::Done => "answered".to_string(),
        End::Refused(number) => number.to_string(),
        End::Trapped(trap) => format!("trapped ({trap:?})"),
    }
}

/// The refusals that the functions below the peripheral draw.
const NUMBERS: [u8; 6] = [1, 2, 3, 7, 8, 11];

#[derive(Clone, Default)]
pub struct Tally {
    pub calls: u64,
    answered: u64,
    refused: [u64; NUMBERS.len()],
    trapped: u64,
    pub differences: u64,
}

impl Tally {
    pub fn add(&mut self, judge: &Judge, expected: Expected, agrees: bool) {
        self.calls += 1;
        let mut differs = !agrees;
        match judge.port.end {
            End::Done => self.answered += 1,
            End::Refused(number) => match NUMBERS.iter().position(|n| *n == number) {
                Some(place) => self.refused[place] += 1,
                None => {
                    if agrees {
                        println!("difference: {number}, a refusal that no function draws");
                    }
                    differs = true;
                }
            },
            End::Trapped(trap) => unreachable!("the port ends no call in a trap: {trap:?}"),
        }
        self.differences += u64::from(differs);
        let trapped = matches!(judge.checked.end, End::Trapped(_)) && matches!(expected, Expected::Parting(_));
        self.trapped += u64::from(trapped);
    }
}

pub fn table(rows: &[(&Function, Tally)]) {
    print!("{:<27}{:>12}{:>12}", "function", "calls", "answered");
    for number in NUMBERS {
        print!("{:>10}", format!("refused {number}"));
    }
    println!("{:>10}{:>13}", "traps", "differences");
    for (function, tally) in rows {
        print!("{:<27}{:>12}{:>12}", function.name, tally.calls, tally.answered);
        for count in tally.refused {
            print!("{count:>10}");
        }
        println!("{:>10}{:>13}", tally.trapped, tally.differences);
    }
}

/// One difference, with the input that shows it.
pub fn difference(function: &Function, set: &Set, args: &Args, judge: &Judge, expected: Expected) {
    println!("difference: {}", function.name);
    let mut at = 0;
    for kind in function.takes {
        println!("  {kind:?}: {}", shown(&args[at..at + kind.words()]));
        at += kind.words();
    }
    if function.set {
        println!("  set: {}", shown(set));
    }
    println!("  expected: {expected:?}");
    for (name, answer) in [("port", &judge.port), ("plain", &judge.plain), ("checked", &judge.checked)] {
        println!("  {name}: {:?} {}", answer.end, shown(&answer.words[1..=function.gives]));
    }
}

pub fn shown(words: &[u64]) -> String {
    let each: Vec<String> = words.iter().map(|word| format!("{word:#x}")).collect();
    each.join(" ")
}
