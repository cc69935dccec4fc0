//! Compares the port with the unmodified Rust, call by call: on every boundary, then at random.
mod bench;
mod differences;
mod examples;
mod flags;
mod hosts;
mod inputs;
mod judge;
mod maps;
mod options;
mod part;
mod peripheral;
mod program;
mod report;
mod searches;
mod sensor;
mod shrink;
mod side;
mod traces;
use options::Options;
use std::process::ExitCode;
use words::calls;

fn main() -> ExitCode {
    let words: Vec<String> = std::env::args().skip(1).collect();
    let parts = match options::read(words.iter().cloned()) {
        Ok(parts) => parts,
        Err(reason) => {
            eprintln!("compare: {reason}");
            return ExitCode::from(2);
        }
    };
    report::hide_traps();
    let differences = match &parts[..] {
        [(name, options)] => compare(name, options),
        _ => side::compare(&words, &parts.iter().map(|(name, _)| *name).collect::<Vec<_>>()),
    };
    println!("{}{differences}", side::LAST);
    ExitCode::from(u8::from(differences != 0))
}

fn compare(name: &str, options: &Options) -> u64 {
    match name {
        "time" => part::compare(name, calls::TIME, options),
        "clocks" => part::compare(name, calls::CLOCKS, options),
        "hosts" => hosts::compare(options),
        "flags" => flags::compare(options),
        "traces" => told(traces::compare(options)),
        "shortest" => told(searches::compare(options)),
        "sensor" => sensor::compare(options),
        "bench" => told(bench::compare(options)),
        "maps" => told(maps::compare(options)),
        "rates" => peripheral::compare_rates(options),
        _ => peripheral::compare(options),
    }
}

/// Of a part that may not run at all: why it didn't is a difference.
fn told(differences: Result<u64, String>) -> u64 {
    differences.unwrap_or_else(|reason| {
        println!("difference: {reason}");
        1
    })
}
