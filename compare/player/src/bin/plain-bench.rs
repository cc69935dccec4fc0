//! Plays the script of standard input on so many units and prints the answer lines: `plain-bench UNITS`. Other arguments
//! are places of answer lines, from 1: an overflow there is that of a half count, 13, which the Rust doesn't tell from 7.
use plain_player::{bench, trace_clocks};
use std::env;
use std::io::{self, Read, Write};
use std::process::ExitCode;

fn main() -> ExitCode {
    match play() {
        Ok(()) => ExitCode::SUCCESS,
        Err(reason) => {
            eprintln!("plain-bench: {reason}");
            ExitCode::FAILURE
        }
    }
}

fn play() -> Result<(), String> {
    let mut numbers = env::args().skip(1).map(|word| word.parse().map_err(|e| format!("{word}: {e}")));
    let units = numbers.next().ok_or("plain-bench UNITS [ANSWER-LINE..]")??;
    let half_counts = numbers.collect::<Result<_, String>>()?;
    let mut script = Vec::new();
    io::stdin().lock().read_to_end(&mut script).map_err(|e| e.to_string())?;
    let played = bench::watched(&mut (), half_counts, units, Some(&trace_clocks()), &script, usize::MAX);
    io::stdout().lock().write_all(&played.bytes).map_err(|e| e.to_string())?;
    match played.refusal {
        0 => Ok(()),
        6 => Err("6, fewer than 80 free bytes".to_string()),
        15 => Err("15, the number of peripherals isn't 1 to 4".to_string()),
        number => Err(format!("{number}, more than 65536 visits")),
    }
}
