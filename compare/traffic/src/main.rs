//! Prints a trace: `make-trace SEED LINES`.
use std::io::Write;
use std::process::ExitCode;

fn main() -> ExitCode {
    match make() {
        Ok(()) => ExitCode::SUCCESS,
        Err(reason) => {
            eprintln!("make-trace: {reason}");
            ExitCode::from(2)
        }
    }
}

fn make() -> Result<(), String> {
    let words: Vec<String> = std::env::args().skip(1).collect();
    let [seed, lines] = &words[..] else {
        return Err("make-trace SEED LINES".to_string());
    };
    let seed = seed.parse().map_err(|_| format!("not a seed: {seed}"))?;
    let lines = lines.parse().map_err(|_| format!("not a number of lines: {lines}"))?;
    let trace = traffic::trace::trace(seed, lines);
    std::io::stdout().write_all(&trace).map_err(|e| e.to_string())
}
