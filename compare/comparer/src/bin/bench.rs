//! Times `Clock::after` and `Clock::edges_before` of the port against the Rust's, on the same inputs in the same run,
//! and `play_trace` against the plain player on one trace; and a check and lookup of a full address map. Of the clocks either side is one call of an `extern "C"`
//! function for an input, which is not inlined. The Rust's clock is made once, as its users do; the port's is its three
//! values, handed over in each call.
use reference::time::{Clock, Time};
use std::hint::black_box;
use std::time::Instant;
use traffic::random::Random;

/// Inputs, those of a slice, and passes over them all. In a pass the port and the Rust take turns slice by slice, and
/// the best time of each slice counts: what else the machine does only adds to one.
const INPUTS: usize = 50_000;
const SLICE: usize = 500;
const PASSES: usize = 60;
const DAY: u64 = 86_400;
/// Lines of the trace, and how often it is played by each.
const LINES: usize = 1_000_000;
const PLAYS: usize = 5;
/// Numerator and denominator of the frequencies.
const RATES: [(u64, u64); 3] = [(3_686_400, 1), (32_768, 8), (6_000_000_000, 1)];

#[inline(never)]
extern "C" fn rust_after(clock: &Clock, edges: u64, out: &mut [u64; 2]) -> u64 {
    match clock.after(edges) {
        Ok(t) => {
            *out = words::layout::halves(t.raw());
            0
        }
        // Past the last time, which is all that it refuses.
        Err(_) => 7,
    }
}

#[inline(never)]
extern "C" fn rust_edges_before(clock: &Clock, seconds: u64, fraction: u64, out: &mut [u64; 1]) -> u64 {
    *out = [clock.edges_before(Time::from_raw(words::layout::joined(seconds, fraction)))];
    0
}

/// One number for a call's answer: that of its refusal and the words that it wrote.
fn told<const N: usize>(call: impl FnOnce(&mut [u64; N]) -> u64) -> u64 {
    let mut out = [0; N];
    let refusal = call(&mut out);
    out.iter().fold(refusal, |sum, word| sum.wrapping_add(*word))
}

/// Nanoseconds for some calls, and the sum of the answers.
fn timed<T: Copy>(inputs: &[T], call: impl Fn(T) -> u64) -> (u128, u64) {
    let start = Instant::now();
    let mut sum = 0u64;
    for input in inputs {
        sum = sum.wrapping_add(call(black_box(*input)));
    }
    (start.elapsed().as_nanos(), sum)
}

/// Nanoseconds a call of the port and of the Rust.
fn race<T: Copy>(inputs: &[T], port: impl Fn(T) -> u64, rust: impl Fn(T) -> u64) -> Result<[f64; 2], String> {
    let mut best = vec![[u128::MAX; 2]; inputs.len().div_ceil(SLICE)];
    for _ in 0..PASSES {
        for (slice, best) in inputs.chunks(SLICE).zip(&mut best) {
            let (ours, our_sum) = timed(slice, &port);
            let (theirs, their_sum) = timed(slice, &rust);
            if our_sum != their_sum {
                return Err(format!("the answers part: {our_sum:#x} and {their_sum:#x}"));
            }
            *best = [best[0].min(ours), best[1].min(theirs)];
        }
    }
    Ok([0, 1].map(|side| best.iter().map(|slice| slice[side]).sum::<u128>() as f64 / inputs.len() as f64))
}

fn row(name: &str, span: &str, rate: (u64, u64), [port, rust]: [f64; 2]) {
    let hz = format!("{}/{}", rate.0, rate.1);
    println!("{name:<20}{hz:>14} {span:<14}{port:>8.1}{rust:>8.1}{:>8.2}", port / rust);
}

/// Seconds that a call takes, and what it answers.
fn seconds<T>(call: impl FnOnce() -> T) -> (f64, T) {
    let start = Instant::now();
    let answer = black_box(call());
    (start.elapsed().as_secs_f64(), answer)
}

fn median(mut times: Vec<f64>) -> f64 {
    times.sort_by(f64::total_cmp);
    times[times.len() / 2]
}

/// A trace, by the port and the plain player in turns.
fn traces() -> Result<(), String> {
    let trace = traffic::trace::trace(1, LINES);
    let mut out = vec![1; LINES * plain_player::ROOM];
    let written = port::player::play(&trace, &mut out);
    let expected = plain_player::play_like(&out[..written], &trace, usize::MAX).bytes;
    let (mut port, mut plain) = (Vec::new(), Vec::new());
    for _ in 0..PLAYS {
        let (time, written) = seconds(|| port::player::play(&trace, &mut out));
        if out[..written] != expected {
            return Err("the answer lines part".to_string());
        }
        port.push(time);
        plain.push(seconds(|| plain_player::play(&trace, usize::MAX)).0);
    }
    println!("seconds for a trace of {LINES} lines: port {port:.3?}, plain player {plain:.3?}");
    let [port, plain] = [port, plain].map(median);
    println!("medians: port {port:.3}, plain player {plain:.3}, ratio {:.2}", port / plain);
    Ok(())
}

fn clocks() -> Result<(), String> {
    println!(
        "nanoseconds a call, over {INPUTS} random inputs, the best of {PASSES} passes for each {SLICE} of them; \
        port and Rust take turns"
    );
    println!("{:<20}{:>14} {:<14}{:>8}{:>8}{:>8}", "function", "Hz", "inputs", "port", "Rust", "ratio");
    let mut random = Random::new(1);
    for rate in RATES {
        let (numerator, denominator) = rate;
        let start = Time::from_raw(5 << 64);
        let clock = Clock::new(start, numerator, denominator).map_err(|e| format!("{e:?}"))?;
        for (span, seconds) in [("in a day", DAY), ("in 100 years", 36_525 * DAY)] {
            let most = (u128::from(seconds) * u128::from(numerator) / u128::from(denominator)) as u64;
            let edges: Vec<u64> = (0..INPUTS).map(|_| random.below(most)).collect();
            let times = race(
                &edges,
                // SAFETY: a proved function without a `requires`, declared with the types that it has.
                |n| told(|out| unsafe { port::probe_after(5, 0, numerator, denominator, n, out) }),
                |n| told(|out| rust_after(&clock, n, out)),
            )?;
            row("Clock::after", span, rate, times);
            let limits: Vec<(u64, u64)> = (0..INPUTS).map(|_| (5 + random.below(seconds), random.word())).collect();
            let times = race(
                &limits,
                // SAFETY: as above.
                |(s, f)| told(|out| unsafe { port::probe_edges_before(5, 0, numerator, denominator, s, f, out) }),
                |(s, f)| told(|out| rust_edges_before(&clock, s, f, out)),
            )?;
            row("Clock::edges_before", span, rate, times);
        }
    }
    Ok(())
}

/// A map of 64 lines of so many addresses each, the last of which takes the rest: its words and its text.
fn full_map(width: u64) -> ([u64; 64], String) {
    let line = |k: u64| (k * width, if k == 63 { 0xffff } else { (k + 1) * width - 1 }, k % 4);
    let lines: [_; 64] = core::array::from_fn(|k| line(k as u64));
    let words = lines.map(|(first, last, unit)| first | last << 16 | unit << 32);
    (words, lines.iter().map(|(first, last, unit)| format!("{first:04x}\t{last:04x}\t{unit}\n")).collect())
}

/// The best time for each slice of the addresses, over all passes.
fn best(addresses: &[u16], call: impl Fn(u16) -> u64) -> f64 {
    let slice = |slice| (0..PASSES).map(|_| timed(slice, &call).0).min().unwrap_or(0);
    addresses.chunks(SLICE).map(slice).sum::<u128>() as f64 / addresses.len() as f64
}

fn maps() -> Result<(), String> {
    println!("nanoseconds a check and lookup in a map of 64 lines, over {INPUTS} random addresses");
    println!("{:<20}{:>12}{:>12}", "addresses of a line", "handed in", "as a text");
    let mut random = Random::new(1);
    let addresses: Vec<u16> = (0..INPUTS).map(|_| random.word() as u16).collect();
    for width in [1, 32, 1024] {
        let (words, text) = full_map(width);
        let found = |unit: Result<u16, _>| unit.map_or(9, u64::from);
        let handed = best(&addresses, |address| found(port::map::of_words(&words, 64, address)));
        let read = best(&addresses, |address| found(port::map::of_text(text.as_bytes(), address)));
        println!("{width:<20}{handed:>12.1}{read:>12.1}");
    }
    Ok(())
}

fn main() -> std::process::ExitCode {
    match clocks().and_then(|()| maps()).and_then(|()| traces()) {
        Ok(()) => std::process::ExitCode::SUCCESS,
        Err(reason) => {
            eprintln!("bench: {reason}");
            std::process::ExitCode::FAILURE
        }
    }
}
