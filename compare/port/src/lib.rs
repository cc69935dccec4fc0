//! The port, through the exported functions of the crates probe, player, search, sensor_calls, bench, bench_calls, map
//! and map_calls.
pub mod bench;
pub mod iic;
pub mod map;
pub mod player;
pub mod search;
pub mod sensor;
use words::calls::{Answer, Call, End};
use words::layout::{Args, Out, Set};

// A Rattle `&[u64; N]` is a pointer to N words, which nothing else writes during the call. Each returns the number of its
// refusal, 0 for none.
unsafe extern "C" {
    fn probe_answer(number: u64, set: &Set, args: &Args, out: &mut Out) -> u64;
    fn probe_new_clocks(args: &Args, out: &mut Out) -> u64;
    fn probe_advance_system(set: &Set, args: &Args, out: &mut Out) -> u64;
    fn probe_turn(number: u64, set: &Set, args: &Args, out: &mut Out) -> u64;
    /// The time of an edge, for the benchmark. Where it is refused nothing is written.
    pub fn probe_after(
        seconds: u64,
        fraction: u64,
        numerator: u64,
        denominator: u64,
        edges: u64,
        out: &mut [u64; 2],
    ) -> u64;
    /// The count before a limit, for the benchmark. Where it is refused nothing is written.
    pub fn probe_edges_before(
        seconds: u64,
        fraction: u64,
        numerator: u64,
        denominator: u64,
        limit_seconds: u64,
        limit_fraction: u64,
        out: &mut [u64; 1],
    ) -> u64;
}

/// The port's answer to a call.
pub fn answer(call: Call, set: &Set, args: &Args, out: &mut Answer) {
    let words = &mut out.words;
    // SAFETY: proved functions without a `requires`, declared with the types that they have.
    let refusal = unsafe {
        match call {
            Call::ClocksNew => probe_new_clocks(args, words),
            Call::ClocksAdvanceSystem => probe_advance_system(set, args, words),
            Call::WaitPause | Call::WaitResume | Call::WaitSelect => probe_turn(call as u64, set, args, words),
            _ => probe_answer(call as u64, set, args, words),
        }
    };
    out.end = ended(refusal);
}

/// How a call ended that returned the number.
fn ended(refusal: u64) -> End {
    match refusal {
        0 => End::Done,
        n => End::Refused(n as u8),
    }
}
