//! What is compared with the plain bench: the port, and in the tests benches that are wrong.
use words::bench::Left;
use words::layout::Set;

pub trait Ours {
    /// Whether it tells the overflow of a half count, 13, from others.
    const TELLS_HALF_COUNTS: bool;
    /// Plays a script over a clock set.
    fn over_set(&self, units: usize, set: &Set, script: &[u8], out: &mut [u8]) -> Left;
    /// Plays a script over the clock set of traces, and returns how many bytes were written.
    fn script(&self, units: usize, script: &[u8], out: &mut [u8]) -> usize;
}

pub struct Port;

impl Ours for Port {
    const TELLS_HALF_COUNTS: bool = true;

    fn over_set(&self, units: usize, set: &Set, script: &[u8], out: &mut [u8]) -> Left {
        port::bench::over_set(units, set, script, out)
    }

    fn script(&self, units: usize, script: &[u8], out: &mut [u8]) -> usize {
        port::bench::script(units, script, out)
    }
}
