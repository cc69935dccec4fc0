//! Several peripherals on one pair of wires.
use words::bench::{Left, UNITS};
use words::iic::{State, STATE};
use words::layout::Set;

unsafe extern "C" {
    // A Rattle slice is a pointer and then a length.
    fn bench_script(units: usize, script: *const u8, length: usize, out: *mut u8, room: usize) -> usize;
    fn bench_over(
        units: usize,
        set: &Set,
        script: *const u8,
        length: usize,
        out: *mut u8,
        room: usize,
        done: &mut [u64; 2],
        first: &mut State,
        second: &mut State,
        third: &mut State,
        fourth: &mut State,
    ) -> u64;
}

/// Plays a script over the clock set of traces into a lent buffer, and returns how many bytes were written.
pub fn script(units: usize, script: &[u8], out: &mut [u8]) -> usize {
    // SAFETY: a proved function without a `requires`, declared with the types that it has. Of an empty slice nothing is
    // read or written.
    unsafe { bench_script(units, script.as_ptr(), script.len(), out.as_mut_ptr(), out.len()) }
}

/// The same over any clock set, and what it leaves.
pub fn over_set(units: usize, set: &Set, script: &[u8], out: &mut [u8]) -> Left {
    let mut done = [0; 2];
    let mut states = [[0; STATE]; UNITS];
    let [first, second, third, fourth] = &mut states;
    let (length, room) = (script.len(), out.len());
    // SAFETY: as above.
    let refusal = unsafe {
        bench_over(units, set, script.as_ptr(), length, out.as_mut_ptr(), room, &mut done, first, second, third, fourth)
    };
    Left { refusal, written: done[0], lines: done[1], states }
}
