//! The trace player.

unsafe extern "C" {
    // A Rattle slice is a pointer and then a length.
    fn play_trace(trace: *const u8, length: usize, out: *mut u8, room: usize) -> usize;
    fn busy_trace(trace: *const u8, length: usize, out: *mut u8, room: usize) -> usize;
    fn wave_trace(trace: *const u8, length: usize, out: *mut u8, room: usize) -> usize;
}

/// Plays a trace into a lent buffer, and returns how many bytes were written.
pub fn play(trace: &[u8], out: &mut [u8]) -> usize {
    // SAFETY: a proved function without a `requires`, declared with the types that it has. Of an empty slice nothing is
    // read or written.
    unsafe { play_trace(trace.as_ptr(), trace.len(), out.as_mut_ptr(), out.len()) }
}

/// The same with the reports on how busy the bus is.
pub fn busy(trace: &[u8], out: &mut [u8]) -> usize {
    // SAFETY: as above.
    unsafe { busy_trace(trace.as_ptr(), trace.len(), out.as_mut_ptr(), out.len()) }
}

/// The same with the signals, behind the header of a VCD file.
pub fn wave(trace: &[u8], out: &mut [u8]) -> usize {
    // SAFETY: as above.
    unsafe { wave_trace(trace.as_ptr(), trace.len(), out.as_mut_ptr(), out.len()) }
}
