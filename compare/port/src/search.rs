//! The search for the shortest run of lines.

unsafe extern "C" {
    // A Rattle slice is a pointer and then a length.
    fn shortest_run(trace: *const u8, length: usize, number: u8, limit: u16) -> u64;
}

/// The first line and the length of the shortest run that draws the number, or the refusal.
pub fn shortest(trace: &[u8], number: u8, limit: u16) -> Result<(usize, usize), u8> {
    // SAFETY: a proved function without a `requires`, declared with the types that it has.
    let found = unsafe { shortest_run(trace.as_ptr(), trace.len(), number, limit) };
    match found >> 16 {
        0 => Err(found as u8),
        first => Ok((first as usize, (found & 0xffff) as usize)),
    }
}
