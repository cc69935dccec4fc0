//! Address maps.

unsafe extern "C" {
    // A Rattle slice is a pointer and then a length.
    fn map_unit(text: *const u8, length: usize, address: u16) -> u64;
    fn made_unit(words: &[u64; 64], count: usize, address: u16) -> u64;
    fn made_read(words: &[u64; 64], count: usize, units: usize, address: u16) -> u64;
    fn made_write(words: &[u64; 64], count: usize, units: usize, address: u16, value: u8, shows: u8) -> u64;
}

/// The number of a refusal, and the line or the address that goes with it.
pub type Refusal = (u8, u16);

/// A number below 65536, or a refusal.
fn parted(number: u64) -> Result<u16, Refusal> {
    match number >> 16 {
        0 => Ok(number as u16),
        refusal => Err((refusal as u8, number as u16)),
    }
}

/// The unit of an address by the map of a text, 4 for none.
pub fn of_text(text: &[u8], address: u16) -> Result<u16, Refusal> {
    // SAFETY: a proved function without a `requires`, declared with the types that it has.
    parted(unsafe { map_unit(text.as_ptr(), text.len(), address) })
}

/// The same by a map that is handed in: `crates/map_calls` says what its words mean.
pub fn of_words(words: &[u64; 64], count: usize, address: u16) -> Result<u16, Refusal> {
    // SAFETY: as above.
    parted(unsafe { made_unit(words, count, address) })
}

/// The byte that a read through a map gives, of four peripherals whose SAR holds 10, 20, 30 and 40, at 1 s of the trace
/// player's clock set.
pub fn read(words: &[u64; 64], count: usize, units: usize, address: u16) -> Result<u16, Refusal> {
    // SAFETY: as above.
    parted(unsafe { made_read(words, count, units, address) })
}

/// What the register of that address shows in one of these peripherals after a write to it.
pub fn write(
    words: &[u64; 64],
    count: usize,
    units: usize,
    address: u16,
    value: u8,
    shows: u8,
) -> Result<u16, Refusal> {
    // SAFETY: as above.
    parted(unsafe { made_write(words, count, units, address, value, shows) })
}
