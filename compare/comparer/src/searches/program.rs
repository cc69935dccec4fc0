//! What the program shortest is asked and says.
use super::Found;
use crate::program::is_line;

/// Arguments that aren't a number from 0 to 255.
pub const REFUSED: &[&[&str]] = &[
    &[],
    &[""],
    &["256"],
    &["300"],
    &["1000"],
    &["18446744073709551617"],
    &["-1"],
    &["+1"],
    &["x"],
    &["4 "],
    &["4", "4"],
    &["--leaflet"],
    &["--leaflet", "256"],
    &["--leaflet", "4", "4"],
    &["--leaflets", "4"],
    &["--Leaflet", "4"],
    &["4", "--leaflet"],
];

/// Whether the program says so: a run on standard output, or a refusal in one line on standard error.
pub fn says(out: &str, error: &str, found: Found) -> bool {
    match found {
        Ok((first, length)) => error.is_empty() && out == format!("{first}\t{length}\n"),
        Err(number) => out.is_empty() && is_line(error) && error.starts_with(&format!("shortest: {number}, ")),
    }
}
