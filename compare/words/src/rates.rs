//! Rate sets (document 02, (f)): where their words lie behind the others of a state, and the default.

/// In half counts, by bits 0 to 2 of ICCR1; doubled by bit 3.
pub const HALF_CLOCKS: usize = 8;
/// In half counts, by bits 2 and 3 of ICCR1.
pub const MONITORS: usize = 4;
/// In clocks, by bit 3 of ICCR1.
pub const SETUPS: usize = 2;
/// The words of a set, a number each in that order.
pub const RATES: usize = HALF_CLOCKS + MONITORS + SETUPS;

#[derive(Clone, Copy, PartialEq, Eq, Debug)]
pub struct Rates {
    pub half_clocks: [u16; HALF_CLOCKS],
    pub monitors: [u16; MONITORS],
    pub setups: [u16; SETUPS],
}

impl Rates {
    /// Document 01's numbers, which the Rust has as constants.
    pub const DEFAULT: Self =
        Self { half_clocks: [28, 40, 48, 64, 80, 100, 112, 128], monitors: [15, 39, 35, 83], setups: [10, 20] };

    pub fn words(&self) -> [u64; RATES] {
        let mut numbers = self.half_clocks.iter().chain(&self.monitors).chain(&self.setups);
        core::array::from_fn(|_| numbers.next().map_or(0, |number| u64::from(*number)))
    }

    /// The set whose words lie there.
    pub fn of(words: &[u64]) -> Self {
        let at = |from: usize, place: usize| words[from + place] as u16;
        Self {
            half_clocks: core::array::from_fn(|place| at(0, place)),
            monitors: core::array::from_fn(|place| at(HALF_CLOCKS, place)),
            setups: core::array::from_fn(|place| at(HALF_CLOCKS + MONITORS, place)),
        }
    }
}
