//! How often runs meet what the claim is about: one that misses some of it shows too little.
use super::claim::{Reads, StatusWrite};
use words::iic::TDRE;

/// Calls from which on all of it must have come up.
const ENOUGH: u64 = 1_000_000;

/// What a status write met, by name.
const KINDS: [&str; 16] = [
    "cleared TDRE",
    "cleared TEND",
    "cleared RDRF",
    "cleared NACKF",
    "cleared STOP",
    "cleared AL",
    "cleared AAS",
    "cleared ADZ",
    "raised TDRE",
    "before any read, with a flag set",
    "with a flag set that was not shown",
    "with a flag shown, written 1",
    "with a flag shown, written 0, and left set",
    "refused",
    "refused, and cleared a flag",
    "refused, and raised TDRE",
];

#[derive(Default)]
pub struct Met {
    pub runs: u64,
    pub calls: u64,
    pub refused: u64,
    writes: u64,
    kinds: [u64; KINDS.len()],
}

impl Met {
    pub fn look(&mut self, write: &StatusWrite, reads: &Reads) {
        self.writes += 1;
        let StatusWrite { value, was, is, answered } = write;
        let (cleared, shown) = (write.cleared(), reads.shown());
        let mut met = [false; KINDS.len()];
        for (place, met) in met[..8].iter_mut().enumerate() {
            *met = cleared >> (7 - place) & 1 != 0;
        }
        met[8..].copy_from_slice(&[
            write.raised() == TDRE,
            !reads.any() && *was != 0,
            was & !shown & !value != 0,
            was & shown & value != 0,
            was & is & shown & !value != 0,
            !answered,
            !answered && cleared != 0,
            !answered && write.raised() == TDRE,
        ]);
        self.kinds.iter_mut().zip(met).for_each(|(count, met)| *count += u64::from(met));
    }

    /// What never came up.
    pub fn missing(&self) -> impl Iterator<Item = &'static str> + '_ {
        KINDS.into_iter().zip(self.kinds).filter(|(_, count)| *count == 0).map(|(kind, _)| kind)
    }

    /// Prints how often each came up, and names what should have in so many calls and didn't; how much that is.
    pub fn print(&self, count: u64) -> u64 {
        println!("{} runs, {} calls refused, {} status writes, among them", self.runs, self.refused, self.writes);
        for line in KINDS.into_iter().zip(self.kinds).collect::<Vec<_>>().chunks(2) {
            let cells: Vec<String> = line.iter().map(|(kind, count)| format!("{kind:<44}{count:>10}")).collect();
            println!("{}", cells.join("   "));
        }
        if count < ENOUGH {
            return 0;
        }
        self.missing().map(|kind| println!("difference: no status write: {kind}")).count() as u64
    }
}
