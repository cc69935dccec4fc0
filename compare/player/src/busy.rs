//! How busy the bus is (document 02, requests (d) and (l)): in how many lines a flag rose, kept line by line and counted
//! anew after each.
use crate::Player;
use std::io::Write;

/// The latest lines that count.
const LATEST: usize = 64;

#[derive(Default)]
pub struct Busy {
    player: Player,
    /// Of each line so far, whether a flag rose.
    rose: Vec<bool>,
}

impl Busy {
    /// Plays one line and puts its report behind what is there.
    pub fn play(&mut self, line: &[u8], out: &mut Vec<u8>) {
        let before = self.player.status();
        self.player.play(line, &mut Vec::new());
        self.rose.push(rose(before, self.player.status()));
        writeln!(out, "{}\t{}", self.rose.len(), report(&self.rose)).expect("a vector takes all");
    }
}

/// Whether a bit is 0 before and 1 after.
fn rose(before: u8, after: u8) -> bool {
    (0..8).any(|bit| before >> bit & 1 == 0 && after >> bit & 1 == 1)
}

/// In how many of the latest lines a flag rose.
pub fn report(rose: &[bool]) -> usize {
    rose[rose.len().saturating_sub(LATEST)..].iter().filter(|rose| **rose).count()
}
