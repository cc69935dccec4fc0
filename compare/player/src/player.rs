//! One peripheral and its clocks, played line by line.
use crate::answer::{self, ended, trace_clocks, Shown, Value};
use crate::line;
use reference::mcu::clocks::Clocks;
use reference::mcu::iic::Iic;
use reference::Time;
use std::collections::BTreeSet;
use std::io::Write;

pub struct Player {
    iic: Iic,
    clocks: Clocks,
    last: Option<Time>,
    lines: usize,
    /// Lines whose overflow, if they draw one, is that of a half count.
    half_counts: BTreeSet<usize>,
}

impl Default for Player {
    fn default() -> Self {
        Self { iic: Iic::default(), clocks: trace_clocks(), last: None, lines: 0, half_counts: BTreeSet::new() }
    }
}

impl Player {
    /// One that is told which lines' overflows are those of a half count.
    pub fn told(half_counts: BTreeSet<usize>) -> Self {
        Self { half_counts, ..Self::default() }
    }

    /// The state after the lines played.
    pub fn iic(&self) -> &Iic {
        &self.iic
    }

    /// ICSR after the lines played.
    pub fn status(&self) -> u8 {
        self.iic.peek(answer::STATUS)
    }

    /// The time of the last line that wasn't refused 4 or 5.
    pub fn last(&self) -> Option<Time> {
        self.last
    }

    /// When the peripheral wants to be visited, where it can tell.
    pub fn deadline(&self) -> Option<Time> {
        self.iic.deadline(&self.clocks).ok().flatten()
    }

    /// Plays one line, with or without its newline, and puts its answer line behind what is there.
    pub fn play(&mut self, line: &[u8], out: &mut Vec<u8>) {
        self.lines += 1;
        let (refusal, value) = ended(self.answer(line), self.half_counts.contains(&self.lines));
        writeln!(out, "{}\t{refusal}\t{value}\t{}", self.lines, Shown(&self.iic)).expect("a vector takes all");
    }

    /// Plays one line, with or without its newline, and gives its refusal, or 0.
    pub fn draw(&mut self, line: &[u8]) -> u8 {
        self.answer(line).err().unwrap_or(0)
    }

    fn answer(&mut self, line: &[u8]) -> Result<Value, u8> {
        let line = line.strip_suffix(b"\n").unwrap_or(line);
        let (now, call) = line::parse(line).ok_or(answer::MALFORMED)?;
        if self.last.is_some_and(|last| now < last) {
            return Err(answer::EARLIER);
        }
        self.last = Some(now);
        answer::answer(&mut self.iic, &self.clocks, now, call)
    }
}
