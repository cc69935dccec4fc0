//! Every run of consecutive lines of a trace, played apart (document 02, (h) and (i)).
use crate::answer::OVERFLOW;
use crate::Player;

/// What the last line of each run draws.
pub struct Runs {
    lines: usize,
    /// By the length of the run, from 1, and then by its first line. Empty for a trace of too many lines to play.
    drawn: Vec<Vec<u8>>,
}

impl Runs {
    /// Plays every run of a trace of at most so many lines, each from the default. Of a run whose last line overflows it
    /// is told whether that is 7 or 13, which the Rust doesn't tell.
    pub fn of(trace: &[u8], most: usize, overflow: impl Fn(&[&[u8]]) -> u8) -> Self {
        let lines: Vec<&[u8]> = trace.split_inclusive(|byte| *byte == b'\n').collect();
        let lengths = if lines.len() > most { 0 } else { lines.len() };
        let drawn = |lines: &[&[u8]]| match last_drawn(lines) {
            OVERFLOW => overflow(lines),
            number => number,
        };
        let drawn = (1..=lengths).map(|length| lines.windows(length).map(drawn).collect()).collect();
        Self { lines: lines.len(), drawn }
    }

    pub fn lines(&self) -> usize {
        self.lines
    }

    /// The first line, from 1, and the length of the shortest run whose last line draws the number, the earliest of these;
    /// or 17 for a trace of more lines than the limit, and then 18 where no run draws it. A line answered 0 draws none.
    pub fn shortest(&self, number: u8, limit: usize) -> Result<(usize, usize), u8> {
        if self.lines > limit {
            return Err(17);
        }
        assert_eq!(self.drawn.len(), self.lines, "the runs of the trace were not played");
        let found = self.drawn.iter().enumerate().find_map(|(shorter, drawn)| {
            let before = drawn.iter().position(|drawn| *drawn == number && number != 0)?;
            Some((before + 1, shorter + 1))
        });
        found.ok_or(18)
    }
}

/// What the last of some lines draws, played from the default.
fn last_drawn(lines: &[&[u8]]) -> u8 {
    let mut player = Player::default();
    lines.iter().map(|line| player.draw(line)).last().unwrap_or(0)
}
