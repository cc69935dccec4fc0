//! Plays traces, as document 01 has them ("The trace player"), and scripts for several peripherals (document 02, (g)), over
//! the peripheral of docs/src.
mod answer;
pub mod bench;
mod busy;
mod line;
mod player;
mod runs;
mod wave;
pub use answer::trace_clocks;
pub use busy::Busy;
pub use line::{parse_script, Call, ScriptCall};
pub use player::Player;
pub use runs::Runs;
pub use wave::{header, Wave};

/// After so many lines no more is read.
pub const MOST_LINES: usize = 1_000_000;
/// With fewer free bytes than this no line is played.
pub const ROOM: usize = 80;
/// The place of the refusal in an answer line.
const REFUSAL: usize = 1;

/// What became of a whole trace.
#[derive(Clone, PartialEq, Eq, Debug)]
pub struct Played {
    /// The answer lines, the reports or the signals.
    pub bytes: Vec<u8>,
    /// How many lines were played.
    pub lines: usize,
    /// 6 where the room ended before the trace, else 0.
    pub refusal: u8,
}

/// Plays a trace into at most so many bytes.
pub fn play(trace: &[u8], capacity: usize) -> Played {
    play_by(Player::default(), trace, capacity)
}

/// The same, where overflows are 13 on the lines that some answers have so: the Rust doesn't tell them from 7.
pub fn play_like(answers: &[u8], trace: &[u8], capacity: usize) -> Played {
    play_by(Player::told(answer::half_counts(answers, REFUSAL)), trace, capacity)
}

fn play_by(mut player: Player, trace: &[u8], capacity: usize) -> Played {
    each_line(trace, capacity, |line, out| player.play(line, out))
}

/// The reports on a trace, in at most so many bytes: for each line its number and how busy the bus is.
pub fn busy(trace: &[u8], capacity: usize) -> Played {
    let mut busy = Busy::default();
    each_line(trace, capacity, |line, out| busy.play(line, out))
}

/// The signals of a trace, in at most so many bytes, without the header of a VCD file.
pub fn wave(trace: &[u8], capacity: usize) -> Played {
    let mut wave = Wave::default();
    each_line(trace, capacity, |line, out| wave.play(line, out))
}

fn each_line(trace: &[u8], capacity: usize, mut play: impl FnMut(&[u8], &mut Vec<u8>)) -> Played {
    let mut played = Played { bytes: Vec::new(), lines: 0, refusal: 0 };
    for line in trace.split_inclusive(|byte| *byte == b'\n').take(MOST_LINES) {
        if capacity - played.bytes.len() < ROOM {
            played.refusal = 6;
            break;
        }
        play(line, &mut played.bytes);
        played.lines += 1;
    }
    played
}

#[cfg(test)]
mod tests;
