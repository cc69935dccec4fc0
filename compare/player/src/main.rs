//! Plays the trace of standard input and prints its answer lines, or with the argument `busy` its reports, or with
//! `wave` its signals as a VCD file. Other arguments are numbers of lines: an overflow there is that of a half count, 13, which the Rust doesn't tell from 7.
use plain_player::{header, Busy, Player, Wave, MOST_LINES};
use std::env;
use std::io::{self, BufRead, Write};
use std::process::ExitCode;

fn main() -> ExitCode {
    match play() {
        Ok(()) => ExitCode::SUCCESS,
        Err(reason) => {
            eprintln!("plain-player: {reason}");
            ExitCode::FAILURE
        }
    }
}

fn play() -> io::Result<()> {
    let mut words = env::args().skip(1).peekable();
    if words.next_if_eq("busy").is_some() {
        let mut busy = Busy::default();
        return each_line(|line, out| busy.play(line, out));
    }
    if words.next_if_eq("wave").is_some() {
        io::stdout().write_all(&header())?;
        let mut wave = Wave::default();
        return each_line(|line, out| wave.play(line, out));
    }
    let numbers = words.map(|number| number.parse().map_err(|e| io::Error::other(format!("{number}: {e}"))));
    let mut player = Player::told(numbers.collect::<io::Result<_>>()?);
    each_line(|line, out| player.play(line, out))
}

fn each_line(mut play: impl FnMut(&[u8], &mut Vec<u8>)) -> io::Result<()> {
    let mut input = io::stdin().lock();
    let mut output = io::BufWriter::new(io::stdout().lock());
    let (mut line, mut answer) = (Vec::new(), Vec::new());
    for _ in 0..MOST_LINES {
        line.clear();
        if input.read_until(b'\n', &mut line)? == 0 {
            break;
        }
        answer.clear();
        play(&line, &mut answer);
        output.write_all(&answer)?;
    }
    output.flush()
}
