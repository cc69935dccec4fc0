//! Lines that a player should refuse, as a rule.
use crate::random::Random;
use crate::trace;
use words::iic::{self, Call};

/// A bad line, without a newline, after one at the time `last`.
pub fn line(random: &mut Random, last: u128) -> Vec<u8> {
    worse(random, last, good)
}

/// A line that is made for a time: at an earlier one, or spoilt.
pub fn worse(random: &mut Random, last: u128, good: impl FnOnce(&mut Random, u128) -> Vec<u8>) -> Vec<u8> {
    let early = random.once_in(3);
    let now = match random.below(4) {
        _ if !early => last.saturating_add(1 + u128::from(random.any_length())),
        0 => 0,
        1 => last.saturating_sub(u128::from(random.any_length())),
        _ => last.saturating_sub(1),
    };
    let mut line = good(random, now);
    if !early {
        spoil(random, &mut line);
    }
    line.iter_mut().filter(|byte| **byte == b'\n').for_each(|byte| *byte = b' ');
    line
}

/// Any call at a time.
fn good(random: &mut Random, now: u128) -> Vec<u8> {
    let calls = [Call::Read, Call::Write, Call::InputPins, Call::SetGate, Call::Advance, Call::Deadline];
    let call = random.pick(&calls);
    let most = if matches!(call, Call::InputPins | Call::SetGate) { 2 } else { 256 };
    let operands = [random.below(most), random.below(most)];
    let mut line = Vec::new();
    trace::put((call, iic::args(now, operands)), &mut line);
    line
}

fn spoil(random: &mut Random, line: &mut Vec<u8>) {
    let place = random.below(line.len() as u64) as usize;
    let any = random.word() as u8;
    match random.below(14) {
        0 => line.clear(),
        1 => line.resize(64, b' '),
        2 => line.resize(65, b'0'),
        3 => line.resize(65 + random.below(300) as usize, any),
        4 => line.truncate(place),
        5 => line[place] = any,
        6 => line[place] ^= 1 << random.below(8),
        7 => drop(line.remove(place)),
        8 => line.make_ascii_uppercase(),
        9 => line.extend(random.pick(&[&b"\t"[..], b"\r", b"\t0", b"0", b" "])),
        10 => line.splice(..0, random.pick(&[&b"0"[..], b"+", b" ", b"\t", b"-"]).iter().copied()).for_each(drop),
        11 => {
            let seconds: &[u8] = random.pick(&[b"18446744073709551616", b"99999999999999999999", b""]);
            let end = line.iter().position(|byte| *byte == b'\t').unwrap_or(0);
            line.splice(..end, seconds.iter().copied()).for_each(drop);
        }
        12 => line.iter_mut().filter(|byte| **byte == b'\t').for_each(|byte| *byte = b' '),
        _ => line.iter_mut().for_each(|byte| *byte = random.word() as u8),
    }
}
