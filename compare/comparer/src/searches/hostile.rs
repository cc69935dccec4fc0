//! Traces that no host leaves.
use crate::traces::ALPHABET;
use traffic::random::Random;

/// The lines of a trace out of order, doubled, moved to the end of time or damaged; or bytes at random.
pub fn spoilt(random: &mut Random, trace: &[u8]) -> Vec<u8> {
    let mut lines: Vec<&[u8]> = trace.split_inclusive(|byte| *byte == b'\n').collect();
    match random.below(6) {
        0 => (0..lines.len()).for_each(|place| {
            let other = random.below(lines.len() as u64) as usize;
            lines.swap(place, other);
        }),
        1 => {
            let half = lines[..lines.len() / 2].to_vec();
            lines = [half.clone(), half].concat();
        }
        2 => return late(random, trace),
        3 => return (0..trace.len()).map(|_| random.pick(ALPHABET)).collect(),
        4 => return (0..trace.len() / 20).map(|_| random.pick(b"\nx")).collect(),
        _ => return damaged(random, trace),
    }
    lines.concat()
}

/// The lines from some line on in the last second that there is.
fn late(random: &mut Random, trace: &[u8]) -> Vec<u8> {
    let lines: Vec<&[u8]> = trace.split_inclusive(|byte| *byte == b'\n').collect();
    let (before, after) = lines.split_at(random.below(lines.len() as u64 + 1) as usize);
    let moved = after.iter().map(|line| match line.iter().position(|byte| *byte == b'\t') {
        Some(seconds) => [b"18446744073709551615", &line[seconds..]].concat(),
        None => line.to_vec(),
    });
    [before.concat(), moved.collect::<Vec<_>>().concat()].concat()
}

/// A byte in every fifty changed.
fn damaged(random: &mut Random, trace: &[u8]) -> Vec<u8> {
    trace.iter().map(|byte| if random.once_in(50) { random.pick(ALPHABET) } else { *byte }).collect()
}

/// One line in four lengthened by up to 2,000 bytes, and the first beyond what the program holds.
pub fn lengthened(random: &mut Random, trace: &[u8]) -> Vec<u8> {
    let mut out = Vec::new();
    for (place, line) in trace.split_inclusive(|byte| *byte == b'\n').enumerate() {
        let more = match random.below(4) {
            _ if place == 0 => 100_000,
            0 => random.below(2000) as usize,
            _ => 0,
        };
        let end = line.len() - usize::from(line.ends_with(b"\n"));
        out.extend([&line[..end], &vec![b'0'; more], &line[end..]].concat());
    }
    out
}
