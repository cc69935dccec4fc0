//! Maps at random: partitions of the addresses, with a gap or an overlap or a damaged line as often as not.
use super::table::{Line, NONE};
use traffic::random::Random;

/// Lines in any order in which each address lies once, at most 64.
pub fn partition(random: &mut Random) -> Vec<(u16, u16, u8)> {
    let most = random.pick(&[1, 2, 3, 8, 63, 64]);
    let wanted = random.below(most) + 1;
    let mut firsts = vec![0u16];
    while (firsts.len() as u64) < wanted {
        let first = match random.below(4) {
            0 => random.below(5) as u16,
            1 => 65535 - random.below(5) as u16,
            2 => firsts[random.below(firsts.len() as u64) as usize].wrapping_add(1),
            _ => random.word() as u16,
        };
        if !firsts.contains(&first) {
            firsts.push(first);
        }
    }
    firsts.sort_unstable();
    let lasts = firsts[1..].iter().map(|first| first - 1).chain([65535]);
    let mut lines: Vec<_> = firsts.iter().copied().zip(lasts).map(|(f, l)| (f, l, unit(random))).collect();
    for place in (1..lines.len()).rev() {
        lines.swap(place, random.below(place as u64 + 1) as usize);
    }
    lines
}

fn unit(random: &mut Random) -> u8 {
    random.below(u64::from(NONE) + 1) as u8
}

/// The same with some of it moved by an address, left out, doubled or added.
pub fn spoilt(random: &mut Random, lines: &mut Vec<(u16, u16, u8)>) {
    for _ in 0..random.below(3) {
        let Some(place) = (!lines.is_empty()).then(|| random.below(lines.len() as u64) as usize) else {
            return;
        };
        match random.below(7) {
            0 => lines[place].0 = lines[place].0.wrapping_add(1),
            1 => lines[place].0 = lines[place].0.wrapping_sub(1),
            2 => lines[place].1 = lines[place].1.wrapping_add(1),
            3 => lines[place].1 = lines[place].1.wrapping_sub(1),
            4 => drop(lines.remove(place)),
            5 => lines.push(lines[place]),
            _ => lines.push((random.word() as u16, random.word() as u16, unit(random))),
        }
    }
}

/// The words of a map, with what stands behind the lines at random, and a count that is that of the lines or isn't.
pub fn words(random: &mut Random, lines: &[(u16, u16, u8)]) -> ([u64; 64], usize) {
    let mut words = [0; 64].map(|_: u64| random.word());
    for (word, (first, last, unit)) in words.iter_mut().zip(lines) {
        let unit = match *unit {
            NONE => 255,
            unit => u64::from(unit),
        };
        *word = u64::from(*first) | u64::from(*last) << 16 | unit << 32 | random.word() << 40;
    }
    if random.once_in(8) {
        let place = random.below(64) as usize;
        words[place] ^= 1 << random.below(40);
    }
    let count = match random.below(20) {
        0 => random.below(67) as usize,
        1 => 64 + random.any_length() as usize % 1000,
        2 => usize::MAX - random.below(3) as usize,
        _ => lines.len(),
    };
    (words, count)
}

/// The lines that words and a count mean, of which a 65th is none.
pub fn meant(words: &[u64; 64], count: usize) -> Vec<Line> {
    let mut lines: Vec<Line> = words.iter().take(count).map(|word| Some(meant_by(*word))).collect();
    if count > 64 {
        lines.push(None);
    }
    lines
}

fn meant_by(word: u64) -> (u16, u16, u8) {
    let unit = match (word >> 32) as u8 {
        255 => NONE,
        NONE => 5,
        unit => unit,
    };
    (word as u16, (word >> 16) as u16, unit)
}
