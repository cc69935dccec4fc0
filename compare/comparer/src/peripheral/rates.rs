//! Rate sets (document 02, (f)): which are refused 14, and sets at random, at their limits and past them.
use traffic::random::Random;
use words::rates::{Rates, HALF_CLOCKS, MONITORS};

/// Half clocks and monitors, and setups.
const LENGTHS: std::ops::RangeInclusive<u16> = 15..=4096;
const CYCLES: std::ops::RangeInclusive<u16> = 1..=4096;

/// Why a set is refused.
const REASONS: [&str; 8] = [
    "half clock below 15",
    "half clock above 4096",
    "monitor below 15",
    "monitor above 4096",
    "setup below 1",
    "setup above 4096",
    "monitor not below",
    "monitor not below doubled",
];
/// As many of them are about the range of a number alone.
const RANGES: usize = 6;
/// What an accepted set can be at the limit in.
const LIMITS: [&str; 7] =
    ["half clock 16", "half clock 4096", "monitor 15", "monitor 4096", "setup 1", "setup 4096", "monitor 1 below"];
const DOUBLED: &str = "monitor 1 below doubled";

/// The least half clock of a monitor's group, doubled where bit 3 of ICCR1 is set: bit 0 of the group is bit 2 of ICCR1, bit
/// 1 is bit 3.
fn least(rates: &Rates, group: usize) -> u32 {
    let of_group = &rates.half_clocks[group % 2 * 4..][..4];
    u32::from(*of_group.iter().min().expect("four half clocks")) << (group / 2)
}

/// Whether some monitor of a group that is doubled, or isn't, is so.
fn some(rates: &Rates, doubled: bool, is: impl Fn(u32, u32) -> bool) -> bool {
    let groups = if doubled { 2..4 } else { 0..2 };
    groups.into_iter().any(|group| is(u32::from(rates.monitors[group]), least(rates, group)))
}

fn reasons(rates: &Rates) -> [bool; REASONS.len()] {
    let below = |numbers: &[u16], least: u16| numbers.iter().any(|number| *number < least);
    let above = |numbers: &[u16], most: u16| numbers.iter().any(|number| *number > most);
    [
        below(&rates.half_clocks, *LENGTHS.start()),
        above(&rates.half_clocks, *LENGTHS.end()),
        below(&rates.monitors, *LENGTHS.start()),
        above(&rates.monitors, *LENGTHS.end()),
        below(&rates.setups, *CYCLES.start()),
        above(&rates.setups, *CYCLES.end()),
        some(rates, false, |monitor, least| monitor >= least),
        some(rates, true, |monitor, least| monitor >= least),
    ]
}

/// Whether 14 is drawn.
pub fn refused(rates: &Rates) -> bool {
    reasons(rates).contains(&true)
}

fn limits(rates: &Rates) -> [bool; LIMITS.len() + 1] {
    let one_below = |doubled| some(rates, doubled, |monitor, least| monitor + 1 == least);
    [
        rates.half_clocks.contains(&(LENGTHS.start() + 1)),
        rates.half_clocks.contains(LENGTHS.end()),
        rates.monitors.contains(LENGTHS.start()),
        rates.monitors.contains(LENGTHS.end()),
        rates.setups.contains(CYCLES.start()),
        rates.setups.contains(CYCLES.end()),
        one_below(false),
        one_below(true),
    ]
}

/// A set that is accepted, at its limits as often as not.
pub fn accepted(random: &mut Random) -> Rates {
    let mut rates = Rates::DEFAULT;
    let longest = random.pick(&[100, 4096]);
    rates.half_clocks = rates.half_clocks.map(|number| {
        let any = 16 + random.below(longest - 15) as u16;
        random.pick(&[16, 17, number, any, any, any, 4095, 4096])
    });
    for group in 0..MONITORS {
        let most = (least(&rates, group) - 1).min(4096) as u16;
        let any = 15 + random.below(u64::from(most) - 14) as u16;
        rates.monitors[group] = random.pick(&[15, any, any, most, most]);
    }
    rates.setups = rates.setups.map(|number| {
        let any = 1 + random.below(longest) as u16;
        random.pick(&[1, 2, number, any, 4095, 4096])
    });
    rates
}

/// The default for every second run, else another set that is accepted, the same for a number.
pub fn of_run(number: u64) -> Rates {
    if number % 2 == 0 {
        return Rates::DEFAULT;
    }
    accepted(&mut Random::new(number))
}

/// A set that is refused, as a rule: one number of an accepted one is changed, or all are any.
fn spoilt(random: &mut Random) -> Rates {
    let mut rates = accepted(random);
    let group = random.below(MONITORS as u64) as usize;
    let half_clock = group % 2 * 4 + random.below(4) as usize;
    match random.below(8) {
        0 => rates.half_clocks[half_clock] = random.pick(&[0, 1, 14, 14, 14]),
        1 => rates.half_clocks[half_clock] = random.pick(&[4097, 4097, 4098, u16::MAX]),
        2 => rates.monitors[group] = random.pick(&[0, 1, 14, 14, 14]),
        3 => {
            rates.half_clocks = [4096; HALF_CLOCKS];
            rates.monitors[group] = random.pick(&[4096, 4097, 4097, 8191, u16::MAX]);
        }
        4 => rates.setups[group % 2] = random.pick(&[0, 0, 4097, 4097, u16::MAX]),
        5 => rates.monitors[group] = (least(&rates, group) + random.below(2) as u32).min(4096) as u16,
        6 => rates.half_clocks[half_clock] = (rates.monitors[group] >> (group / 2)).max(15),
        _ => {
            let any = |number: u16| number ^ (random.word() as u16 >> random.below(16));
            rates.half_clocks = rates.half_clocks.map(any);
        }
    }
    rates
}

pub fn random(random: &mut Random) -> Rates {
    if random.once_in(4) {
        return spoilt(random);
    }
    accepted(random)
}

/// How many sets were accepted, how many refused, and how often each limit and each reason came up by itself.
#[derive(Default)]
pub struct Counts {
    accepted: u64,
    refused: u64,
    limits: [u64; LIMITS.len() + 1],
    reasons: [u64; REASONS.len()],
}

impl Counts {
    pub fn add(&mut self, rates: &Rates) {
        let reasons = reasons(rates);
        // A half clock that is too short is below its monitor, too, or that is too short.
        let alone = |place: usize| (0..RANGES).all(|other| other == place || !reasons[other]);
        match refused(rates) {
            true => self.refused += 1,
            false => self.accepted += 1,
        }
        let met = limits(rates).map(|limit| limit && !refused(rates));
        self.limits.iter_mut().zip(met).for_each(|(count, met)| *count += u64::from(met));
        for (place, count) in self.reasons.iter_mut().enumerate() {
            *count += u64::from(reasons[place] && alone(place));
        }
    }

    /// Prints the counts, and returns those that are none.
    pub fn print(&self) -> Vec<&'static str> {
        println!(
            "rate sets: {} accepted, {} refused; at a limit, and refused for one reason alone",
            self.accepted, self.refused
        );
        let names = LIMITS.into_iter().chain([DOUBLED]).chain(REASONS);
        let counts: Vec<(&str, u64)> = names.zip(self.limits.into_iter().chain(self.reasons)).collect();
        for line in counts.chunks(4) {
            let cells: Vec<String> = line.iter().map(|(name, count)| format!("{name:<26}{count:>10}")).collect();
            println!("{}", cells.join("   "));
        }
        counts.into_iter().filter(|(_, count)| *count == 0).map(|(name, _)| name).collect()
    }
}

#[cfg(test)]
mod tests;
