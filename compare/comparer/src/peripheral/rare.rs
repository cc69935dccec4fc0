//! What is rare, and must come up all the same: a run that misses some of it isn't aimed as it should be any more.
use super::runs::Asked;
use super::tally::{self, Tally};
use crate::differences::peripheral::Origin;
use crate::options::Options;
use words::calls::End;
use words::iic::{self, Call, State};
use words::layout::{self, Args};

/// Random calls from which on all of it must have come up.
pub const ENOUGH: u64 = 1_000_000;
/// As many half counts below 2^64, or fewer, are near it: `validate` refuses them.
const NEAR: u64 = 1023;

const CONDITIONS: [&str; 7] =
    ["StartRelease", "StartHigh", "StartHold", "StopLow", "StopHigh", "StopRelease", "StopDetect"];
const HOLDS: [&str; 2] = ["Transmit", "Receive"];
/// The flags of the status, high to low.
const FLAGS: [&str; 8] = ["TDRE", "TEND", "RDRF", "NACKF", "STOP", "AL", "AAS", "ADZ"];

/// The refusals that a call draws from the default.
const REFUSED: [u8; 3] = [7, 8, 13];

/// How often it came up in runs from the default.
#[derive(Default)]
pub struct Rare {
    conditions: [u64; CONDITIONS.len()],
    holds: [u64; HOLDS.len()],
    flags: [u64; FLAGS.len()],
    synchronous: u64,
    near_the_top: u64,
    /// Reads of ICDRR at the very time of the eighth fall.
    at_eighth_fall: u64,
    /// Visits one unit before the deadline, at it, and one unit after it.
    visits: [u64; 3],
    /// Interrupts by a retained enable alone.
    retained: u64,
    /// Calls refused with each of `REFUSED`.
    refused: [u64; REFUSED.len()],
}

/// A call of a run, and what came of it.
pub struct Seen<'a> {
    pub call: Call,
    pub args: &'a Args,
    pub end: End,
    pub before: &'a State,
    /// The deadline before the call.
    pub deadline: Option<u128>,
    pub after: &'a State,
    pub asked: &'a Asked,
}

/// Something that must come up, where runs begin so that it can, and how often it did.
struct Need {
    what: String,
    from: &'static str,
    count: u64,
}

impl Rare {
    /// Looks at a call from the default.
    pub fn look(&mut self, seen: &Seen) {
        let state = seen.after;
        if state[iic::CONDITION] != 0 {
            self.conditions[state[iic::CONDITION + 1] as usize] += 1;
        }
        if state[iic::HOLD] != 0 {
            self.holds[state[iic::HOLD + 1] as usize] += 1;
        }
        for (place, count) in self.flags.iter_mut().enumerate() {
            *count += state[iic::STATUS] >> (7 - place) & 1;
        }
        self.synchronous += state[iic::ADDRESS] & 1;
        let near = |wait: usize| state[wait] != 0 && state[wait + 1] >= u64::MAX - NEAR;
        self.near_the_top += u64::from(near(iic::CLOCK_WAIT) || near(iic::MONITOR_WAIT));
        self.retained += u64::from(seen.asked.retained_alone);
        for (place, number) in REFUSED.into_iter().enumerate() {
            self.refused[place] += u64::from(seen.end == End::Refused(number));
        }
        self.look_at_time(seen);
    }

    fn look_at_time(&mut self, seen: &Seen) {
        let now = layout::time_at(seen.args, 0);
        let fell = seen.before[iic::EIGHTH_FALL] != 0 && layout::time_at(seen.before, iic::EIGHTH_FALL + 1) == now;
        let reads = seen.call == Call::Read && seen.args[2] & 7 == 7;
        self.at_eighth_fall += u64::from(reads && fell);
        if let (Call::Advance, Some(deadline)) = (seen.call, seen.deadline) {
            let ends = [now.checked_add(1), Some(now), now.checked_sub(1)];
            for (count, end) in self.visits.iter_mut().zip(ends) {
                *count += u64::from(end == Some(deadline));
            }
        }
    }

    fn needs(&self, tally: &Tally) -> Vec<Need> {
        let mut needs = Vec::new();
        let mut add = |what: String, from: &'static str, count: u64| needs.push(Need { what, from, count });
        for origin in [Origin::Default, Origin::Accepted, Origin::Refused] {
            let from = if origin == Origin::Default { "default" } else { "made" };
            add(format!("from {}", tally::name(origin)), from, tally.calls[origin as usize]);
        }
        for number in [1, 2, 9, 10] {
            add(format!("{number} at a call"), "made", tally::refusals(&tally.refused, number));
        }
        for (number, count) in REFUSED.into_iter().zip(self.refused) {
            add(format!("{number} at a call"), "default", count);
        }
        for (number, from) in [(9, "default"), (10, "made"), (11, "made"), (12, "default")] {
            add(format!("{number} at validate"), from, tally::refusals(&tally.validated, number));
        }
        let named = |names: &[&str], kind: &str| names.iter().map(|name| format!("{kind} {name}")).collect::<Vec<_>>();
        let visits = named(&["1 before a deadline", "at a deadline", "1 after a deadline"], "visit");
        let fields = [named(&CONDITIONS, "condition"), named(&HOLDS, "hold"), named(&FLAGS, "flag"), visits].concat();
        let counts = [&self.conditions[..], &self.holds, &self.flags, &self.visits].concat();
        fields.into_iter().zip(counts).for_each(|(what, count)| add(what, "default", count));
        add("synchronous mode".to_string(), "default", self.synchronous);
        add("half count near 2^64".to_string(), "default", self.near_the_top);
        add("ICDRR at the eighth fall".to_string(), "default", self.at_eighth_fall);
        add("retained enable alone".to_string(), "default", self.retained);
        needs
    }

    /// Prints how often each came up, and names what should have and didn't; how much that is.
    pub fn print(&self, tally: &Tally, options: &Options) -> u64 {
        let needs: Vec<Need> = self.needs(tally).into_iter().filter(|need| options.begins(need.from)).collect();
        println!("what is rare, and how often it came up");
        for line in needs.chunks(4) {
            let cells: Vec<String> = line.iter().map(|need| format!("{:<26}{:>10}", need.what, need.count)).collect();
            println!("{}", cells.join("   "));
        }
        let missing: Vec<&Need> = needs.iter().filter(|need| options.count >= ENOUGH && need.count == 0).collect();
        for need in &missing {
            println!("difference: never came up: {}", need.what);
        }
        missing.len() as u64
    }
}

#[cfg(test)]
mod tests {
    use super::*;
    use crate::options;

    /// Of nothing at all each is missing, by name; in a short run nothing needs to come up, and from one origin not all.
    #[test]
    fn what_never_came_up_is_missing() {
        let missing = |count: &str, from: &str| {
            let words = ["--part", "iic", "--count", count, "--from", from].map(String::from);
            let [(_, options)] = &options::read(words.into_iter()).unwrap()[..] else {
                panic!("one part is asked for")
            };
            Rare::default().print(&Tally::default(), options)
        };
        assert_eq!(missing("999999", "all"), 0);
        assert_eq!(["all", "default", "made"].map(|from| missing("1000000", from)), [38, 30, 8]);
    }

    /// The visits beside and at a deadline, and the read at the eighth fall, are told from their neighbours.
    #[test]
    fn times_are_told_apart() {
        let asked = Asked { validated: End::Done, deadline_end: End::Done, deadline: None, retained_alone: false };
        let mut rare = Rare::default();
        let mut state = port::iic::fresh();
        state[iic::EIGHTH_FALL..iic::STALE_RELEASE].copy_from_slice(&[1, 0, 9]);
        for now in 7..=11 {
            for call in [Call::Advance, Call::Read] {
                let args = iic::args(now, [7, 0]);
                let (before, after) = (&state, &state);
                let deadline = Some(9);
                rare.look(&Seen { call, args: &args, end: End::Done, before, deadline, after, asked: &asked });
            }
        }
        assert_eq!((rare.visits, rare.at_eighth_fall), ([1, 1, 1], 1));
    }
}
