//! What must come up in a run of the comparison.
use words::calls::End;
use words::sensor::{self, Effect, Given, Left, State, ACKNOWLEDGE, BITS, FIRST, IDLE, MASTER_ACKNOWLEDGE, PHASE};
use words::sensor::{POINTER, READ, RECEIVE, SECOND};

/// Edges from which on all of it must have come up.
const ENOUGH: u64 = 1_000_000;

const NAMES: [&str; 22] = [
    "starts",
    "starts in a quiet time",
    "stops",
    "blocked edges",
    "bytes dropped by a quiet time",
    "acknowledges going on in a quiet time",
    "addresses acknowledged for a write",
    "addresses acknowledged for a read",
    "addresses not acknowledged",
    "registers pointed at",
    "writes",
    "writes that began a quiet time",
    "writes refused",
    "conversions",
    "conversions refused",
    "conversions that blocked the edge",
    "bytes prepared",
    "bytes absent",
    "reads noted",
    "pointers raised from 7f to 00",
    "masters that acknowledged",
    "masters that did not",
];

#[derive(Default)]
pub struct Rare {
    counts: [u64; NAMES.len()],
    accepted: u64,
    edges: u64,
}

impl Rare {
    /// Looks at an edge, by the state before it and what it left.
    pub fn look(&mut self, before: State, given: &Given, left: &Left, accepted: bool) {
        self.edges += 1;
        self.accepted += u64::from(accepted);
        let (was, is) = (sensor::field(before, PHASE), sensor::field(left.state, PHASE));
        let first = sensor::field(left.state, FIRST);
        let whole = was == RECEIVE && sensor::field(before, BITS) == 7 && !left.cleared;
        let converted = left.effects[0] == Effect::Convert;
        let effect = left.effects[usize::from(converted)];
        let quiet = given.rest.quiet && !given.rest.blocked() && !left.cleared;
        let wrote = matches!(effect, Effect::Write(..));
        let prepared = matches!(effect, Effect::Prepare(_));
        let follows = |number: u8| whole && !wrote && is == ACKNOWLEDGE && first == number;
        let heard = |second: u8| {
            is == MASTER_ACKNOWLEDGE && first == 1 && sensor::field(left.state, SECOND) == second && was == is
        };
        let addressed = whole && sensor::field(before, FIRST) == 0;
        let kinds = [
            left.cleared && !given.current[1] && is == RECEIVE,
            left.cleared && !given.current[1] && is == IDLE,
            left.cleared && given.current[1],
            given.rest.blocked(),
            quiet && was != IDLE && was != ACKNOWLEDGE && is == IDLE,
            quiet && was == ACKNOWLEDGE && is == ACKNOWLEDGE && before != left.state,
            follows(0),
            follows(2),
            addressed && is == IDLE && !quiet && !given.rest.blocked() && given.current[0],
            follows(1),
            wrote,
            wrote && is == ACKNOWLEDGE && first == 3,
            wrote && matches!(left.end, End::Refused(_)),
            converted,
            converted && effect == Effect::Nothing && matches!(left.end, End::Refused(_)),
            converted && effect == Effect::Nothing && left.end == End::Done,
            prepared && left.tx.is_some(),
            prepared && left.tx.is_none(),
            matches!(effect, Effect::Acknowledge(_)),
            was == READ && sensor::field(before, POINTER) == 0x7f && sensor::field(left.state, POINTER) == 0,
            heard(1),
            heard(0),
        ];
        for (count, kind) in self.counts.iter_mut().zip(kinds) {
            *count += u64::from(kind);
        }
    }

    /// Prints how often each came up, and returns how many never did in a run that is long enough.
    pub fn print(&self, edges: u64) -> u64 {
        println!("{:<40}{:>14}", "states that `validate` accepts", self.accepted);
        println!("{:<40}{:>14}", "states that it refuses", self.edges - self.accepted);
        for (name, count) in NAMES.iter().zip(self.counts) {
            println!("{name:<40}{count:>14}");
        }
        let missing = self.counts.iter().filter(|count| **count == 0).count() as u64;
        if edges < ENOUGH {
            return 0;
        }
        if missing > 0 {
            println!("difference: {missing} of these never came up");
        }
        missing
    }
}
