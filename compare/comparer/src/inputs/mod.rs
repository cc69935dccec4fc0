//! Inputs: at random, steered towards what is rare, and every boundary.
mod focus;
mod fresh;
pub mod grid;
mod numbers;
mod objects;
use focus::Focus;
#[cfg(test)]
pub use fresh::counted;
pub use fresh::plain_set;
pub use numbers::{divider, start, word};
pub use objects::{moved, set};
use traffic::random::Random;
use words::calls::{Function, Kind};
use words::layout::{self, Args, Set};

/// `Frequencies::default`.
pub const FREQUENCIES: [u64; 3] = [3_686_400, 32_768, 1_310_720];

/// Random arguments of a function, each near what the ones before it are about.
pub fn arguments(random: &mut Random, function: &Function, set: &Set, args: &mut Args) {
    let mut focus = Focus::new(set);
    let mut at = 0;
    for kind in function.takes {
        let out = &mut args[at..at + kind.words()];
        argument(random, *kind, &focus, set, out);
        focus.look(*kind, out, set);
        at += kind.words();
    }
}

fn argument(random: &mut Random, kind: Kind, focus: &Focus, set: &Set, out: &mut [u64]) {
    match kind {
        Kind::Time => out.copy_from_slice(&layout::halves(numbers::time(random, focus))),
        Kind::Span => {
            let left = numbers::step(random, u128::MAX - focus.now);
            let span = if random.once_in(2) { left } else { numbers::time(random, focus) };
            out.copy_from_slice(&layout::halves(span));
        }
        Kind::Hz => {
            let hz = numbers::frequency(random);
            out[0] = numbers::or_zero(random, hz, 40);
        }
        Kind::Denominator => {
            let denominator = numbers::denominator(random);
            out[0] = numbers::or_zero(random, denominator, 40);
        }
        Kind::Clock => {
            let damaged = random.once_in(40);
            out.copy_from_slice(&objects::clock(random, damaged));
        }
        Kind::Domain => {
            let damaged = random.once_in(40);
            out.copy_from_slice(&objects::domain(random, damaged));
        }
        Kind::PrescalerS => objects::prescaler(random, layout::STAGES_S, out),
        Kind::PrescalerW => objects::prescaler(random, layout::STAGES_W, out),
        Kind::Tap => out.copy_from_slice(&objects::tap(random)),
        Kind::Wait => out.copy_from_slice(&objects::wait(random, set)),
        Kind::Frequencies => out.copy_from_slice(&objects::frequencies(random)),
        Kind::Edges => out[0] = numbers::more(random, focus),
        Kind::Parent => out[0] = numbers::parent(random, focus),
        Kind::Tick => out[0] = numbers::tick(random, focus),
        Kind::Phase => out[0] = numbers::word(random) & 0xffff,
        Kind::Stage => out[0] = numbers::stage(random, focus.stages),
        Kind::Divide => out[0] = numbers::divider(random),
    }
}
