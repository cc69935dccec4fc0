//! States made at random, of which `validate` accepts some.
use traffic::random::Random;
use words::sensor::{self, State, ACKNOWLEDGE, IDLE, MASTER_ACKNOWLEDGE, READ, RECEIVE};

/// A number near those that matter, or any.
fn near(random: &mut Random, of: &[u8]) -> u8 {
    if random.once_in(4) {
        random.word() as u8
    } else {
        random.pick(of)
    }
}

fn bit(random: &mut Random) -> u8 {
    random.below(2) as u8
}

pub fn state(random: &mut Random) -> State {
    let phase = random.pick(&[IDLE, RECEIVE, RECEIVE, ACKNOWLEDGE, READ, READ, MASTER_ACKNOWLEDGE]);
    let (first, second) = match phase {
        RECEIVE => (random.below(3) as u8, 0),
        ACKNOWLEDGE => (random.below(4) as u8, near(random, &[0, 1, 2, 3])),
        READ => (near(random, &[0, 1, 6, 7, 8, 9]), 0),
        MASTER_ACKNOWLEDGE => random.pick(&[(0, 0), (1, 0), (1, 1)]),
        _ => (0, 0),
    };
    let pointer = near(random, &[0, 1, 126, 127, 128, 255]);
    // As a rule the fields that the phase doesn't use are 0.
    let used = phase == RECEIVE || random.once_in(4);
    let bits = if used { near(random, &[0, 1, 6, 7, 8, 254, 255]) } else { 0 };
    let shift = if used { random.word() as u8 } else { 0 };
    let shift = if bits < 8 && !random.once_in(4) { shift & ((1 << bits) - 1) } else { shift };
    sensor::state([phase, first, second, pointer, bits, shift, bit(random)])
}
