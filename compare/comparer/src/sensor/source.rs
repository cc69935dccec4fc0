//! Where the edges of a run come from, and what the rest of the sensor does meanwhile.
use super::master::Master;
use traffic::random::Random;
use words::sensor::{self, Given, Rest, State, LOW};

/// How the levels of a run are made.
enum Levels {
    /// A master's, on wires that the sensor pulls too.
    Of(Master),
    /// Any, but the previous SCL is the SCL before.
    Noise,
    /// Any.
    Loose,
}

pub struct Source {
    levels: Levels,
    /// SCL and SDA as the wires have settled, less the sensor's pull.
    wires: [bool; 2],
    now: u128,
    rest: Rest,
    /// Once in so many edges the rest of the sensor changes, or refuses.
    calm: u64,
}

fn bit(random: &mut Random) -> bool {
    random.once_in(2)
}

fn maybe(random: &mut Random) -> Option<u8> {
    (!random.once_in(4)).then(|| random.word() as u8)
}

fn rest(random: &mut Random) -> Rest {
    let mut seldom = || random.once_in(8);
    Rest { selected: seldom(), unpowered: seldom(), not_ready: seldom(), quiet: random.once_in(3) }
}

impl Source {
    pub fn new(random: &mut Random) -> Self {
        let levels = match random.below(8) {
            0 => Levels::Noise,
            1 => Levels::Loose,
            _ => Levels::Of(Master::default()),
        };
        let calm = random.pick(&[8, 100, 1000, u64::MAX]);
        Self { levels, wires: [true, true], now: random.any_length().into(), rest: Rest::default(), calm }
    }

    fn any(&mut self, random: &mut Random) -> [bool; 2] {
        [bit(random), bit(random)]
    }

    /// The previous levels and the current ones.
    fn pair(&mut self, random: &mut Random, state: State) -> [[bool; 2]; 2] {
        let released = sensor::field(state, LOW) == 0;
        let pulled = |[scl, sda]: [bool; 2]| [scl, sda && released];
        let before = self.wires;
        let pair = match &mut self.levels {
            Levels::Of(master) => {
                self.wires = master.next(random);
                [pulled(before), pulled(self.wires)]
            }
            Levels::Noise => {
                self.wires = self.any(random);
                [[before[0], bit(random)], self.wires]
            }
            Levels::Loose => [self.any(random), self.any(random)],
        };
        // A glitch on a line now and then.
        if self.calm < u64::MAX && random.once_in(self.calm * 4) {
            return [pair[0], [pair[1][0], bit(random)]];
        }
        pair
    }

    /// The next edge of a run, at a state with a byte to send.
    pub fn next(&mut self, random: &mut Random, state: State, tx: Option<u8>) -> Given {
        let [previous, current] = self.pair(random, state);
        self.now = self.now.wrapping_add(u128::from(random.any_length()));
        let mut change = || self.calm < u64::MAX && random.once_in(self.calm);
        let (stirs, converts, refuses, swaps) = (change(), change(), change(), change());
        if stirs {
            // It comes to rest soon.
            self.rest = if self.rest == Rest::default() { rest(random) } else { Rest::default() };
        }
        let after = match (converts, refuses) {
            (true, _) => Ok(rest(random)),
            (false, true) => Err(random.word() as u8),
            (false, false) => Ok(self.rest),
        };
        let written = match random.below(self.calm.min(16)) {
            0 => Err(random.word() as u8),
            1 => Ok(true),
            _ => Ok(false),
        };
        Given {
            tx: if swaps { maybe(random) } else { tx },
            previous,
            current,
            now: self.now,
            rest: self.rest,
            converted: (!random.once_in(16)).then_some(after),
            written,
            prepared: maybe(random),
        }
    }
}
