//! Two units enabled and gated on in the first moment and ever since, with no call of either refused, deadlines included,
//! show equal filtered levels after every pass, whatever else their scripts write: IICRST may be set, too.
use plain_player::bench::{Deadline, Watch, MOST_UNITS};
use plain_player::Call;
use reference::mcu::iic::Iic;
use reference::Time;
use words::iic;

/// What a wrong claim does without. It is for the tests, which show that each premise is needed.
#[derive(Clone, Copy, PartialEq, Eq, Debug)]
#[cfg_attr(not(test), allow(dead_code))]
pub enum Without {
    Nothing,
    RefusedVisit,
    RefusedDeadline,
    /// Gated on, or enabled, in the first moment and now, and not ever since.
    Gate,
    Enable,
}

pub struct Levels {
    without: Without,
    /// Whether the first moment's lines are played.
    began: bool,
    gates: [bool; MOST_UNITS],
    /// The units of which all of it was so until now.
    fit: [bool; MOST_UNITS],
    /// Passes of a pair that the claim speaks of, and those of them after which a filtered level was low.
    pub pairs: u64,
    pub low: u64,
    /// How it was broken, if it was.
    pub broken: Option<String>,
}

impl Levels {
    pub fn new(without: Without) -> Self {
        let none = [false; MOST_UNITS];
        Self { without, began: false, gates: none, fit: [true; MOST_UNITS], pairs: 0, low: 0, broken: None }
    }

    /// Whether a unit is gated on, and whether it is enabled.
    fn on(&self, unit: usize, iic: &Iic) -> [bool; 2] {
        [self.gates[unit], iic.peek(0) & 0x80 != 0]
    }
}

/// The levels behind the filter.
fn filtered(iic: &Iic) -> [u64; 2] {
    let words = words::of(iic);
    [words[iic::FILTERED], words[iic::FILTERED + 1]]
}

impl Watch for Levels {
    fn asked(&mut self, unit: usize, _present: Option<Time>, deadline: Deadline, _units: &mut [Iic]) {
        self.fit[unit] &= deadline.is_ok() || self.without == Without::RefusedDeadline;
    }

    fn called(&mut self, unit: usize, _now: Time, call: Call, refused: bool, units: &mut [Iic]) {
        if let Call::Gate(gate) = call {
            self.gates[unit] = gate;
        }
        let let_off = call == Call::Visit && self.without == Without::RefusedVisit;
        let [gate, enabled] = self.on(unit, &units[unit]);
        let on = (gate || self.without == Without::Gate) && (enabled || self.without == Without::Enable);
        self.fit[unit] &= (!refused || let_off) && (!self.began || on);
    }

    fn played(&mut self, units: &[Iic]) {
        if !self.began {
            units.iter().enumerate().for_each(|(unit, iic)| self.fit[unit] &= self.on(unit, iic) == [true; 2]);
            self.began = true;
        }
    }

    fn passed(&mut self, units: &[Iic]) {
        let fit = |(unit, iic): &(usize, &Iic)| self.fit[*unit] && self.on(*unit, iic) == [true; 2];
        let fit: Vec<(usize, [u64; 2])> =
            units.iter().enumerate().filter(fit).map(|(unit, iic)| (unit, filtered(iic))).collect();
        for pair in fit.windows(2) {
            self.pairs += 1;
            self.low += u64::from(pair[0].1 != [1; 2]);
            if pair[0].1 != pair[1].1 && self.broken.is_none() {
                self.broken = Some(format!("units and filtered levels {pair:?}"));
            }
        }
    }
}
