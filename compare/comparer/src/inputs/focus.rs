//! What the arguments so far are about, so that the next ones lie near what matters to them.
use traffic::exact::Clock;
use words::calls::Kind;
use words::layout::{self, Set};

#[derive(Clone)]
pub struct Focus {
    pub clock: Clock,
    pub divide: u64,
    /// The prescaler's words, or none.
    prescaler: [u64; layout::PRESCALER_S],
    pub stages: u64,
    pub stage: u64,
    pub tick: u64,
    pub now: u128,
}

impl Focus {
    pub fn new(set: &Set) -> Self {
        let mut focus = Self {
            clock: [0; layout::CLOCK],
            divide: 1,
            prescaler: [0; layout::PRESCALER_S],
            stages: 13,
            stage: 0,
            tick: 0,
            now: 0,
        };
        focus.at_source(set, 0);
        focus
    }
    pub fn anchor(&self) -> u64 {
        self.prescaler[0]
    }
    /// What the stage has counted at the anchor.
    pub fn emitted(&self) -> u64 {
        match self.stage {
            1..=13 => self.prescaler[layout::DIVIDER + self.stage as usize - 1],
            _ => 0,
        }
    }
    fn at_source(&mut self, set: &Set, source: usize) {
        self.clock.copy_from_slice(&layout::domain(set, source)[..layout::CLOCK]);
    }
    fn at_prescaler(&mut self, words: &[u64]) {
        self.prescaler[..words.len()].copy_from_slice(words);
    }
    fn at_tap(&mut self, set: &Set, words: &[u64]) {
        self.at_source(set, words[0] as usize);
        self.divide = words[1];
        self.stage = 0;
        if words[1].is_power_of_two() {
            let zeros = u64::from(words[1].trailing_zeros());
            match (words[0], zeros) {
                (0, 1..=13) => {
                    self.stage = zeros;
                    self.at_prescaler(&set[layout::AT_S..layout::AT_W]);
                }
                (2, 3..=10) => {
                    self.stage = zeros - 2;
                    self.at_prescaler(&set[layout::AT_W..]);
                }
                _ => {}
            }
        }
    }
    /// Takes an argument in.
    pub fn look(&mut self, kind: Kind, words: &[u64], set: &Set) {
        match kind {
            Kind::Time => self.now = layout::time_at(words, 0),
            Kind::Clock | Kind::Domain => self.clock.copy_from_slice(&words[..layout::CLOCK]),
            Kind::PrescalerS => self.at_prescaler(words),
            Kind::PrescalerW => {
                self.stages = 8;
                self.at_prescaler(words);
            }
            Kind::Stage => self.stage = words[0],
            Kind::Tick | Kind::Edges => self.tick = words[0],
            Kind::Tap => self.at_tap(set, words),
            Kind::Wait => {
                self.at_tap(set, words);
                self.tick = words[3];
                if words[2] == 2 {
                    self.now = layout::time_at(words, 3);
                }
            }
            _ => {}
        }
    }
}
