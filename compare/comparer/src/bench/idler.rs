//! Extra idle visits change no answer line or state until another call of their unit is refused.
use crate::hosts::idle::Idea;
use crate::hosts::side::Side;
use plain_player::bench::{Deadline, Watch, MOST_UNITS};
use plain_player::Call;
use reference::mcu::clocks::Clocks;
use reference::mcu::iic::Iic;
use reference::{Rated, Time};
use traffic::random::Random;
use words::iic;
use words::layout;

/// Visits units between any two calls of the bench, at any time, where that is idle.
pub struct Idler<'a> {
    idea: Idea,
    random: Random,
    clocks: &'a Clocks,
    /// Of each unit, whether it is in reset, whether a write has lifted the reset and no visit has come since, and whether
    /// a call was refused.
    reset: [bool; MOST_UNITS],
    lifted: [bool; MOST_UNITS],
    refused: [bool; MOST_UNITS],
    /// Visits made, and those of them that were refused.
    pub visits: u64,
    pub visits_refused: u64,
}

impl<'a> Idler<'a> {
    pub fn new(idea: Idea, random: Random, clocks: &'a Clocks) -> Self {
        let none = [false; MOST_UNITS];
        Self { idea, random, clocks, reset: none, lifted: none, refused: none, visits: 0, visits_refused: 0 }
    }

    fn time(&mut self, now: u128, iic: &Iic) -> u128 {
        let deadline = iic.deadline(self.clocks).ok().flatten().map_or(now, |at| at.raw());
        match self.random.below(8) {
            0..=2 => now,
            3 => now.saturating_add(1),
            4 => deadline,
            5 => deadline.saturating_add(1),
            6 => now.saturating_sub(u128::from(self.random.any_length())),
            _ => layout::joined(self.random.any_length(), self.random.word()),
        }
    }

    fn visit_some(&mut self, now: Option<Time>, units: &mut [Iic]) {
        for (unit, iic) in units.iter_mut().enumerate() {
            if !self.refused[unit] && self.random.once_in(8) {
                self.visit(unit, now.map_or(0, |now| now.raw()), iic);
            }
        }
    }

    fn visit(&mut self, unit: usize, now: u128, iic: &mut Iic) {
        let at = self.time(now, iic);
        let mut side = Side::new(Rated::Default(iic.clone()));
        side.lifted = self.lifted[unit];
        if self.idea.idle(&side, self.clocks, iic::Call::Advance, &iic::args(at, [0, 0])) {
            self.visits += 1;
            self.visits_refused += u64::from(iic.advance(Time::from_raw(at), self.clocks).is_err());
            self.lifted[unit] = false;
        }
    }
}

impl Watch for Idler<'_> {
    /// The question is idle itself, refused or not.
    fn asked(&mut self, _unit: usize, present: Option<Time>, _deadline: Deadline, units: &mut [Iic]) {
        self.visit_some(present, units);
    }

    fn called(&mut self, unit: usize, now: Time, call: Call, refused: bool, units: &mut [Iic]) {
        let reset = units[unit].peek(1) & 2 != 0;
        self.lifted[unit] = call != Call::Visit && (self.lifted[unit] || self.reset[unit] && !reset);
        self.reset[unit] = reset;
        self.refused[unit] |= refused && self.idea != Idea::PastARefusal;
        self.visit_some(Some(now), units);
    }
}
