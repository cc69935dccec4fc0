//! What another master does on the lines: starts, addresses, bytes either way, acknowledges, stops, and breaking off.
use crate::random::Random;
use std::collections::VecDeque;

pub type Levels = [bool; 2];

const READ: u8 = 1;

/// The levels that the other master drives, one after the other.
pub fn transfer(random: &mut Random, own_address: u8, steps: &mut VecDeque<Levels>) {
    steps.extend([[true, true], [true, false], [false, false]]);
    let address = match random.below(10) {
        0..=5 => own_address & !READ | (random.below(2) as u8),
        6 => 0,
        7 => READ,
        _ => random.word() as u8,
    };
    byte(address, steps);
    clock(true, steps);
    for _ in 0..random.below(4) {
        if address & READ != 0 {
            (0..8).for_each(|_| clock(true, steps));
            clock(random.once_in(3), steps);
        } else {
            byte(random.word() as u8, steps);
            clock(true, steps);
        }
    }
    match random.below(4) {
        0 => steps.extend([[false, true], [true, true]]),
        1 => steps.truncate(random.below(steps.len() as u64) as usize),
        _ => steps.extend([[false, false], [true, false], [true, true]]),
    }
}

/// Clocks of synchronous mode, with any data.
pub fn clocks(random: &mut Random, steps: &mut VecDeque<Levels>) {
    for _ in 0..random.below(20) {
        clock(random.once_in(2), steps);
    }
}

fn byte(byte: u8, steps: &mut VecDeque<Levels>) {
    (0..8).rev().for_each(|bit| clock(byte >> bit & 1 != 0, steps));
}

/// One bit: SDA while SCL is low, then SCL up and down.
fn clock(sda: bool, steps: &mut VecDeque<Levels>) {
    steps.extend([[false, sda], [true, sda], [false, sda]]);
}
