//! A master's levels: starts, bytes and acknowledges, reads, stops; whole transfers, and some that break off.
use std::collections::VecDeque;
use traffic::random::Random;

/// The sensor's address with the bit of a write, and of a read.
const WRITE: u8 = 0x70;
const READ: u8 = 0x71;

/// SCL and SDA as the master leaves them next.
#[derive(Default)]
pub struct Master {
    ahead: VecDeque<[bool; 2]>,
}

impl Master {
    pub fn next(&mut self, random: &mut Random) -> [bool; 2] {
        loop {
            if let Some(levels) = self.ahead.pop_front() {
                return levels;
            }
            self.transfer(random);
        }
    }

    fn put(&mut self, scl: bool, sda: bool) {
        self.ahead.push_back([scl, sda]);
    }

    /// Also a repeated one.
    fn start(&mut self) {
        self.put(false, true);
        self.put(true, true);
        self.put(true, false);
    }

    fn stop(&mut self) {
        self.put(false, false);
        self.put(true, false);
        self.put(true, true);
    }

    /// SCL falls, SDA takes the level, SCL rises.
    fn bit(&mut self, random: &mut Random, sda: bool) {
        let was = self.ahead.back().is_some_and(|levels| levels[1]);
        if !random.once_in(4) {
            self.put(false, was);
        }
        self.put(false, sda);
        self.put(true, sda);
    }

    /// A byte, and SDA released for its acknowledge.
    fn byte(&mut self, random: &mut Random, byte: u8) {
        for place in (0..8).rev() {
            self.bit(random, byte >> place & 1 != 0);
        }
        self.bit(random, true);
    }

    /// A byte that the sensor sends, and the master's answer.
    fn read(&mut self, random: &mut Random, more: bool) {
        (0..8).for_each(|_| self.bit(random, true));
        self.bit(random, !more);
    }

    fn address(&mut self, random: &mut Random, byte: u8) {
        let byte = match random.below(8) {
            0 => random.word() as u8,
            1 => byte ^ 1 << random.below(8),
            _ => byte,
        };
        self.byte(random, byte);
    }

    /// A register and a byte for it, some times.
    fn writes(&mut self, random: &mut Random) {
        self.start();
        self.address(random, WRITE);
        for _ in 0..random.below(6) {
            let byte = random_byte(random);
            self.byte(random, byte);
        }
    }

    /// Some bytes of which the master acknowledges all but the last.
    fn reads(&mut self, random: &mut Random) {
        self.start();
        self.address(random, READ);
        let bytes = 1 + random.below(4);
        for place in 1..=bytes {
            let more = place < bytes || random.once_in(8);
            self.read(random, more);
        }
    }

    fn transfer(&mut self, random: &mut Random) {
        if !random.once_in(4) {
            self.writes(random);
        }
        if random.once_in(2) {
            self.reads(random);
        }
        if random.once_in(8) {
            // It breaks off.
            let kept = random.below(self.ahead.len() as u64 + 1);
            self.ahead.truncate(kept as usize);
        }
        if !random.once_in(4) {
            self.stop();
        }
    }
}

/// A register's number as often as any byte.
fn random_byte(random: &mut Random) -> u8 {
    if random.once_in(4) {
        random.pick(&[0x7e, 0x7f, 0x80, 0xff])
    } else {
        random.word() as u8
    }
}
