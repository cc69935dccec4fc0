//! The signals after each line, as a VCD file has them (GTKWave and PulseView open it): the wires, the levels as they were
//! last reported and as they are driven, the flags and the gate.
use crate::line::{self, Call};
use crate::{answer, Player};
use reference::Time;
use std::io::Write;

/// In the order of their bytes, from `!` on.
const NAMES: &str = "SCL SDA SCL_given SDA_given SCL_driven SDA_driven TDRE TEND RDRF NACKF STOP AL AAS ADZ gate";
/// Later times are told as this one, in nanoseconds.
const LATEST: u128 = 18_446_744_073 * SECOND;
const SECOND: u128 = 1_000_000_000;

pub struct Wave {
    player: Player,
    began: Option<Time>,
    given: [bool; 2],
    gate: bool,
}

impl Default for Wave {
    fn default() -> Self {
        Self { player: Player::default(), began: None, given: [true; 2], gate: false }
    }
}

/// What stands before the first time.
pub fn header() -> Vec<u8> {
    let signal = |(name, byte)| format!("$var wire 1 {byte} {name} $end\n");
    let signals: String = NAMES.split(' ').zip('!'..).map(signal).collect();
    format!("$timescale 1 ns $end\n$scope module iic $end\n{signals}$upscope $end\n$enddefinitions $end\n").into_bytes()
}

impl Wave {
    /// Plays one line and puts its time and the signals behind what is there; nothing for a line refused 4 or 5.
    pub fn play(&mut self, line: &[u8], out: &mut Vec<u8>) {
        if matches!(self.player.draw(line), answer::MALFORMED | answer::EARLIER) {
            return;
        }
        let (now, call) = line::parse(line.strip_suffix(b"\n").unwrap_or(line)).expect("the line was taken");
        match call {
            Call::Pins(scl, sda) => self.given = [scl, sda],
            Call::Gate(gate) => self.gate = gate,
            _ => {}
        }
        let began = *self.began.get_or_insert(now);
        let mut text = format!("#{}\n", nanoseconds(now.raw() - began.raw()));
        for (value, byte) in self.signals().chars().zip('!'..) {
            text.push_str(&format!("{value}{byte}\n"));
        }
        out.write_all(text.as_bytes()).expect("a vector takes all");
    }

    fn signals(&self) -> String {
        let driven = self.player.iic().pins();
        let wires = [0, 1].map(|line| self.given[line] && driven.is_none_or(|levels| levels[line]));
        let driven = driven.map_or("zz".into(), |levels| bits(&levels));
        let flags = format!("{:08b}", self.player.status());
        [bits(&wires), bits(&self.given), driven, flags, bits(&[self.gate])].concat()
    }
}

fn bits(bits: &[bool]) -> String {
    bits.iter().map(|bit| if *bit { '1' } else { '0' }).collect()
}

/// Whole nanoseconds in units of 2^-64 s.
fn nanoseconds(units: u128) -> u128 {
    let (seconds, fraction) = (units >> 64, units & u128::from(u64::MAX));
    LATEST.min(seconds * SECOND + (fraction * SECOND >> 64))
}
