//! The calls of a peripheral, and what answer lines tell of them.
use crate::line::Call;
use reference::mcu::clocks::{Clocks, Frequencies};
use reference::mcu::iic::Iic;
use reference::{Error, Time};
use std::collections::BTreeSet;
use std::fmt;

/// Refusal 4.
pub const MALFORMED: u8 = 4;
/// Refusal 5.
pub const EARLIER: u8 = 5;
/// Refusals 7 and 13, for which the Rust has one error.
pub const OVERFLOW: u8 = 7;
const HALF_COUNT: u8 = 13;
/// The address of ICSR.
pub const STATUS: u16 = 4;

/// What a call answers.
pub enum Value {
    None,
    Byte(u8),
    Bit(bool),
    Time(Time),
}

/// The levels and the status of a peripheral.
pub struct Shown<'a>(pub &'a Iic);

/// The clock set of traces.
pub fn trace_clocks() -> Clocks {
    Clocks::new(Time::ZERO, Frequencies::default()).expect("default frequencies are no zeros")
}

/// Makes a call. The refusals 9 and 10 can't come: no call leads to a state of those kinds.
pub fn answer(iic: &mut Iic, clocks: &Clocks, now: Time, call: Call) -> Result<Value, u8> {
    called(iic, clocks, now, call).map_err(|error| error.number())
}

fn called(iic: &mut Iic, clocks: &Clocks, now: Time, call: Call) -> Result<Value, Error> {
    match call {
        Call::Read(address) => return iic.read(address, now, clocks).map(Value::Byte),
        Call::Pins(scl, sda) => return iic.input_pins(scl, sda, now, clocks).map(Value::Bit),
        Call::Deadline => return Ok(iic.deadline(clocks)?.map_or(Value::None, Value::Time)),
        Call::Write(address, byte) => iic.write(address, byte, now, clocks)?,
        Call::Gate(gate) => iic.set_gate(gate, now, clocks)?,
        Call::Visit => iic.advance(now, clocks)?,
    }
    Ok(Value::None)
}

/// The refusal, or 0, and the value that an answer line has; of an overflow it is known whether it is that of a half count.
pub fn ended(answer: Result<Value, u8>, half_count: bool) -> (u8, Value) {
    match answer {
        Ok(value) => (0, value),
        Err(OVERFLOW) if half_count => (HALF_COUNT, Value::None),
        Err(number) => (number, Value::None),
    }
}

/// The places, from 1, of the answer lines that have 13 in that field.
pub fn half_counts(answers: &[u8], field: usize) -> BTreeSet<usize> {
    let lines = answers.split(|byte| *byte == b'\n').zip(1..);
    let of = |line: &[u8]| line.split(|byte| *byte == b'\t').nth(field) == Some(b"13");
    lines.filter(|(line, _)| of(line)).map(|(_, place)| place).collect()
}

impl fmt::Display for Shown<'_> {
    fn fmt(&self, f: &mut fmt::Formatter<'_>) -> fmt::Result {
        match self.0.pins() {
            Some([scl, sda]) => write!(f, "{}{}", u8::from(scl), u8::from(sda))?,
            None => write!(f, "-")?,
        }
        write!(f, "\t{:02x}", self.0.peek(STATUS))
    }
}

impl fmt::Display for Value {
    fn fmt(&self, f: &mut fmt::Formatter<'_>) -> fmt::Result {
        match self {
            Value::None => write!(f, "-"),
            Value::Byte(byte) => write!(f, "{byte:02x}"),
            Value::Bit(bit) => write!(f, "{}", u8::from(*bit)),
            Value::Time(time) => write!(f, "{}:{:016x}", time.raw() >> 64, time.raw() as u64),
        }
    }
}
