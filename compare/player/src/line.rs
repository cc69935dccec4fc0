//! The lines of a trace, and of a script.
use reference::Time;

/// The longest line that can be well formed, without its newline.
const LONGEST: usize = 64;

#[derive(Clone, Copy, PartialEq, Eq, Debug)]
pub enum Call {
    Read(u16),
    Write(u16, u8),
    Pins(bool, bool),
    Gate(bool),
    Visit,
    Deadline,
}

/// The time and the call of a line without its newline; none of a malformed one.
pub fn parse(line: &[u8]) -> Option<(Time, Call)> {
    let mut fields = fields(line)?;
    Some((time(&mut fields)?, call(&mut fields)?))
}

/// A time, a unit and a call of it.
pub type ScriptCall = (Time, usize, Call);

/// What a script line says, which has a unit before the verb and not every verb.
pub fn parse_script(line: &[u8]) -> Option<ScriptCall> {
    let mut fields = fields(line)?;
    let (at, unit, call) = (time(&mut fields)?, unit(fields.next()?)?, call(&mut fields)?);
    matches!(call, Call::Read(_) | Call::Write(..) | Call::Gate(_)).then_some((at, unit, call))
}

/// None of a line that is too long.
fn fields(line: &[u8]) -> Option<impl Iterator<Item = &[u8]>> {
    (line.len() <= LONGEST).then(|| line.split(|byte| *byte == b'\t'))
}

fn time<'a>(fields: &mut impl Iterator<Item = &'a [u8]>) -> Option<Time> {
    let (seconds, fraction) = (decimal(fields.next()?)?, hexadecimal(fields.next()?, 16)?);
    Some(Time::from_raw(u128::from(seconds) << 64 | u128::from(fraction)))
}

/// A verb and its operands, with nothing behind them.
fn call<'a>(fields: &mut impl Iterator<Item = &'a [u8]>) -> Option<Call> {
    let call = match fields.next()? {
        b"r" => Call::Read(address(fields.next()?)?),
        b"w" => Call::Write(address(fields.next()?)?, hexadecimal(fields.next()?, 2)? as u8),
        b"p" => Call::Pins(level(fields.next()?)?, level(fields.next()?)?),
        b"g" => Call::Gate(level(fields.next()?)?),
        b"v" => Call::Visit,
        b"d" => Call::Deadline,
        _ => return None,
    };
    fields.next().is_none().then_some(call)
}

fn unit(field: &[u8]) -> Option<usize> {
    match field {
        [digit @ b'0'..=b'9'] => Some(usize::from(digit - b'0')),
        _ => None,
    }
}

/// Digits without a needless leading zero.
fn decimal(field: &[u8]) -> Option<u64> {
    let plain = field == b"0" || field.first() != Some(&b'0');
    if !plain || !field.iter().all(u8::is_ascii_digit) {
        return None;
    }
    std::str::from_utf8(field).ok()?.parse().ok()
}

/// Just so many lower-case digits.
fn hexadecimal(field: &[u8], digits: usize) -> Option<u64> {
    if field.len() != digits {
        return None;
    }
    field.iter().try_fold(0, |value, digit| {
        let digit = match digit {
            b'0'..=b'9' => digit - b'0',
            b'a'..=b'f' => digit - b'a' + 10,
            _ => return None,
        };
        Some(value << 4 | u64::from(digit))
    })
}

fn address(field: &[u8]) -> Option<u16> {
    match field {
        [digit @ b'0'..=b'7'] => Some(u16::from(digit - b'0')),
        _ => None,
    }
}

fn level(field: &[u8]) -> Option<bool> {
    match field {
        b"0" => Some(false),
        b"1" => Some(true),
        _ => None,
    }
}
