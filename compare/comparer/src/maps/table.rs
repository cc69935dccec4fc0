//! A plain address map: a table of 65,536 entries.
use port::map::Refusal;

pub const NONE: u8 = 4;

/// First and last address, and the unit, 4 for none; or nothing, for a line that is none.
pub type Line = Option<(u16, u16, u8)>;

pub struct Table {
    units: Vec<u8>,
}

impl Table {
    /// The table of some lines, or why they are refused.
    pub fn new(lines: &[Line]) -> Result<Self, Refusal> {
        let wrong = |place: usize| Err((4, place as u16 + 1));
        for (place, line) in lines.iter().enumerate() {
            match line {
                Some((first, last, unit)) if first <= last && *unit <= NONE && place < 64 => {}
                _ => return wrong(place),
            }
        }
        let (mut times, mut units) = (vec![0; 65536], vec![NONE; 65536]);
        for (first, last, unit) in lines.iter().flatten() {
            for address in usize::from(*first)..=usize::from(*last) {
                times[address] += 1;
                units[address] = *unit;
            }
        }
        let lowest = |of: fn(&u64) -> bool| times.iter().position(of);
        if let Some(address) = lowest(|times| *times > 1) {
            return Err((19, address as u16));
        }
        if let Some(address) = lowest(|times| *times == 0) {
            return Err((20, address as u16));
        }
        Ok(Self { units })
    }

    pub fn unit(&self, address: u16) -> u8 {
        self.units[usize::from(address)]
    }
}

/// The lines of a text, a newline after each but perhaps the last.
pub fn lines(text: &[u8]) -> Vec<Line> {
    let mut pieces: Vec<&[u8]> = text.split(|byte| *byte == b'\n').collect();
    if pieces.last().is_some_and(|last| last.is_empty()) {
        pieces.pop();
    }
    pieces.into_iter().map(line).collect()
}

fn line(text: &[u8]) -> Line {
    let fields: Vec<&[u8]> = text.split(|byte| *byte == b'\t').collect();
    let [first, last, unit] = fields[..] else {
        return None;
    };
    let unit = match unit {
        b"-" => NONE,
        [digit @ b'0'..=b'3'] => digit - b'0',
        _ => return None,
    };
    Some((address(first)?, address(last)?, unit))
}

fn address(text: &[u8]) -> Option<u16> {
    let lower = text.iter().all(|byte| matches!(byte, b'0'..=b'9' | b'a'..=b'f'));
    let text = std::str::from_utf8(text).ok().filter(|text| lower && text.len() == 4)?;
    u16::from_str_radix(text, 16).ok()
}

/// The text of a line.
pub fn spelt((first, last, unit): (u16, u16, u8)) -> String {
    let unit = if unit == NONE { "-".to_string() } else { unit.to_string() };
    format!("{first:04x}\t{last:04x}\t{unit}\n")
}

#[cfg(test)]
mod tests {
    use super::{lines, Table, NONE};

    fn refused(text: &[u8]) -> (u8, u16) {
        Table::new(&lines(text)).err().expect("refused")
    }

    #[test]
    fn accepted_maps() {
        let table = Table::new(&lines(b"8000\tffff\t-\n0000\t0fff\t2\n1000\t7fff\t0")).ok().expect("accepted");
        let units = [0x0000, 0x0fff, 0x1000, 0x7fff, 0x8000, 0xffff].map(|address| table.unit(address));
        assert_eq!(units, [2, 2, 0, 0, NONE, NONE]);
    }

    #[test]
    fn refused_maps() {
        assert_eq!(refused(b""), (20, 0));
        assert_eq!(refused(b"\n"), (4, 1));
        assert_eq!(refused(b"0000\tffff\t0\n\n"), (4, 2));
        assert_eq!(refused(b"0000\tFFFF\t0\n"), (4, 1));
        assert_eq!(refused(b"0000\tffff\t4\n"), (4, 1));
        assert_eq!(refused(b"0001\t0000\t0\n0000\tffff\t1\n"), (4, 1));
        assert_eq!(refused(b"0000\t7fff\t0\n7fff\tffff\t0\n"), (19, 0x7fff));
        assert_eq!(refused(b"0000\t7ffe\t0\n8000\tffff\t0\n"), (20, 0x7fff));
        assert_eq!(refused(b"0001\tfffe\t0\n0002\t0002\t1\n"), (19, 2));
        let many: String = (0..65u16).map(|line| super::spelt((line, line, 0))).collect();
        assert_eq!(refused(many.as_bytes()), (4, 65));
    }
}
