//! What a status write can do, by document 02 and by claims that are wrong.
use words::iic::TDRE;

/// What is claimed. The wrong claims are for the tests, which show that the check would notice them.
#[derive(Clone, Copy, PartialEq, Eq, Debug)]
#[cfg_attr(not(test), allow(dead_code))]
pub enum Claim {
    Document,
    /// The byte of the read before the latest counts.
    EarlierRead,
    /// What was shown set and is written 0 is cleared, always.
    ClearsAllShown,
    RaisesNothing,
}

/// The bytes of the answered reads of ICSR: the latest, and the one before it.
#[derive(Default)]
pub struct Reads([Option<u64>; 2]);

/// A write of ICSR: the byte, ICSR before and after it, and whether it was answered.
pub struct StatusWrite {
    pub value: u64,
    pub was: u64,
    pub is: u64,
    pub answered: bool,
}

impl Reads {
    pub fn note(&mut self, byte: u64) -> Result<(), String> {
        self.0 = [Some(byte), self.0[0]];
        Ok(())
    }

    /// The byte of the latest read, 0 before any.
    pub fn shown(&self) -> u64 {
        self.0[0].unwrap_or(0)
    }

    pub fn any(&self) -> bool {
        self.0[0].is_some()
    }
}

impl StatusWrite {
    pub fn cleared(&self) -> u64 {
        self.was & !self.is
    }

    pub fn raised(&self) -> u64 {
        self.is & !self.was
    }
}

impl Claim {
    /// What the write did that it can't do.
    pub fn judge(self, write: &StatusWrite, reads: &Reads) -> Result<(), String> {
        let shown = if self == Claim::EarlierRead { reads.0[1].unwrap_or(0) } else { reads.shown() };
        let may_clear = shown & !write.value;
        let may_raise = if self == Claim::RaisesNothing { 0 } else { TDRE };
        let must_clear = if self == Claim::ClearsAllShown { may_clear } else { 0 };
        let wrong = [write.cleared() & !may_clear, write.raised() & !may_raise, write.is & must_clear];
        if wrong == [0; 3] {
            return Ok(());
        }
        let StatusWrite { value, was, is, answered } = write;
        let ended = if *answered { "answered" } else { "refused" };
        Err(format!("{was:02x} becomes {is:02x} by {value:02x}, {ended}, after {shown:02x} was shown"))
    }
}
