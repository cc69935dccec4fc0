//! Stand-in for error.rs: the variants that the files make, and what the stand-in for the rest of the sensor refuses with.
use crate::time::TimeError;

#[derive(Debug)]
pub enum Error {
    Time(TimeError),
    BadInput(&'static str),
    Snapshot(&'static str),
    Internal(&'static str),
    Sensor(u8),
}

impl From<TimeError> for Error {
    fn from(error: TimeError) -> Self {
        Error::Time(error)
    }
}

impl Error {
    /// The number that document 01 has for the refusal, or that of the rest of the sensor; 255 where it has none.
    pub fn number(&self) -> u8 {
        match self {
            Error::Time(TimeError::ZeroFrequency) => 1,
            Error::BadInput("zero clock divider") => 2,
            Error::Time(TimeError::Overflow) => 7,
            Error::Time(TimeError::Reversed) => 8,
            Error::Snapshot("invalid IIC control") => 9,
            Error::Snapshot("invalid IIC frame progress") => 10,
            Error::Snapshot("zero saved clock divider") => 11,
            Error::Snapshot("invalid IIC interval") => 12,
            Error::Sensor(number) => *number,
            _ => 255,
        }
    }
}
