//! iic.rs, and its copy that looks its rates up in a set.
use super::{ended, inside, put_deadline, Bridge};
use crate::mcu::clocks::Clocks;
use crate::mcu::{iic::Iic, rated};
use crate::{rates, Error, Time};
use words::calls::Answer;
use words::iic::{self, Call, Peripheral, State};
use words::layout::Args;
use words::rates::Rates;
use words::{Put, Reader, Take};

// Every word of the Rust's state is compared.
const _: () = assert!(<Iic as Put>::COUNT == iic::FIELDS, "the state's words aren't those of the Rust's fields");

/// A peripheral and its rate set.
#[derive(Clone, PartialEq, Eq, Debug)]
pub enum Rated {
    /// The unmodified Rust, which has the default set.
    Default(Iic),
    /// The copy, over any set.
    Copy(rated::Iic, Rates),
}

/// A call of iic.rs or of its copy, which are alike.
macro_rules! answer {
    ($iic:expr, $call:expr, $set:expr, $args:expr, $out:expr) => {{
        let (now, first, second) = (inside::time($args, 0), $args[2], $args[3]);
        match $call {
            Call::Read => $out[0] = u64::from($iic.read(first as u16, now, $set)?),
            Call::Write => $iic.write(first as u16, second as u8, now, $set)?,
            Call::InputPins => $out[0] = u64::from($iic.input_pins(first != 0, second != 0, now, $set)?),
            Call::SetGate => $iic.set_gate(first != 0, now, $set)?,
            Call::Advance => $iic.advance(now, $set)?,
            Call::Deadline => put_deadline($iic.deadline($set)?, $out),
            Call::Validate => $iic.validate(now)?,
            Call::Observe => {
                for (place, out) in $out[..8].iter_mut().enumerate() {
                    *out = u64::from($iic.peek((first as u16).wrapping_add(place as u16)));
                }
                let interrupts = [$iic.interrupt(), $iic.interrupt_with_enable(second as u8)];
                put_seen($iic.pins(), interrupts, &mut $out[8..13]);
            }
        }
        Ok(())
    }};
}

fn put_seen(pins: Option<[bool; 2]>, [interrupt, retained]: [bool; 2], out: &mut [u64]) {
    let [scl, sda] = pins.unwrap_or_default();
    let seen = [pins.is_some(), scl, sda, interrupt, retained];
    out.copy_from_slice(&seen.map(u64::from));
}

impl Rated {
    /// The copy whatever the set is.
    pub fn copy(words: &State) -> Self {
        Self::Copy(rated::Iic::take(&mut Reader::new(words)), iic::rates(words))
    }

    pub fn peek(&self, address: u16) -> u8 {
        match self {
            Self::Default(iic) => iic.peek(address),
            Self::Copy(iic, _) => iic.peek(address),
        }
    }

    pub fn deadline(&self, clocks: &Clocks) -> Result<Option<Time>, Error> {
        match self {
            Self::Default(iic) => iic.deadline(clocks),
            Self::Copy(iic, _) => iic.deadline(clocks),
        }
    }

    fn answer(&mut self, call: Call, set: &Clocks, args: &Args, out: &mut [u64]) -> Result<(), Error> {
        match self {
            Self::Default(iic) => answer!(iic, call, set, args, out),
            Self::Copy(iic, of) => rates::over(of, || answer!(iic, call, set, args, out)),
        }
    }
}

impl Peripheral for Bridge {
    type State = Rated;

    fn fresh(of: &Rates) -> Rated {
        match *of {
            Rates::DEFAULT => Rated::Default(Iic::default()),
            _ => Rated::Copy(rated::Iic::default(), *of),
        }
    }

    fn state(words: &State) -> Rated {
        match iic::rates(words) {
            Rates::DEFAULT => Rated::Default(Iic::take(&mut Reader::new(words))),
            _ => Rated::copy(words),
        }
    }

    fn words(state: &Rated, out: &mut Vec<u64>) {
        out.clear();
        match state {
            Rated::Default(iic) => {
                iic.put(out);
                out.extend(Rates::DEFAULT.words());
            }
            Rated::Copy(iic, of) => {
                iic.put(out);
                out.extend(of.words());
            }
        }
    }

    fn call(call: Call, state: &mut Rated, set: &Clocks, args: &Args, out: &mut Answer) {
        let words = &mut out.words[1..];
        out.end = ended(|| state.answer(call, set, args, words));
    }
}
