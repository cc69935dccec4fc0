//! Which calls are idle, by document 01 and by ideas that are wrong.
use super::side::{Side, WAITS};
use super::Clocks;
use words::iic::{self, Call};
use words::layout::{self, Args};

/// What is taken for idle. The wrong ideas are for the tests, which show that the check would notice them.
#[derive(Clone, Copy, PartialEq, Eq, Debug)]
#[cfg_attr(not(test), allow(dead_code))]
pub enum Idea {
    Document,
    /// The first visit after the reset was lifted isn't told from others.
    NoLift,
    /// A visit that starts a frame isn't told from others.
    NoFrameStart,
    /// Neither is.
    NoLiftNorFrameStart,
    ReadOfStatus,
    ReadOfData,
    /// A visit at which the wait at that place of the state is due.
    Due(usize),
    /// Levels equal to those behind the filter.
    FilteredLevels,
    AnyGate,
    /// A write of what the register shows.
    SameByte,
    /// The claim is carried past a refused call that is left.
    PastARefusal,
}

impl Idea {
    /// Whether a call that is idle by it is so for both hosts and changes nothing, until a call that is left is
    /// refused: that holds of the document's idea, and with either half of its rule on lifts.
    pub fn holds(self) -> bool {
        matches!(self, Idea::Document | Idea::NoLift | Idea::NoFrameStart)
    }

    pub fn idle(self, host: &Side, clocks: &Clocks, call: Call, args: &Args) -> bool {
        let state = &host.words;
        match call {
            Call::Advance => self.idle_visit(host, clocks, args),
            Call::InputPins => {
                let given = if self == Idea::FilteredLevels { iic::FILTERED } else { iic::RAW };
                state[given..given + 2] == args[2..4]
            }
            Call::SetGate => self == Idea::AnyGate || state[iic::GATE] == args[2],
            Call::Read => match args[2] & 7 {
                4 => self == Idea::ReadOfStatus,
                7 => self == Idea::ReadOfData,
                _ => true,
            },
            Call::Write => self == Idea::SameByte && u64::from(host.iic.peek(args[2] as u16)) == args[3],
            Call::Deadline | Call::Validate | Call::Observe => true,
        }
    }

    fn idle_visit(self, host: &Side, clocks: &Clocks, args: &Args) -> bool {
        let now = layout::time_at(args, 0);
        let due = WAITS.into_iter().any(|wait| self != Idea::Due(wait) && host.due(wait, clocks, now));
        let lifted = host.lifted && !matches!(self, Idea::NoLift | Idea::NoLiftNorFrameStart);
        if due || lifted {
            return false;
        }
        matches!(self, Idea::NoFrameStart | Idea::NoLiftNorFrameStart) || !host.starts_a_frame(clocks, now)
    }
}
