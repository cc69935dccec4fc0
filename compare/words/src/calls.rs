//! The calls that are compared: what each takes, how many words it answers, and how a call can end.
use crate::layout::{self, Args, Out, Set};

#[derive(Clone, Copy, PartialEq, Eq, Debug)]
pub enum Trap {
    /// A difference below zero.
    Subtract,
    /// A sum too large.
    Overflow,
    /// A shift by as many bits as there are, or more.
    Shift,
    /// A division by zero.
    Divide,
    /// An index out of range.
    Index,
    Other,
}

#[derive(Clone, Copy, PartialEq, Eq, Debug)]
pub enum End {
    Done,
    Refused(u8),
    Trapped(Trap),
}

impl End {
    /// As the Rust has it, whose `Overflow` is both 7 and 13.
    pub fn as_rust(self) -> Self {
        if self == End::Refused(13) {
            return End::Refused(7);
        }
        self
    }
}

/// How a call ended, and the words that it answered, from place 1 on.
#[derive(Clone, PartialEq, Eq, Debug)]
pub struct Answer {
    pub end: End,
    pub words: Out,
}

impl Answer {
    pub fn empty() -> Self {
        Self { end: End::Done, words: [0; layout::OUT] }
    }
}

/// One build of the Rust.
pub trait Reference {
    /// A clock set as the Rust holds it.
    type Set;
    /// None where a clock of the set holds a zero: the Rust has no such clock.
    fn set(words: &Set) -> Option<Self::Set>;
    fn answer(call: Call, set: Option<&Self::Set>, args: &Args, out: &mut Answer);
}

/// What an argument is.
#[derive(Clone, Copy, PartialEq, Eq, Debug)]
pub enum Kind {
    Time,
    Span,
    Hz,
    Denominator,
    Clock,
    Edges,
    PrescalerS,
    PrescalerW,
    Parent,
    Tick,
    Phase,
    Stage,
    Domain,
    Tap,
    Divide,
    Frequencies,
    Wait,
}

impl Kind {
    pub const fn words(self) -> usize {
        match self {
            Kind::Time | Kind::Span => layout::TIME,
            Kind::Clock => layout::CLOCK,
            Kind::PrescalerS => layout::PRESCALER_S,
            Kind::PrescalerW => layout::PRESCALER_W,
            Kind::Domain => layout::DOMAIN,
            Kind::Tap => layout::TAP,
            Kind::Frequencies => layout::FREQUENCIES,
            Kind::Wait => layout::WAIT,
            _ => 1,
        }
    }
}

/// The crate clock_calls knows each by its place in this list.
#[derive(Clone, Copy, PartialEq, Eq, Debug)]
pub enum Call {
    TimeBefore,
    TimeSame,
    TimeCheckedAdd,
    TimeDurationSince,
    TimeNext,
    TimeMidway,
    ClockNew,
    ClockHasZero,
    ClockAfter,
    ClockEdgesBefore,
    CrossingsS,
    TicksS,
    HighS,
    ParentEdgeS,
    CrossingsW,
    TicksW,
    HighW,
    ParentEdgeW,
    DomainNew,
    DomainTime,
    DomainTicks,
    DomainHalfTicks,
    DomainHalfEdge,
    TapCpu,
    TapSystem,
    TapWatch,
    TapOnChip,
    TapOscillator,
    TapSubclock,
    TapValidate,
    FrequenciesDefault,
    ClocksHasZero,
    ClocksTicks,
    ClocksEdge,
    ClocksAfter,
    ClocksAvailable,
    ClocksHigh,
    HalfTicks,
    HalfEdge,
    WaitAfter,
    WaitDeadline,
    WaitValidate,
    WaitUses,
    WaitLaterEdge,
    WaitEdgesBefore,
    ClocksNew,
    WaitPause,
    WaitResume,
    WaitSelect,
    ClockAdvance,
    ClocksAdvanceSystem,
}

#[derive(Clone, Copy)]
pub struct Function {
    pub call: Call,
    pub name: &'static str,
    /// The arguments, one after the other.
    pub takes: &'static [Kind],
    /// How many words it answers.
    pub gives: usize,
    /// Whether it is handed a clock set.
    pub set: bool,
    /// Whether it answers its words where it refuses, too.
    pub always: bool,
}

const fn plain(call: Call, name: &'static str, takes: &'static [Kind], gives: usize) -> Function {
    Function { call, name, takes, gives, set: false, always: false }
}

impl Function {
    const fn over_set(self) -> Self {
        Self { set: true, ..self }
    }
    const fn always(self) -> Self {
        Self { always: true, ..self }
    }
    /// The place of the first argument of that kind.
    pub fn place(&self, kind: Kind) -> Option<usize> {
        let first = self.takes.iter().position(|k| *k == kind)?;
        Some(self.takes[..first].iter().map(|k| k.words()).sum())
    }
}

use Kind::{
    Clock, Denominator, Divide, Domain, Edges, Frequencies, Hz, Parent, Phase, PrescalerS, PrescalerW, Span, Stage,
    Tap, Tick, Time, Wait,
};

pub const TIME: &[Function] = &[
    plain(Call::TimeBefore, "Time::before", &[Time, Time], 1),
    plain(Call::TimeSame, "Time::same", &[Time, Time], 1),
    plain(Call::TimeCheckedAdd, "Time::checked_add", &[Time, Span], 2),
    plain(Call::TimeDurationSince, "Time::duration_since", &[Time, Time], 2),
    plain(Call::TimeNext, "Time::next", &[Time], 2),
    plain(Call::TimeMidway, "Time::midway", &[Time, Time], 2),
    plain(Call::ClockNew, "Clock::new", &[Time, Hz, Denominator], layout::CLOCK),
    plain(Call::ClockHasZero, "Clock::has_zero", &[Clock], 1),
    plain(Call::ClockAfter, "Clock::after", &[Clock, Edges], 2),
    plain(Call::ClockEdgesBefore, "Clock::edges_before", &[Clock, Time], 1),
    plain(Call::ClockAdvance, "Clock::advance", &[Clock, Edges], layout::CLOCK),
];

pub const CLOCKS: &[Function] = &[
    plain(Call::CrossingsS, "PrescalerS::crossings", &[Phase, Stage, Parent], 1),
    plain(Call::TicksS, "PrescalerS::ticks", &[PrescalerS, Stage, Parent], 1),
    plain(Call::HighS, "PrescalerS::high", &[PrescalerS, Stage, Parent], 1),
    plain(Call::ParentEdgeS, "PrescalerS::parent_edge", &[PrescalerS, Stage, Tick], 1),
    plain(Call::CrossingsW, "PrescalerW::crossings", &[Phase, Stage, Parent], 1),
    plain(Call::TicksW, "PrescalerW::ticks", &[PrescalerW, Stage, Parent], 1),
    plain(Call::HighW, "PrescalerW::high", &[PrescalerW, Stage, Parent], 1),
    plain(Call::ParentEdgeW, "PrescalerW::parent_edge", &[PrescalerW, Stage, Tick], 1),
    plain(Call::DomainNew, "Domain::new", &[Time, Hz, Denominator], layout::DOMAIN),
    plain(Call::DomainTime, "Domain::time", &[Domain, Time], 2),
    plain(Call::DomainTicks, "Domain::ticks", &[Domain, Time], 1),
    plain(Call::DomainHalfTicks, "Domain::half_ticks", &[Domain, Time], 1),
    plain(Call::DomainHalfEdge, "Domain::half_edge", &[Domain, Tick], 2),
    plain(Call::TapCpu, "Tap::cpu", &[], 2),
    plain(Call::TapSystem, "Tap::system", &[Divide], 2),
    plain(Call::TapWatch, "Tap::watch", &[Divide], 2),
    plain(Call::TapOnChip, "Tap::on_chip", &[Divide], 2),
    plain(Call::TapOscillator, "Tap::oscillator", &[], 2),
    plain(Call::TapSubclock, "Tap::subclock", &[], 2),
    plain(Call::TapValidate, "Tap::validate", &[Tap], 0),
    plain(Call::FrequenciesDefault, "Frequencies::default", &[], 3),
    plain(Call::ClocksNew, "Clocks::new", &[Time, Frequencies], layout::SET),
    plain(Call::ClocksHasZero, "Clocks::has_zero", &[], 1).over_set(),
    plain(Call::ClocksTicks, "Clocks::ticks", &[Tap, Time], 1).over_set(),
    plain(Call::ClocksEdge, "Clocks::edge", &[Tap, Tick], 2).over_set(),
    plain(Call::ClocksAfter, "Clocks::after", &[Tap, Time, Edges], 2).over_set(),
    plain(Call::ClocksAvailable, "Clocks::available", &[Tap], 1).over_set(),
    plain(Call::ClocksHigh, "Clocks::high", &[Tap, Time], 1).over_set(),
    plain(Call::HalfTicks, "Clocks::system_half_ticks", &[Time], 1).over_set(),
    plain(Call::HalfEdge, "Clocks::system_half_edge", &[Tick], 2).over_set(),
    plain(Call::ClocksAdvanceSystem, "Clocks::advance_system", &[Edges], layout::SET).over_set(),
    plain(Call::WaitAfter, "ClockWait::after", &[Tap, Time, Edges], 5).over_set(),
    plain(Call::WaitDeadline, "ClockWait::deadline", &[Wait], 3).over_set(),
    plain(Call::WaitPause, "ClockWait::pause", &[Wait, Time], 5).over_set().always(),
    plain(Call::WaitResume, "ClockWait::resume", &[Wait, Time], 5).over_set().always(),
    plain(Call::WaitValidate, "ClockWait::validate", &[Wait], 0),
    plain(Call::WaitUses, "ClockWait::uses", &[Wait, Tap], 1),
    plain(Call::WaitLaterEdge, "ClockWait::later_edge", &[Wait, Edges], 3).over_set(),
    plain(Call::WaitEdgesBefore, "ClockWait::edges_before", &[Wait, Time], 1).over_set(),
    plain(Call::WaitSelect, "ClockWait::select", &[Wait, Tap, Time], 5).over_set().always(),
];
