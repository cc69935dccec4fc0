//! Short runs from the default into states that a host hardly finds.
use super::trial::Trial;
use traffic::exact;
use words::iic::{self, Call, State};

/// A peripheral whose calls are made one by one, each compared; all that is done with it is none once a difference is found.
pub struct Stage<'a, 'b> {
    trial: &'a mut Trial<'b>,
    clock: exact::Clock,
    begin: u128,
    pub now: u128,
}

type Scene = fn(&mut Stage) -> Option<()>;

pub const ALL: [Scene; 10] = [
    hold_without_frame,
    hold_released_too_late,
    still_until_scl_rises,
    still_through_the_gate,
    still_and_master_again,
    monitor_behind_the_clock,
    clocked_while_starting,
    shut_too_late,
    opened_too_late,
    extended_past_the_counts,
];

/// Visits after which given levels have passed the filter: one latches them, the next sees them again.
const FILTERED_AFTER: usize = 2;

/// Plays a scene, and tells the time after it.
pub fn play(trial: &mut Trial, clock: exact::Clock, now: u128, scene: Scene) -> Option<u128> {
    let mut stage = Stage::new(trial, clock, now);
    scene(&mut stage)?;
    Some(stage.now)
}

impl<'a, 'b> Stage<'a, 'b> {
    pub fn new(trial: &'a mut Trial<'b>, clock: exact::Clock, now: u128) -> Self {
        Self { trial, clock, begin: now, now }
    }

    pub fn state(&self) -> &State {
        self.trial.state()
    }

    pub fn call(&mut self, call: Call, operands: [u64; 2]) -> Option<()> {
        self.trial.step((call, iic::args(self.now, operands))).map(|_| ())
    }

    pub fn write(&mut self, address: u64, value: u64) -> Option<()> {
        self.call(Call::Write, [address, value])
    }

    pub fn gate(&mut self, gate: u64) -> Option<()> {
        self.call(Call::SetGate, [gate, 0])
    }

    /// Visits at the time of the half wait at that place of the state.
    fn visit(&mut self, place: usize) -> Option<()> {
        self.now = exact::half_edge(&self.clock, self.state()[place + 1]);
        self.call(Call::Advance, [0, 0])
    }

    /// Levels that pass the filter.
    pub fn levels(&mut self, scl: u64, sda: u64) -> Option<()> {
        self.call(Call::InputPins, [scl, sda])?;
        for _ in 0..FILTERED_AFTER {
            if self.state()[iic::FILTER_WAIT] == 0 {
                return Some(());
            }
            self.now = exact::edge(&self.clock, self.state()[iic::FILTER_WAIT + 4]);
            self.call(Call::Advance, [0, 0])?;
        }
        let waits = self.state()[iic::FILTER_WAIT] != 0;
        assert!(!waits, "levels {scl} {sda} haven't passed the filter after {FILTERED_AFTER} visits");
        Some(())
    }

    /// A start, seen by others.
    pub fn start(&mut self) -> Option<()> {
        self.levels(1, 0)?;
        self.levels(0, 0)
    }

    /// Bits of a byte, high ones first, each up to the fall behind it.
    pub fn bits(&mut self, byte: u64, count: u32) -> Option<()> {
        (0..count).rev().try_for_each(|bit| {
            let sda = byte >> bit & 1;
            [0, 1, 0].into_iter().try_for_each(|scl| self.levels(scl, sda))
        })
    }

    /// A slave holds SCL, since a byte came while the one before it was not read.
    fn held(&mut self) -> Option<()> {
        self.gate(1)?;
        self.write(5, 0xa0)?;
        self.write(0, 0x80)?;
        self.start()?;
        self.bits(0xa0 << 1, 9)?;
        self.bits(0x55, 8)
    }

    /// A master whose start has been seen, and which waits before its first clock.
    fn started(&mut self, rate: u64) -> Option<()> {
        self.gate(1)?;
        self.write(0, 0xb0 | rate)?;
        self.write(6, 0x55)?;
        self.write(1, 0x90)?;
        self.levels(0, 1)?;
        self.visit(iic::CLOCK_WAIT)?;
        self.levels(1, 1)?;
        self.levels(1, 0)
    }

    /// A master that has let SCL go and looks whether it rises; made a slave, so that its clock stops at the next step.
    fn stopped(&mut self) -> Option<()> {
        self.started(0)?;
        self.visit(iic::CLOCK_WAIT)?;
        self.levels(0, 0)?;
        self.visit(iic::CLOCK_WAIT)?;
        self.write(0, 0x90)?;
        self.visit(iic::CLOCK_WAIT)
    }

    /// Back at the time at which it looks: the clock is to stand still, and there is none.
    fn still(&mut self) -> Option<()> {
        self.stopped()?;
        self.visit(iic::MONITOR_WAIT)
    }
}

/// SCL rises though it is held; the bus is free when the frame ends.
fn hold_without_frame(stage: &mut Stage) -> Option<()> {
    stage.held()?;
    stage.levels(1, 0)?;
    stage.write(5, 0xa1)?;
    stage.write(5, 0xa0)?;
    stage.levels(0, 0)?;
    stage.call(Call::Read, [7, 0])
}

fn hold_released_too_late(stage: &mut Stage) -> Option<()> {
    stage.held()?;
    stage.now = u128::MAX;
    stage.call(Call::Read, [7, 0])
}

fn still_until_scl_rises(stage: &mut Stage) -> Option<()> {
    stage.still()?;
    stage.levels(1, 0)
}

fn still_through_the_gate(stage: &mut Stage) -> Option<()> {
    stage.still()?;
    stage.gate(0)?;
    stage.gate(1)
}

fn still_and_master_again(stage: &mut Stage) -> Option<()> {
    stage.still()?;
    stage.write(0, 0xb0)
}

/// Master again, at an earlier time: the new clock wait ends before the monitor's.
fn monitor_behind_the_clock(stage: &mut Stage) -> Option<()> {
    stage.stopped()?;
    stage.now = stage.begin;
    stage.write(0, 0xb0)?;
    stage.visit(iic::MONITOR_WAIT)
}

/// Others clock a whole frame before the master's first clock, and once more.
fn clocked_while_starting(stage: &mut Stage) -> Option<()> {
    stage.started(0x0f)?;
    stage.bits(0, 10)
}

fn shut_too_late(stage: &mut Stage) -> Option<()> {
    stage.started(0)?;
    stage.now = u128::MAX;
    stage.gate(0)
}

fn opened_too_late(stage: &mut Stage) -> Option<()> {
    stage.started(0)?;
    stage.gate(0)?;
    stage.now = u128::MAX;
    stage.gate(1)
}

/// A byte with a wait behind it, for which the half counts don't reach: it begins a little before they end, more or less.
fn extended_past_the_counts(stage: &mut Stage) -> Option<()> {
    let before = 220 + exact::count(&stage.clock, stage.begin) % 150;
    stage.now = exact::edge(&stage.clock, (1 << 63) - before);
    stage.write(2, 0x40)?;
    stage.started(0)?;
    stage.visit(iic::CLOCK_WAIT)?;
    stage.levels(0, 0)?;
    [1, 0].repeat(8).into_iter().try_for_each(|scl| {
        stage.visit(iic::CLOCK_WAIT)?;
        let sda = stage.state()[iic::DRIVE + 1];
        stage.levels(scl, sda)
    })
}
