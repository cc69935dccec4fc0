//! What a host is like, from its first call to its last.
use crate::random::Random;

#[derive(Clone, Copy, PartialEq)]
pub enum Driver {
    Master,
    Slave,
    Synchronous,
    Any,
}

#[derive(Clone, Copy, PartialEq)]
pub enum Others {
    None,
    /// Pulls SDA, and now and then SCL, at the low phases of the clock: acknowledges, data, another master's bits,
    /// stretching.
    Pulling,
    /// Another master.
    Master,
}

/// Numbers are of a hundred.
pub struct Habits {
    pub driver: Driver,
    pub others: Others,
    /// Whether it does what its driver is there for, and nothing else.
    pub calm: bool,
    /// How many changes of the lines the peripheral is told of before anything else happens.
    pub told: u64,
    /// Whether times may repeat, whether they may go back, and whether a deadline may be missed.
    pub repeats: bool,
    pub back: bool,
    pub late: bool,
    /// Whether no time is earlier than the one before.
    pub forward: bool,
    /// Whether visits come at the time of any wait, be it not the next or past; whether time jumps to where counts or
    /// times end; whether nobody waits while the peripheral holds SCL; whether what got stuck is left so.
    pub astray: bool,
    pub jumps: bool,
    pub forced: bool,
    pub patient: bool,
    /// How many calls are hostile, and of the rest how many are visits and how many are made by the others on the bus.
    pub hostile: u64,
    pub visits: u64,
    pub others_act: u64,
    /// How many bits that the peripheral sends somebody else sends, too.
    pub contended: u64,
    /// How often the program does something that breaks off what is under way, and how often it leaves a byte that was
    /// received.
    pub meddling: u64,
    pub lazy: u64,
}

impl Habits {
    pub fn any(random: &mut Random) -> Self {
        let driver = random.pick(&[Driver::Master, Driver::Master, Driver::Slave, Driver::Synchronous, Driver::Any]);
        let others = match driver {
            Driver::Master => random.pick(&[Others::Pulling, Others::Pulling, Others::None, Others::Master]),
            Driver::Slave => random.pick(&[Others::Master, Others::Master, Others::Pulling]),
            _ => random.pick(&[Others::None, Others::Pulling, Others::Master]),
        };
        let astray = random.once_in(8);
        // The order of the draws is part of what a seed means.
        Self {
            driver,
            others,
            calm: false,
            told: random.pick(&[0, 50, 90, 99, 100]),
            repeats: !random.once_in(3),
            back: random.once_in(4),
            late: astray || random.once_in(4),
            forward: false,
            astray,
            jumps: random.once_in(8),
            forced: random.once_in(6),
            patient: random.once_in(if astray { 2 } else { 8 }),
            hostile: random.pick(&[0, 0, 0, 1, 5, 30]),
            visits: random.pick(&[50, 75, 88]),
            others_act: random.pick(&[4, 8, 20]),
            contended: random.pick(&[0, 0, 0, 1, 30]),
            meddling: random.pick(&[0, 1, 5, 100]),
            lazy: random.pick(&[0, 50, 95]),
        }
    }

    /// No time is earlier than the one before, or much later.
    pub fn go_forward(&mut self) {
        (self.back, self.jumps) = (false, false);
        self.forward = true;
    }

    /// Whole transfers with those whom the driver needs, everybody told of the lines and visited in time.
    pub fn calm_down(&mut self, random: &mut Random) {
        self.calm = true;
        self.driver = random.pick(&[Driver::Master, Driver::Slave, Driver::Synchronous]);
        self.others = if self.driver == Driver::Slave { Others::Master } else { Others::Pulling };
        self.told = 100;
        (self.late, self.astray, self.forced) = (false, false, false);
        self.hostile = 0;
        self.contended = random.pick(&[0, 0, 0, 2]);
    }
}
