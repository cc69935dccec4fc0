//! Stand-in for the rest of the sensor: the fields that i2c.rs looks at, and what it asks for, answered as it was told.
//! A child of the sensor's module, which can see its parser.
use super::i2c::State;
use crate::bridge::ended;
use crate::{Error, Time};
use words::calls::End;
use words::sensor::{self, Asked, Effect, Given, Left, Rest};
use words::{Put, Reader, Take};

// Every word of the Rust's state is compared.
const _: () = assert!(<State as Put>::COUNT == sensor::FIELDS, "the state's words aren't those of the Rust's fields");

pub struct Bma150 {
    pub(super) i2c: State,
    pub(super) selected: bool,
    pub(super) unpowered_since: Option<Time>,
    pub(super) serial_ready: Option<Time>,
    pub(super) quiet_deadline: Option<Time>,
    pub(super) tx: Option<u8>,
    pub(super) tx_pair: Option<u8>,
    pub(super) tx_shadow: bool,
    answers: Answers,
    effects: [Effect; 2],
    asked: usize,
    words: Vec<u64>,
}

/// What the rest of the sensor answers at an edge.
struct Answers {
    now: Time,
    converted: Result<Rest, u8>,
    written: Result<bool, u8>,
    prepared: Option<u8>,
}

/// What i2c.rs asks for.
impl Bma150 {
    pub(super) fn sync_local_until(&mut self, now: Time, _: bool) -> Result<(), Error> {
        assert!(now == self.answers.now, "another time");
        self.note(Effect::Convert);
        self.stand(self.answers.converted.map_err(Error::Sensor)?);
        Ok(())
    }

    pub(super) fn write_register(&mut self, pointer: u8, byte: u8, now: Time) -> Result<(), Error> {
        assert!(now == self.answers.now, "another time");
        self.note(Effect::Write(pointer, byte));
        let quiet = self.answers.written.map_err(Error::Sensor)?;
        self.quiet_deadline = quiet.then_some(now);
        Ok(())
    }

    pub(super) fn prepare_read(&mut self, pointer: u8) -> Option<u8> {
        self.note(Effect::Prepare(pointer));
        self.answers.prepared
    }

    pub(super) fn acknowledge_read(&mut self, pointer: u8) {
        self.note(Effect::Acknowledge(pointer));
    }

    fn note(&mut self, effect: Effect) {
        self.effects[self.asked] = effect;
        self.asked += 1;
    }

    fn stand(&mut self, rest: Rest) {
        let now = self.answers.now;
        self.selected = rest.selected;
        self.unpowered_since = rest.unpowered.then_some(now);
        self.serial_ready = rest.not_ready.then_some(now);
        self.quiet_deadline = rest.quiet.then_some(now);
    }
}

impl Bma150 {
    fn with(i2c: State) -> Self {
        Self {
            i2c,
            selected: false,
            unpowered_since: None,
            serial_ready: None,
            quiet_deadline: None,
            tx: None,
            tx_pair: None,
            tx_shadow: false,
            answers: Answers { now: Time::ZERO, converted: Ok(Rest::default()), written: Ok(false), prepared: None },
            effects: [Effect::Nothing; 2],
            asked: 0,
            words: Vec::with_capacity(sensor::FIELDS),
        }
    }

    /// The state in one word.
    fn word(&mut self, state: State) -> sensor::State {
        self.words.clear();
        state.put(&mut self.words);
        sensor::state(core::array::from_fn(|place| self.words[place] as u8))
    }
}

impl sensor::Sensor for Bma150 {
    fn fresh() -> Self {
        Self::with(State::default())
    }

    fn made(state: sensor::State) -> Self {
        let words: [u64; sensor::FIELDS] = core::array::from_fn(|place| u64::from(sensor::field(state, place)));
        Self::with(State::take(&mut Reader::new(&words)))
    }

    fn edge(&mut self, given: &Given) -> Left {
        let now = Time::from_raw(given.now);
        let converted = given.converted.unwrap_or(Ok(given.rest));
        self.answers = Answers { now, converted, written: given.written, prepared: given.prepared };
        self.stand(given.rest);
        (self.tx, self.tx_pair, self.tx_shadow) = (given.tx, Some(0), true);
        (self.effects, self.asked) = ([Effect::Nothing; 2], 0);
        let mut changed = false;
        let end = ended(|| {
            changed = match given.converted {
                Some(_) => self.i2c_pins_at(given.previous, given.current, now)?,
                None => self.i2c_pins(given.previous, given.current, now)?,
            };
            Ok(())
        });
        assert!(self.tx_pair.is_none() != self.tx_shadow, "the pair and the shadow aren't dropped together");
        let state = self.word(self.i2c);
        Left { end, changed, state, tx: self.tx, cleared: !self.tx_shadow, effects: self.effects }
    }

    fn ask(&mut self) -> Asked {
        let mut edges = 0;
        let end = ended(|| {
            edges = self.i2c.effect_edges();
            Ok(())
        });
        let mut left = self.i2c;
        left.abort();
        Asked {
            edges: if end == End::Done { Ok(edges) } else { Err(end) },
            idle: self.i2c.idle(),
            valid: [true, false].map(|available| self.i2c.validate(available).is_ok()),
            aborted: self.word(left),
        }
    }
}
