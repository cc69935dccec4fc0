//! The sensor's end of the wires.
use words::calls::End;
use words::sensor::{Asked, Effect, Given, Left, Rest, Sensor, State};

unsafe extern "C" {
    safe fn sensor_new() -> u64;
    safe fn sensor_abort(state: u64) -> u64;
    safe fn sensor_state(state: u64, given: u64) -> u64;
    safe fn sensor_left(state: u64, given: u64) -> u64;
    safe fn sensor_asked(state: u64, given: u64) -> u64;
}

/// The port's parser.
pub struct Port {
    state: State,
}

/// A byte that may be absent, as 1 and the byte or 0 and 0.
fn maybe(byte: Option<u8>) -> [u8; 2] {
    byte.map_or([0, 0], |byte| [1, byte])
}

/// What an edge is handed, in one word.
fn word(given: &Given, rest: Rest) -> u64 {
    let bits = [given.previous[0], given.previous[1], given.current[0], given.current[1], rest.blocked(), rest.quiet];
    let flags = bits.iter().rev().fold(0, |flags, bit| flags << 1 | u8::from(*bit));
    let [kind, number] = match given.written {
        Ok(quiet) => [u8::from(quiet), 0],
        Err(number) => [2, number],
    };
    let ([present, byte], [prepared, next]) = (maybe(given.tx), maybe(given.prepared));
    u64::from_le_bytes([present, byte, flags, kind, number, prepared, next, 0])
}

fn effect([kind, pointer, byte]: [u8; 3]) -> Effect {
    match kind {
        0 => Effect::Nothing,
        1 => Effect::Write(pointer, byte),
        2 => Effect::Prepare(pointer),
        _ => Effect::Acknowledge(pointer),
    }
}

impl Port {
    /// The edge itself, after what was asked before it.
    fn pins(&mut self, given: &Given, rest: Rest) -> Left {
        let handed = word(given, rest);
        let [answer, number, kind, pointer, byte, cleared, present, tx] = sensor_left(self.state, handed).to_le_bytes();
        let [_, alone @ .., _, _, _, _] = sensor_asked(self.state, handed).to_le_bytes();
        assert!(alone == [kind, pointer, byte], "effect_at isn't the edge's effect");
        self.state = sensor_state(self.state, handed);
        Left {
            end: if answer == 2 { End::Refused(number) } else { End::Done },
            changed: answer == 1,
            state: self.state,
            tx: (present == 1).then_some(tx),
            cleared: cleared == 1,
            effects: [effect([kind, pointer, byte]), Effect::Nothing],
        }
    }
}

impl Sensor for Port {
    fn fresh() -> Self {
        Self { state: sensor_new() }
    }

    fn made(state: State) -> Self {
        Self { state }
    }

    fn edge(&mut self, given: &Given) -> Left {
        let Some(converted) = given.converted else {
            return self.pins(given, given.rest);
        };
        let [consumes, ..] = sensor_asked(self.state, word(given, given.rest)).to_le_bytes();
        if consumes == 0 {
            return self.pins(given, given.rest);
        }
        let before = Effect::Convert;
        match converted {
            Ok(rest) => {
                let left = self.pins(given, rest);
                Left { effects: [before, left.effects[0]], ..left }
            }
            Err(number) => Left {
                end: End::Refused(number),
                changed: false,
                state: self.state,
                tx: given.tx,
                cleared: false,
                effects: [before, Effect::Nothing],
            },
        }
    }

    fn ask(&mut self) -> Asked {
        let [.., edges, idle, valid, unavailable] = sensor_asked(self.state, 0).to_le_bytes();
        Asked {
            edges: Ok(edges),
            idle: idle == 1,
            valid: [valid == 1, unavailable == 1],
            aborted: sensor_abort(self.state),
        }
    }
}
