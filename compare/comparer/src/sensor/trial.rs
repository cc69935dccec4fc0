//! One sensor of the port and of each build of the Rust, which get the same edges.
use crate::differences::sensor::{self as rows, Call, Parting};
use checked::Bma150 as Checked;
use port::sensor::Port;
use reference::Bma150 as Plain;
use words::calls::End;
use words::sensor::{Asked, Given, Left, Sensor, State};

/// How a call ended where the checked build trapped, and the row that allows it.
pub struct Parted {
    pub call: &'static str,
    pub ends: [Option<End>; 3],
    pub row: &'static str,
}

pub struct Trial {
    port: Port,
    plain: Plain,
    checked: Checked,
    state: State,
    left: Option<Left>,
    /// Whether `validate` accepts the state.
    accepted: bool,
    pub parted: Vec<Parted>,
}

impl Trial {
    fn new(port: Port, plain: Plain, checked: Checked) -> Self {
        Self { port, plain, checked, state: 0, left: None, accepted: true, parted: Vec::new() }
    }

    pub fn fresh() -> Self {
        Self::new(Port::fresh(), Plain::fresh(), Checked::fresh())
    }

    pub fn made(state: State) -> Self {
        Self { state, ..Self::new(Port::made(state), Plain::made(state), Checked::made(state)) }
    }

    /// The state of the port, which is that of the plain build.
    pub fn state(&self) -> State {
        self.state
    }

    pub fn tx(&self) -> Option<u8> {
        self.left.and_then(|left| left.tx)
    }

    /// What the last edge left.
    pub fn left(&self) -> &Left {
        self.left.as_ref().expect("an edge was made")
    }

    pub fn accepted(&self) -> bool {
        self.accepted
    }

    /// Makes an edge and asks all questions after it, everywhere; an error tells what differs.
    pub fn edge(&mut self, given: &Given) -> Result<(), String> {
        let (port, plain, checked) = (self.port.edge(given), self.plain.edge(given), self.checked.edge(given));
        if port != plain {
            return Err(format!("the edge\n  port: {port:?}\n  plain: {plain:?}\n  checked: {checked:?}"));
        }
        if checked != plain {
            self.part(Call::Edge(given), [plain.end, checked.end, port.end])?;
            // A trap ends a run of that build; it goes on from where the others are.
            self.checked = Checked::made(port.state);
        }
        self.state = port.state;
        self.left = Some(port);
        self.ask()
    }

    fn ask(&mut self) -> Result<(), String> {
        let (port, plain, checked) = (self.port.ask(), self.plain.ask(), self.checked.ask());
        if port != plain || plain != (Asked { edges: plain.edges, ..checked }) {
            return Err(format!("the questions\n  port: {port:?}\n  plain: {plain:?}\n  checked: {checked:?}"));
        }
        self.accepted = port.valid[0];
        let end = |asked: Asked| asked.edges.err().unwrap_or(End::Done);
        match checked.edges {
            edges if edges == plain.edges => Ok(()),
            Err(_) => self.part(Call::EffectEdges, [end(plain), end(checked), end(port)]),
            Ok(edges) => Err(format!("effect_edges of the checked build is {edges}")),
        }
    }

    /// The checked build ended in another way: a row has to allow it.
    fn part(&mut self, call: Call, ends: [End; 3]) -> Result<(), String> {
        let Some(Parting { row, name }) = rows::parting(self.state, call, ends) else {
            return Err(format!("plain, checked and the port end so: {ends:?}"));
        };
        self.parted.push(Parted { call: name, ends: ends.map(Some), row });
        Ok(())
    }
}

#[cfg(test)]
mod tests {
    use super::*;
    use words::sensor::{state, Rest, RECEIVE};

    /// A rise that samples a 1, with a byte to send and an answer to a write.
    fn rise(written: Result<bool, u8>) -> Given {
        let (previous, current, rest) = ([false, true], [true, true], Rest::default());
        Given { tx: Some(7), previous, current, now: 3, rest, converted: Some(Ok(rest)), written, prepared: None }
    }

    /// Sensors whose states aren't the same. A whole control byte leaves phase, byte awaited, bits and shift their mark, and
    /// drops the rest.
    #[test]
    fn differences_are_noticed() {
        let before = [RECEIVE, 1, 0, 5, 7, 0x31, 0];
        assert_eq!(Trial::made(state(before)).edge(&rise(Ok(false))), Ok(()));
        for place in 0..before.len() {
            let mut other = before;
            other[place] ^= 1;
            let (plain, checked) = (Plain::made(state(other)), Checked::made(state(other)));
            let mut trial = Trial::new(Port::made(state(before)), plain, checked);
            assert_eq!(trial.edge(&rise(Ok(false))).is_ok(), [2, 3, 6].contains(&place), "{place}");
        }
    }

    /// Answers of the rest of the sensor that aren't the same.
    #[test]
    fn answers_make_a_difference() {
        let before = state([RECEIVE, 2, 0, 5, 7, 0x31, 0]);
        let lefts = [Ok(false), Ok(true), Err(3), Err(4)].map(|written| Port::made(before).edge(&rise(written)));
        for (place, left) in lefts.iter().enumerate() {
            assert!(lefts[..place].iter().all(|other| other != left), "{place}");
            assert_eq!(left.effects[1], words::sensor::Effect::Write(5, 0x63));
        }
    }
}
