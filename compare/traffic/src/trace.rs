//! Traces: a peripheral is played by one host after the other, with bad lines and questions thrown in.
use crate::exact;
use crate::host::{self, Host};
use crate::random::Random;
use crate::spoil;
use plain_player::Player;
use reference::Time;
use words::iic::{self, Call, State};
use words::layout::{self, Args};
use words::rates::Rates;
use words::Put;

/// The system clock: its start, numerator and denominator.
const CLOCK: exact::Clock = [0, 0, 3_686_400, 1, 0, 0];

struct Generator {
    random: Random,
    player: Player,
    host: Host,
    /// Lines until another host takes over.
    left: u64,
    state: State,
    words: Vec<u64>,
    answers: Vec<u8>,
    met: Met,
}

/// How often lines that aren't refused 4 or 5 came in one moment.
#[derive(Clone, Copy, Default, PartialEq, Eq, Debug)]
pub struct Met {
    /// Lines at the time of the line before.
    pub equal: u64,
    /// Of these, reads of ICDRR at the eighth fall.
    pub at_eighth_fall: u64,
}

/// So many lines, the last with or without its newline. About nine in ten are answered 0.
pub fn trace(seed: u64, lines: usize) -> Vec<u8> {
    counted(seed, lines).0
}

/// The same, and what it meets.
pub fn counted(seed: u64, lines: usize) -> (Vec<u8>, Met) {
    let mut generator = Generator::new(Random::new(seed));
    let late = if generator.random.once_in(4) { lines - lines / 25 } else { lines };
    let mut out = Vec::with_capacity(lines * 28);
    for line in 0..lines {
        if line == late {
            generator.jump();
        }
        generator.line(&mut out);
    }
    // An empty last line would be none without its newline.
    if generator.random.once_in(4) && !out.ends_with(b"\n\n") {
        out.pop();
    }
    (out, generator.met)
}

impl Generator {
    fn new(mut random: Random) -> Self {
        let begin = match random.below(3) {
            0 => 0,
            1 => u128::from(random.any_length()),
            _ => layout::joined(random.below(1 << 40), random.word()),
        };
        let host = Host::taking_over(&mut random, begin, CLOCK);
        let player = Player::default();
        let state = iic::blank(&Rates::DEFAULT);
        Self { random, player, host, left: 0, state, words: Vec::new(), answers: Vec::new(), met: Met::default() }
    }

    /// To a little before half counts reach 2^64, from where on every half wait is refused.
    fn jump(&mut self) {
        self.host.reach(exact::edge(&CLOCK, (1 << 63) - self.random.below(1000)));
    }

    /// One line, and what the peripheral makes of it.
    fn line(&mut self, out: &mut Vec<u8>) {
        if self.left == 0 {
            self.host = Host::taking_over(&mut self.random, self.host.now(), CLOCK);
            self.left = 1 + self.random.below(4000);
        }
        self.left -= 1;
        let start = out.len();
        match self.random.below(30) {
            0..=1 => out.extend(spoil::line(&mut self.random, self.host.now())),
            2 => put(self.host.look(), out),
            _ => put(self.host.next(&mut self.random, &self.state), out),
        }
        out.push(b'\n');
        self.answers.clear();
        let last = self.player.last();
        self.player.play(&out[start..], &mut self.answers);
        self.count(last, &out[start..]);
        self.words.clear();
        self.player.iic().put(&mut self.words);
        self.state[..iic::FIELDS].copy_from_slice(&self.words);
        self.host.reach(self.player.last().map_or(0, |at| at.raw()));
        self.host.saw(self.player.deadline().map(|at| at.raw()));
    }
}

impl Generator {
    /// Counts a line that was played at the time of the one before, over the state that it found.
    fn count(&mut self, last: Option<Time>, line: &[u8]) {
        let played = self.answers.split(|byte| *byte == b'\t').nth(1).is_some_and(|n| n != b"4" && n != b"5");
        let Some(now) = last.filter(|_| played && last == self.player.last()) else {
            return;
        };
        self.met.equal += 1;
        let read = line.ends_with(b"\tr\t7\n");
        self.met.at_eighth_fall += u64::from(read && host::fell_now(&self.state, now.raw()));
    }
}

/// The line of a call, without a newline.
pub fn put((call, args): (Call, Args), out: &mut Vec<u8>) {
    let [seconds, fraction, first, second] = core::array::from_fn(|place| args[place]);
    out.extend(format!("{seconds}\t{fraction:016x}\t{}", verb(call, [first, second])).bytes());
}

/// The verb and the operands of a call.
pub fn verb(call: Call, [first, second]: [u64; 2]) -> String {
    match call {
        Call::Read => format!("r\t{}", first & 7),
        Call::Write => format!("w\t{}\t{second:02x}", first & 7),
        Call::InputPins => format!("p\t{first}\t{second}"),
        Call::SetGate => format!("g\t{first}"),
        Call::Advance => "v".to_string(),
        Call::Deadline | Call::Validate | Call::Observe => "d".to_string(),
    }
}

#[cfg(test)]
mod tests;
