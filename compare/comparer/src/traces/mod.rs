//! Whole traces: the port's `play_trace`, its program play and the plain Rust player give the same bytes.
pub mod players;
use crate::examples::{self, Example};
use crate::options::Options;
use crate::program::Program;
use crate::report::Differences;
use crate::shrink;
use plain_player::Played;
use players::{play, Feeding};
use std::time::Instant;
use traffic::random::Random;
use traffic::trace::{self, Met};

/// Lines of most traces.
const LINES: usize = 10_000;
/// Bytes of a trace, or of answers, that are printed.
const PRINTED: usize = 400;
/// What a trace is made of, and what it isn't.
pub const ALPHABET: &[u8] = b"0123456789abcdef\t\t\t\n\nrwpgvd- A\r";

struct Comparison {
    random: Random,
    program: Program,
    /// Traces played by `play_trace`, traces fed to the program, and the lines of both.
    played: u64,
    fed: u64,
    lines: u64,
    met: Met,
    differences: Differences,
}

/// Prints what was found, and returns how many differences there are, or why it can't be run.
pub fn compare(options: &Options) -> Result<u64, String> {
    let program = Program::find("play")?;
    let start = Instant::now();
    let random = Random::new(options.seed);
    let mut comparison = Comparison {
        random,
        program,
        played: 0,
        fed: 0,
        lines: 0,
        met: Met::default(),
        differences: Differences::default(),
    };
    comparison.section("examples", Comparison::examples);
    comparison.section("buffers of 0 to 400 bytes", Comparison::buffers);
    comparison.section("bytes at random", Comparison::noise);
    comparison.section("one byte damaged", Comparison::damage);
    comparison.section("reads of one byte", Comparison::reads);
    comparison.section("of 15 to 81 lines", Comparison::windows);
    comparison.section("about a million lines", |c| c.millions(options.quick));
    comparison.section("of 10,000 lines", |c| {
        for _ in 0..options.count.div_ceil(LINES as u64) {
            c.generated(LINES);
        }
    });
    let Met { equal, at_eighth_fall } = comparison.met;
    println!("lines at the time of the line before: {equal}, ICDRR read at the eighth fall: {at_eighth_fall}");
    println!("traces: seed {}, {:.1} s", options.seed, start.elapsed().as_secs_f64());
    Ok(comparison.differences.count)
}

impl Comparison {
    fn section(&mut self, name: &str, run: impl FnOnce(&mut Self)) {
        let start = Instant::now();
        let before = [self.played, self.fed, self.lines, self.differences.count];
        run(self);
        let seconds = start.elapsed().as_secs_f64();
        let after = [self.played, self.fed, self.lines, self.differences.count];
        let [played, fed, lines, differences] = core::array::from_fn(|i| after[i] - before[i]);
        println!(
            "{name:<28}{played:>10} played{fed:>8} fed{lines:>12} lines{seconds:>8.1} s{differences:>6} differences"
        );
    }

    fn examples(&mut self) {
        match examples::traces() {
            Ok(examples) => examples.iter().for_each(|example| self.example(example)),
            Err(reason) => {
                self.differences.add(&reason);
            }
        }
    }

    fn example(&mut self, Example { name, input: trace, answers, .. }: &Example) {
        self.check(trace, trace.len() * 3);
        self.feed(trace, Feeding::Whole);
        let played = plain_player::play_like(answers, trace, usize::MAX).bytes;
        if played != *answers && self.differences.add(&format!("what stands in examples/{name}.answers")) {
            print_parting(&played, ("the file", Ok(answers)));
        }
    }

    /// Every size of buffer from 0 to 400 bytes, so that every line of a short trace is once the first without room.
    fn buffers(&mut self) {
        for _ in 0..10 {
            let trace = self.trace(30);
            (0..=400).for_each(|size| self.check(&trace, size));
        }
    }

    fn noise(&mut self) {
        for round in 0..20_000 {
            let long = round % 1000 == 0;
            let length = self.random.below(if long { 100_000 } else { 400 });
            let any = self.random.once_in(2);
            let byte = |random: &mut Random| if any { random.word() as u8 } else { random.pick(ALPHABET) };
            let trace: Vec<u8> = (0..length).map(|_| byte(&mut self.random)).collect();
            self.check(&trace, 10_000);
            if long {
                self.feed(&trace, Feeding::Whole);
            }
        }
    }

    /// Every byte of short traces replaced, left out, and doubled.
    fn damage(&mut self) {
        for _ in 0..10 {
            let trace = self.trace(40);
            for place in 0..trace.len() {
                let (before, after) = trace.split_at(place);
                let any = [self.random.word() as u8, self.random.pick(ALPHABET)];
                for middle in [&any[..1], &any[1..], &[], &[after[0], after[0]]] {
                    let damaged = [before, middle, &after[1..]].concat();
                    self.check(&damaged, 10_000);
                    if self.random.once_in(400) {
                        self.feed(&damaged, Feeding::Whole);
                    }
                }
            }
        }
    }

    /// The program fed one byte or a few at a time.
    fn reads(&mut self) {
        for most in [1, 1, 2, 30, 1000] {
            let trace = self.trace(500);
            self.feed(&trace, Feeding::Pieces(most));
            self.feed(&trace, Feeding::Bytes);
        }
        // Lines much longer than what the program can hold, and one that is the last.
        for end in [&b"\n0\t0000000000000001\tv\n"[..], b""] {
            let trace = [&b"0\t0000000000000000\td\n"[..], &vec![b'0'; 300_000], end].concat();
            self.feed(&trace, Feeding::Whole);
            self.feed(&trace, Feeding::Pieces(1000));
            self.check(&trace, 10_000);
        }
    }

    /// Around the ends of blocks of 16 lines and of the window of 64.
    fn windows(&mut self) {
        for lines in [15, 16, 17, 47, 48, 49, 63, 64, 65, 66, 79, 80, 81] {
            for _ in 0..20 {
                let trace = self.trace(lines);
                self.check(&trace, lines * 80);
            }
            let trace = self.trace(lines);
            self.feed(&trace, Feeding::Whole);
        }
    }

    /// Around the most lines that are played. The quick run has one line too many, which shows both that a million are
    /// played and that no more are.
    fn millions(&mut self, quick: bool) {
        let lines: &[usize] = if quick { &[1_000_001] } else { &[999_999, 1_000_000, 1_000_001] };
        lines.iter().for_each(|lines| self.generated(*lines));
    }

    fn trace(&mut self, lines: usize) -> Vec<u8> {
        let (trace, met) = trace::counted(self.random.word(), lines);
        self.met.equal += met.equal;
        self.met.at_eighth_fall += met.at_eighth_fall;
        trace
    }

    /// A generated trace, through all three.
    fn generated(&mut self, lines: usize) {
        let trace = self.trace(lines);
        self.check(&trace, lines * 60);
        self.feed(&trace, Feeding::Whole);
    }

    /// `play_trace`, `busy_trace` and `wave_trace` against the plain player, in a buffer of that size.
    fn check(&mut self, trace: &[u8], size: usize) {
        self.played += 1;
        self.compare("play_trace", trace, Output::Answers, size, |trace| players::play_trace(trace, size));
        self.compare("busy_trace", trace, Output::Reports, size, |trace| players::busy_trace(trace, size));
        self.compare("wave_trace", trace, Output::Waves, size, |trace| players::wave_trace(trace, size));
    }

    /// The program against the plain player.
    fn feed(&mut self, trace: &[u8], feeding: Feeding) {
        self.fed += 1;
        let program = self.program.clone();
        self.compare("play", trace, Output::Answers, usize::MAX, |trace| play(&program, &[], trace, feeding));
        self.compare("play busy", trace, Output::Reports, usize::MAX, |trace| {
            play(&program, &["busy"], trace, feeding)
        });
        self.compare("play wave", trace, Output::Waves, usize::MAX, |trace| {
            let file = play(&program, &["wave"], trace, feeding)?;
            let signals = file.strip_prefix(&plain_player::header()[..]).ok_or("another header")?;
            Ok(signals.to_vec())
        });
    }

    /// One of the port's players against the plain player, with room for so many bytes.
    fn compare(
        &mut self,
        who: &str,
        trace: &[u8],
        output: Output,
        room: usize,
        port: impl Fn(&[u8]) -> Result<Vec<u8>, String>,
    ) {
        let ours = port(trace);
        let plain = |ours: &Result<Vec<u8>, String>, trace: &[u8]| output.plain(ours, trace, room);
        let expected = plain(&ours, trace);
        self.lines += expected.lines as u64;
        if ours.as_ref() == Ok(&expected.bytes) || !self.differences.add(who) {
            return;
        }
        let mut lines: Vec<&[u8]> = trace.split_inclusive(|byte| *byte == b'\n').collect();
        shrink::shorten(&mut lines, |lines| {
            let part = lines.concat();
            let ours = port(&part);
            ours != Ok(plain(&ours, &part).bytes)
        });
        let part = lines.concat();
        let ours = port(&part);
        println!("  on {}", short(&part));
        print_parting(&plain(&ours, &part).bytes, ("port", ours.as_ref()));
    }
}

/// What is written for a line.
#[derive(Clone, Copy)]
enum Output {
    Answers,
    Reports,
    Waves,
}

impl Output {
    /// What the plain player makes of a trace, its overflows numbered as the port's answers have them.
    fn plain(self, ours: &Result<Vec<u8>, String>, trace: &[u8], room: usize) -> Played {
        match self {
            Output::Answers => plain_player::play_like(ours.as_deref().unwrap_or_default(), trace, room),
            Output::Reports => plain_player::busy(trace, room),
            Output::Waves => plain_player::wave(trace, room),
        }
    }
}

/// The plain player's answer lines and another's, from the first line that isn't the same.
pub fn print_parting(plain: &[u8], (who, other): (&str, Result<&Vec<u8>, &String>)) {
    let other = match other {
        Ok(bytes) => bytes,
        Err(reason) => return println!("  plain {}\n  {who}: {reason}", short(plain)),
    };
    let same = plain.iter().zip(other).take_while(|(a, b)| a == b).count();
    let line = plain[..same].iter().rposition(|byte| *byte == b'\n').map_or(0, |end| end + 1);
    println!("  plain from byte {line} {}\n  {who} {}", short(&plain[line..]), short(&other[line..]));
}

/// Bytes as text, and how many more there are than are shown.
pub fn short(bytes: &[u8]) -> String {
    let (shown, rest) = bytes.split_at(bytes.len().min(PRINTED));
    let more = if rest.is_empty() { String::new() } else { format!(" and {} bytes more", rest.len()) };
    format!("{:?}{more}", String::from_utf8_lossy(shown))
}
