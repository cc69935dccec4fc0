//! The shortest run of lines that draws a number: the port's `shortest_run` and its program shortest beside a plain search
//! over the Rust, which plays every run apart.
pub mod hostile;
mod program;
use crate::options::Options;
use crate::program::{is_line, Program};
use crate::report::Differences;
use crate::shrink;
use plain_player::Runs;
use std::time::Instant;
use traffic::random::Random;
use traffic::trace;

/// The most lines of a trace whose runs are played, each apart.
const MOST: usize = 256;
/// The limits of the program, by its option.
const LIMITS: [(u16, &[&str]); 2] = [(256, &[]), (32, &["--leaflet"])];
/// The largest number that is asked for.
const NUMBERS: u8 = 20;

type Found = Result<(usize, usize), u8>;

struct Comparison {
    random: Random,
    program: Program,
    traces: u64,
    searches: u64,
    /// Searches by the program.
    asked: u64,
    /// Answers: runs of one line, of two, of 3 to 9 and of 10 and more; 17; 18.
    answers: [u64; 6],
    differences: Differences,
}

/// Prints what was found, and returns how many differences there are, or why it can't be run.
pub fn compare(options: &Options) -> Result<u64, String> {
    let program = Program::find("shortest")?;
    let start = Instant::now();
    let random = Random::new(options.seed);
    let mut comparison = Comparison {
        random,
        program,
        traces: 0,
        searches: 0,
        asked: 0,
        answers: [0; 6],
        differences: Differences::default(),
    };
    comparison.section("arguments", Comparison::arguments);
    comparison.section("0 to 257 lines", |c| c.lengths(options.quick));
    comparison.section("long lines", Comparison::long_lines);
    comparison.section("at random", |c| {
        let end = c.searches + options.count;
        while c.searches < end {
            c.at_random();
        }
    });
    let [one, two, some, many, beyond, never] = comparison.answers;
    println!("runs of 1 line {one}, of 2 {two}, of 3 to 9 {some}, of 10 and more {many}; 17 {beyond}, 18 {never}");
    println!("shortest: seed {}, {:.1} s", options.seed, start.elapsed().as_secs_f64());
    Ok(comparison.differences.count)
}

/// Which overflow the last of some lines draws by the port's answer lines: 13, or else 7.
fn overflow(lines: &[&[u8]]) -> u8 {
    let mut out = vec![0; lines.len() * plain_player::ROOM];
    let written = port::player::play(&lines.concat(), &mut out);
    let last = out[..written].trim_ascii_end().rsplit(|byte| *byte == b'\n').next().unwrap_or_default();
    if last.split(|byte| *byte == b'\t').nth(1) == Some(b"13") {
        13
    } else {
        7
    }
}

impl Comparison {
    fn section(&mut self, name: &str, run: impl FnOnce(&mut Self)) {
        let start = Instant::now();
        let before = [self.traces, self.searches, self.asked, self.differences.count];
        run(self);
        let seconds = start.elapsed().as_secs_f64();
        let after = [self.traces, self.searches, self.asked, self.differences.count];
        let [traces, searches, asked, differences] = core::array::from_fn(|i| after[i] - before[i]);
        println!(
            "{name:<20}{traces:>8} traces{searches:>10} searches{asked:>8} by the program{seconds:>8.1} s{differences:>6} \
             differences"
        );
    }

    /// What the program says to arguments that it can't take, and to a number written with zeros.
    fn arguments(&mut self) {
        for words in program::REFUSED {
            self.asked += 1;
            let said = self.program.run(words, b"\n");
            if !matches!(&said, Ok((out, error)) if out.is_empty() && is_line(error)) {
                self.differences.add(&format!("the program with {words:?} says {said:?}"));
            }
        }
        for (_, option) in LIMITS {
            self.ask(b"\n", option, "004", Ok((1, 1)));
        }
    }

    /// A generated trace cut to every number of lines; in the quick run to those up to 64 and to the last three.
    fn lengths(&mut self, quick: bool) {
        let lengths = (0..=257).filter(|lines| !quick || *lines <= 64 || *lines >= 255);
        for lines in lengths.collect::<Vec<_>>() {
            let trace = self.cut(lines);
            self.check(&trace);
            self.ask_once(&trace);
        }
    }

    /// Traces longer than what the program can hold, by lines longer than any call's.
    fn long_lines(&mut self) {
        for lines in [1, 2, 30, 100, 256, 257, 300] {
            let trace = self.cut(lines);
            let trace = hostile::lengthened(&mut self.random, &trace);
            self.check(&trace);
            self.ask_once(&trace);
        }
    }

    fn at_random(&mut self) {
        let most = match self.random.below(20) {
            0 => 300,
            1..=2 => MOST as u64,
            3..=7 => 100,
            _ => 30,
        };
        let lines = self.random.below(most + 1) as usize;
        let mut trace = self.cut(lines);
        if self.random.once_in(2) {
            trace = hostile::spoilt(&mut self.random, &trace);
        }
        self.check(&trace);
        if self.random.once_in(10) {
            self.ask_once(&trace);
        }
    }

    /// So many lines of a generated trace, from its beginning, its end or anywhere.
    fn cut(&mut self, lines: usize) -> Vec<u8> {
        let more = self.random.below(200) as usize;
        let trace = trace::trace(self.random.word(), lines + more);
        let anywhere = self.random.below(more as u64 + 1) as usize;
        let from = self.random.pick(&[0, anywhere, more]);
        trace.split_inclusive(|byte| *byte == b'\n').skip(from).take(lines).collect::<Vec<_>>().concat()
    }

    /// `shortest_run` against the plain search, with every number and limits around the lines that there are.
    fn check(&mut self, trace: &[u8]) {
        self.traces += 1;
        let runs = Runs::of(trace, MOST, overflow);
        let lines = runs.lines() as u16;
        for limit in [LIMITS[0].0, LIMITS[1].0, lines, lines.saturating_sub(1), u16::MAX] {
            if limit >= lines && runs.lines() > MOST {
                continue;
            }
            for number in 0..=NUMBERS {
                let plain = runs.shortest(number, limit.into());
                self.count(plain);
                if port::search::shortest(trace, number, limit) != plain {
                    self.show(trace, number, limit);
                }
            }
        }
    }

    fn count(&mut self, found: Found) {
        self.searches += 1;
        let place = match found {
            Ok((_, 1)) => 0,
            Ok((_, 2)) => 1,
            Ok((_, 3..=9)) => 2,
            Ok(_) => 3,
            Err(17) => 4,
            Err(_) => 5,
        };
        self.answers[place] += 1;
    }

    fn show(&mut self, trace: &[u8], number: u8, limit: u16) {
        if !self.differences.add(&format!("shortest_run of {number}, limit {limit}")) {
            return;
        }
        let both = |trace: &[u8]| {
            (
                Runs::of(trace, MOST, overflow).shortest(number, limit.into()),
                port::search::shortest(trace, number, limit),
            )
        };
        let mut lines: Vec<&[u8]> = trace.split_inclusive(|byte| *byte == b'\n').collect();
        shrink::shorten(&mut lines, |lines| {
            let (plain, port) = both(&lines.concat());
            plain != port
        });
        let part = lines.concat();
        let (plain, port) = both(&part);
        println!("  on {:?}\n  plain {plain:?}\n  port {port:?}", String::from_utf8_lossy(&part));
    }

    /// The program against the plain search, for one number and both limits.
    fn ask_once(&mut self, trace: &[u8]) {
        let number = self.random.below(u64::from(NUMBERS) + 1) as u8;
        let runs = Runs::of(trace, MOST, overflow);
        for (limit, option) in LIMITS {
            self.ask(trace, option, &number.to_string(), runs.shortest(number, limit.into()));
        }
    }

    fn ask(&mut self, trace: &[u8], option: &[&str], number: &str, plain: Found) {
        self.asked += 1;
        let words = [option, &[number]].concat();
        let said = self.program.run(&words, trace);
        if !matches!(&said, Ok((out, error)) if program::says(out, error, plain)) {
            self.differences.add(&format!("the program with {words:?} says {said:?}, plain {plain:?}"));
        }
    }
}
