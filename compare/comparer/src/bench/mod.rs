//! Several peripherals on one pair of wires (document 02, (g)): the port's bench beside the plain one over the Rust; and, on
//! the Rust, that two units show equal filtered levels, and that extra idle visits change nothing.
mod idler;
mod levels;
mod made;
mod met;
mod ours;
#[cfg(test)]
mod second;
#[cfg(test)]
mod tests;
use crate::examples::{self, Example};
use crate::hosts::idle::Idea;
use crate::inputs;
use crate::options::Options;
use crate::peripheral;
use crate::program::{is_line, Program};
use crate::report::Differences;
use crate::shrink;
use crate::traces::{players, print_parting, short};
use idler::Idler;
use levels::{Levels, Without};
use met::Met;
use ours::{Ours, Port};
use plain_player::bench::{self, Benched, Watch};
use reference::mcu::clocks::Clocks;
use reference::mcu::iic::Iic;
use std::time::Instant;
use traffic::random::Random;
use words::bench::Left;
use words::calls::Reference;
use words::iic::{self, State};
use words::layout::Set;
use words::rates::Rates;
use words::Put;

/// Arguments that aren't a number of units.
const REFUSED: &[&[&str]] = &[&[], &[""], &["x"], &["-1"], &["+1"], &["2 "], &["2", "2"]];

/// What a script is played on, and the bytes of room.
#[derive(Clone, Copy)]
struct Case<'a> {
    units: usize,
    set: &'a Set,
    script: &'a [u8],
    size: usize,
}

struct Comparison<O> {
    random: Random,
    ours: O,
    /// The program several, where it is asked too.
    program: Option<Program>,
    met: Met,
    /// Extra idle visits, and those of them that were refused.
    idle: [u64; 2],
    /// Passes of pairs of units that show equal levels.
    pairs: u64,
    asked: u64,
    differences: Differences,
}

/// Prints what was found, and returns how many differences there are, or why it can't be run.
pub fn compare(options: &Options) -> Result<u64, String> {
    let program = Some(Program::find("several")?);
    let start = Instant::now();
    let mut comparison = Comparison::new(options.seed, Port, program);
    comparison.section("examples", Comparison::examples);
    comparison.section("numbers of units", Comparison::numbers);
    comparison.section("arguments", Comparison::arguments);
    comparison.section("buffers of 0 to 400 bytes", Comparison::buffers);
    comparison.section("bytes at random", Comparison::noise);
    comparison.section("about 65,536 visits", Comparison::visits);
    comparison.section("about a million lines", Comparison::million);
    comparison.section("at random", |c| {
        let end = c.met.calls + options.count;
        while c.met.calls < end && c.differences.count < 100 {
            c.at_random();
        }
    });
    let missing = comparison.met.print(options.count, Port::TELLS_HALF_COUNTS);
    let [idle, refused] = comparison.idle;
    println!("{} passes of pairs with equal levels, {idle} idle visits, {refused} of them refused", comparison.pairs);
    println!("bench: seed {}, {:.1} s", options.seed, start.elapsed().as_secs_f64());
    Ok(comparison.differences.count + missing)
}

/// The clock set of traces.
fn trace_set() -> Set {
    inputs::plain_set(0, inputs::FREQUENCIES)
}

/// The words of a peripheral.
fn words_of(iic: &Iic) -> State {
    let (mut state, mut words) = (iic::blank(&Rates::DEFAULT), Vec::with_capacity(iic::FIELDS));
    iic.put(&mut words);
    state[..iic::FIELDS].copy_from_slice(&words);
    state
}

/// What the plain bench leaves.
fn left(played: &Benched) -> Left {
    Left {
        refusal: played.refusal.into(),
        written: played.bytes.len() as u64,
        lines: played.lines as u64,
        states: played.states.each_ref().map(words_of),
    }
}

impl Case<'_> {
    fn clocks(&self) -> Option<Clocks> {
        reference::Bridge::set(self.set)
    }

    /// What the plain bench makes of it, its overflows numbered as some answers have them.
    fn plain(&self, watch: &mut impl Watch, answers: &[u8]) -> Benched {
        let half_counts = bench::half_counts(answers);
        bench::watched(watch, half_counts, self.units, self.clocks().as_ref(), self.script, self.size)
    }

    /// The bytes that ours writes, and what it leaves.
    fn ours(&self, ours: &impl Ours) -> Result<(Vec<u8>, Left), String> {
        let mut left = None;
        let bytes = players::in_buffer(self.size, |out| {
            let of = ours.over_set(self.units, self.set, self.script, out);
            let written = of.written as usize;
            left = Some(of);
            written
        })?;
        Ok((bytes, left.ok_or("nothing is left")?))
    }

    /// How ours and the plain bench part, if they do.
    fn parting(&self, ours: &impl Ours, watch: &mut impl Watch) -> (Benched, Option<String>) {
        let said = self.ours(ours);
        let plain = self.plain(watch, said.as_ref().map_or(&[], |(bytes, _)| bytes));
        let what = match said {
            Err(reason) => Some(reason),
            Ok((bytes, _)) if bytes != plain.bytes => Some("the answer lines".to_string()),
            Ok((_, of)) if of != left(&plain) => Some(what_parts(&of, &left(&plain))),
            _ => None,
        };
        (plain, what)
    }

    /// What the plain bench makes of it, and what is seen of its units' levels.
    fn levels(&self, without: Without) -> (Benched, Levels) {
        let mut levels = Levels::new(without);
        let played = self.plain(&mut levels, &[]);
        (played, levels)
    }

    /// The script without some of its lines, as long as it shows what it should.
    fn shortened(&self, shows: impl Fn(&Case) -> bool) -> Vec<u8> {
        let mut lines: Vec<&[u8]> = self.script.split_inclusive(|byte| *byte == b'\n').collect();
        shrink::shorten(&mut lines, |lines| shows(&Case { script: &lines.concat(), ..*self }));
        lines.concat()
    }
}

/// Whether both leave the same, whatever the Rust remembers of a clock set.
fn same(one: &Benched, other: &Benched) -> bool {
    one.bytes == other.bytes && left(one) == left(other)
}

fn what_parts(ours: &Left, plain: &Left) -> String {
    let numbers = |left: &Left| [left.refusal, left.lines];
    if numbers(ours) != numbers(plain) {
        return format!("end and lines {:?}, plain {:?}", numbers(ours), numbers(plain));
    }
    let unit = (0..).zip(&ours.states).find(|(unit, state)| plain.states[*unit] != **state);
    unit.map_or("nothing".to_string(), |(unit, state)| {
        format!("the state of unit {unit}, {state:x?}, plain {:x?}", plain.states[unit])
    })
}

impl<O: Ours> Comparison<O> {
    fn new(seed: u64, ours: O, program: Option<Program>) -> Self {
        let (random, met) = (Random::new(seed), Met::default());
        Self { random, ours, program, met, idle: [0; 2], pairs: 0, asked: 0, differences: Differences::default() }
    }

    fn section(&mut self, name: &str, run: impl FnOnce(&mut Self)) {
        let start = Instant::now();
        let before = [self.met.scripts, self.asked, self.met.calls, self.differences.count];
        run(self);
        let seconds = start.elapsed().as_secs_f64();
        let after = [self.met.scripts, self.asked, self.met.calls, self.differences.count];
        let [scripts, asked, calls, differences] = core::array::from_fn(|i| after[i] - before[i]);
        println!(
            "{name:<28}{scripts:>8} scripts{asked:>6} by the program{calls:>12} calls{seconds:>8.1} s{differences:>6} \
             differences"
        );
    }

    fn examples(&mut self) {
        match examples::scripts() {
            Ok(examples) => examples.iter().for_each(|example| self.example(example)),
            Err(reason) => {
                self.differences.add(&reason);
            }
        }
    }

    fn example(&mut self, Example { name, units, input, answers }: &Example) {
        let case = Case { units: units.unwrap_or(0), set: &trace_set(), script: input, size: input.len() * 9 + 400 };
        self.check(case);
        self.ask(case);
        let played = case.plain(&mut (), answers);
        if (&played.bytes, played.refusal) != (answers, 0)
            && self.differences.add(&format!("what stands in examples/{name}.answers"))
        {
            print_parting(&played.bytes, ("the file", Ok(answers)));
        }
    }

    /// Numbers of units that no bench has, which draw 15 whatever the room is, and those that one has.
    fn numbers(&mut self) {
        for units in [0, 1, 2, 3, 4, 5, 9, 255, 256, 257, 1 << 32, (1 << 32) + 1, usize::MAX] {
            for size in [0, 79, 80, 10_000] {
                let script = self.script(units.min(4), 30, &trace_set());
                let case = Case { units, set: &trace_set(), script: &script, size };
                self.check(case);
            }
        }
    }

    /// What the program says to arguments that it can't take, and to numbers of units that a bench has and lacks.
    fn arguments(&mut self) {
        for words in REFUSED {
            let Some(program) = &self.program else {
                return;
            };
            self.asked += 1;
            let said = program.run(words, b"\n");
            if !matches!(&said, Ok((out, error)) if out.is_empty() && is_line(error)) {
                self.differences.add(&format!("the program with {words:?} says {said:?}"));
            }
        }
        for units in 0..=9 {
            let script = self.script(units.min(4), 10, &trace_set());
            self.ask(Case { units, set: &trace_set(), script: &script, size: usize::MAX });
        }
    }

    /// Every size of buffer from 0 to 400 bytes, so that every call of a short script is once the first without room.
    fn buffers(&mut self) {
        for round in 0..15 {
            let units = if round < 3 { 2 } else { 1 + round % 4 };
            let set = trace_set();
            let script = match round {
                0 => made::balks(),
                1 => made::gated(made::DUE),
                2 => made::gated(made::DUE + 1000),
                3..=6 => made::refused(units),
                _ => self.script(units, 40, &set),
            };
            self.check(Case { units, set: &set, script: &script, size: 10_000 });
            (0..=400).for_each(|size| self.check(Case { units, set: &set, script: &script, size }));
        }
    }

    fn noise(&mut self) {
        for _ in 0..4000 {
            let units = 1 + self.random.below(4) as usize;
            let script = self.script(units, 20, &trace_set());
            let script = made::damaged(&mut self.random, &script);
            self.check(Case { units, set: &trace_set(), script: &script, size: 10_000 });
        }
    }

    /// Scripts with about the most visits that a bench makes, whose last answer line may stand right before the visit that is
    /// one too many; with room for it and without.
    fn visits(&mut self) {
        let set = trace_set();
        for more in [2, 3, 4, 5] {
            let script = made::many_visits(more);
            let case = Case { units: 2, set: &set, script: &script, size: script.len() * 9 };
            self.check(case);
            let bytes = case.plain(&mut (), &[]).bytes.len();
            self.check(Case { size: bytes + 79, ..case });
        }
    }

    /// More than a million lines: the bench goes on after the last that is played.
    fn million(&mut self) {
        let script = made::million();
        self.check(Case { units: 2, set: &trace_set(), script: &script, size: script.len() * 30 });
    }

    fn at_random(&mut self) {
        let units = 1 + self.random.below(4) as usize;
        let set = made::set(&mut self.random);
        let lines = self.random.pick(&[10, 40, 40, 150]);
        let mut script = self.script(units, lines, &set);
        if self.random.once_in(8) {
            script = traffic::bench::contended(&mut self.random, &peripheral::system(&set), units);
        }
        if self.random.once_in(20) {
            script = made::damaged(&mut self.random, &script);
        }
        let large = script.len() * 9 + 4000;
        let small = self.random.below(script.len() as u64 * 2 + 1) as usize;
        let size = self.random.pick(&[large, large, large, small]);
        let case = Case { units, set: &set, script: &script, size };
        self.check(case);
        self.claims(case);
        if self.random.once_in(50) {
            self.ask(Case { set: &trace_set(), ..case });
        }
    }

    fn script(&mut self, units: usize, lines: usize, set: &Set) -> Vec<u8> {
        traffic::bench::script(&mut self.random, &peripheral::system(set), units, lines)
    }

    /// Ours against the plain bench, over the clock set and over that of traces.
    fn check(&mut self, case: Case) {
        self.met.begin();
        let (plain, what) = case.parting(&self.ours, &mut self.met);
        self.met.end(&plain);
        if what.is_some() {
            self.show(case);
        }
        if *case.set != trace_set() {
            return;
        }
        let bytes = players::in_buffer(case.size, |out| self.ours.script(case.units, case.script, out));
        if bytes.as_ref() != Ok(&plain.bytes) && self.differences.add("bench_script") {
            println!("  on {} units, {} bytes, {}", case.units, case.size, short(case.script));
            print_parting(&plain.bytes, ("port", bytes.as_ref()));
        }
    }

    fn show(&mut self, case: Case) {
        if !self.differences.add("bench") {
            return;
        }
        let script = case.shortened(|case| case.parting(&self.ours, &mut ()).1.is_some());
        let case = Case { script: &script, ..case };
        let (plain, what) = case.parting(&self.ours, &mut ());
        println!("  on {} units, {} bytes, {}\n  set {:x?}", case.units, case.size, short(&script), case.set);
        println!("  {}", what.unwrap_or_default());
        let ours = case.ours(&self.ours).map(|(bytes, _)| bytes);
        print_parting(&plain.bytes, ("port", ours.as_ref()));
    }

    /// Both claims, on the plain bench.
    fn claims(&mut self, case: Case) {
        let (plain, levels) = case.levels(Without::Nothing);
        self.pairs += levels.pairs;
        self.met.equal_low(levels.low);
        if let Some(what) = levels.broken {
            if self.differences.add(&format!("equal levels: {what}")) {
                let script = case.shortened(|case| case.levels(Without::Nothing).1.broken.is_some());
                println!("  on {} units, set {:x?}, {}", case.units, case.set, short(&script));
            }
        }
        let Some(clocks) = case.clocks() else {
            return;
        };
        let mut idler = Idler::new(Idea::Document, Random::new(self.random.word()), &clocks);
        let with_idle = case.plain(&mut idler, &[]);
        self.idle = [self.idle[0] + idler.visits, self.idle[1] + idler.visits_refused];
        if !same(&with_idle, &plain) && self.differences.add("extra idle visits") {
            println!("  on {} units, set {:x?}, {}", case.units, case.set, short(case.script));
            print_parting(&plain.bytes, ("with them", Ok(&with_idle.bytes)));
        }
    }

    /// The program against the plain bench: it writes all answer lines, and an end with a refusal is one line on standard
    /// error.
    fn ask(&mut self, case: Case) {
        let Some(program) = &self.program else {
            return;
        };
        self.asked += 1;
        let said = program.run(&[&case.units.to_string()], case.script);
        let bytes = said.as_ref().map_or(&[][..], |(out, _)| out.as_bytes());
        let plain = Case { size: usize::MAX, ..case }.plain(&mut (), bytes);
        let tells = |error: &str| match plain.refusal {
            0 => error.is_empty(),
            number => is_line(error) && error.contains(&format!(": {number}, ")),
        };
        if !matches!(&said, Ok((out, error)) if out.as_bytes() == plain.bytes && tells(error)) {
            self.differences.add(&format!(
                "the program with {} units says {said:?} on {}",
                case.units,
                short(case.script)
            ));
        }
    }
}
