//! Address maps: the port's lookup by the map of a text, and by one that is handed in, its program lookup, and reads and
//! writes through a map, beside a plain table of 65,536 entries and the Rust's peripheral.
mod made;
mod table;
use crate::inputs::{plain_set, FREQUENCIES};
use crate::options::Options;
use crate::program::{self, Program};
use crate::report::Differences;
use port::map::{self, Refusal};
use std::time::Instant;
use table::{Table, NONE};
use traffic::random::Random;
use words::calls::{Answer, End, Reference};
use words::iic::{self, Call, Peripheral, State};
use words::rates::Rates;

/// What SAR holds in the peripherals of `crates/map_calls`.
const SARS: [u64; 4] = [16, 32, 48, 64];
const ALPHABET: &[u8] = b"0123456789abcdefAF-\t\n 3x\r\0";

type Told = Result<u16, Refusal>;

struct Comparison {
    random: Random,
    program: Program,
    clocks: <reference::Bridge as Reference>::Set,
    lookups: u64,
    /// Maps accepted, refused 4, 19 and 20; calls that reach a peripheral, that reach none, and that draw 15.
    met: [u64; 7],
    asked: u64,
    differences: Differences,
}

/// Prints what was found, and returns how many differences there are, or why it can't be run.
pub fn compare(options: &Options) -> Result<u64, String> {
    let program = Program::find("lookup")?;
    let start = Instant::now();
    let clocks = reference::Bridge::set(&plain_set(0, FREQUENCIES)).expect("no frequency is 0");
    let random = Random::new(options.seed);
    let mut c =
        Comparison { random, program, clocks, lookups: 0, met: [0; 7], asked: 0, differences: Differences::default() };
    c.arguments();
    c.every_address();
    while c.lookups < options.count {
        c.at_random();
    }
    let [accepted, four, nineteen, twenty, reached, missing, fifteen] = c.met;
    println!(
        "maps accepted {accepted}, refused 4 {four}, 19 {nineteen}, 20 {twenty}; asked of the program {}",
        c.asked
    );
    println!("calls that reach a peripheral {reached}, none {missing}; 15 {fifteen}");
    if options.count >= 1_000_000 && c.met.contains(&0) {
        c.differences.add("something of these was never met");
    }
    println!("maps: seed {}, {} lookups and calls, {:.1} s", options.seed, c.lookups, start.elapsed().as_secs_f64());
    Ok(c.differences.count)
}

impl Comparison {
    /// What the program says to arguments that are no addresses.
    fn arguments(&mut self) {
        for words in [&["12"][..], &["0x10"], &["00FF"], &["10000"], &["0000", ""], &["-"], &["00 0"]] {
            self.asked += 1;
            let said = self.program.run(words, b"0000\tffff\t0\n");
            if !matches!(&said, Ok((out, error)) if out.is_empty() && program::is_line(error)) {
                self.differences.add(&format!("the program with {words:?} says {said:?}"));
            }
        }
    }

    /// Every address of two maps of 64 lines.
    fn every_address(&mut self) {
        for _ in 0..2 {
            let mut lines = made::partition(&mut self.random);
            while lines.len() < 60 {
                lines = made::partition(&mut self.random);
            }
            let text: String = lines.iter().map(|line| table::spelt(*line)).collect();
            self.text(text.as_bytes(), &(0..=u16::MAX).collect::<Vec<_>>());
        }
    }

    fn at_random(&mut self) {
        let mut lines = made::partition(&mut self.random);
        if self.random.once_in(2) {
            made::spoilt(&mut self.random, &mut lines);
        }
        let mut addresses = vec![0, 65535, self.random.word() as u16];
        for _ in 0..3.min(lines.len()) {
            let (first, last, _) = lines[self.random.below(lines.len() as u64) as usize];
            addresses.extend([first, last, first.wrapping_sub(1), last.wrapping_add(1)]);
        }
        let mut text: Vec<u8> = lines.iter().flat_map(|line| table::spelt(*line).into_bytes()).collect();
        self.damage(&mut text);
        self.text(&text, &addresses);
        if self.random.once_in(200) {
            self.ask(&text, &addresses);
        }
        let (words, count) = made::words(&mut self.random, &lines);
        self.words(&words, count, &addresses);
    }

    /// A last newline left out, bytes changed, left out or added, or a line more or less.
    fn damage(&mut self, text: &mut Vec<u8>) {
        let random = &mut self.random;
        let place = random.below(text.len().max(1) as u64) as usize;
        match random.below(16) {
            0 | 1 => drop(text.pop()),
            2 if !text.is_empty() => text[place] = random.pick(ALPHABET),
            3 if !text.is_empty() => drop(text.remove(place)),
            4 => text.insert(place.min(text.len()), random.pick(ALPHABET)),
            5 => *text = (0..random.below(60)).map(|_| random.pick(ALPHABET)).collect(),
            6 => text.extend(vec![b'\n'; random.below(70) as usize]),
            _ => {}
        }
    }

    fn count(&mut self, plain: &Result<Table, Refusal>) {
        let place = match plain {
            Ok(_) => 0,
            Err((4, _)) => 1,
            Err((19, _)) => 2,
            Err(_) => 3,
        };
        self.met[place] += 1;
    }

    fn text(&mut self, text: &[u8], addresses: &[u16]) {
        let plain = Table::new(&table::lines(text));
        self.count(&plain);
        for &address in addresses {
            let told = map::of_text(text, address);
            let what = || format!("address {address:04x} of {:?}", String::from_utf8_lossy(text));
            self.judge(told, lookup(&plain, address), what);
        }
    }

    /// The program, with all addresses at once.
    fn ask(&mut self, text: &[u8], addresses: &[u16]) {
        self.asked += 1;
        let plain = Table::new(&table::lines(text));
        let words: Vec<String> = addresses.iter().map(|address| format!("{address:04x}")).collect();
        let said = self.program.run(&words.iter().map(String::as_str).collect::<Vec<_>>(), text);
        let fits = match (&said, &plain) {
            (Ok((out, error)), Ok(table)) => {
                let unit = |address: &u16| match table.unit(*address) {
                    NONE => "-\n".to_string(),
                    unit => format!("{unit}\n"),
                };
                error.is_empty() && *out == addresses.iter().map(unit).collect::<String>()
            }
            (Ok((out, error)), Err((4, line))) => says(out, error, &format!("map: 4, line {line} ")),
            (Ok((out, error)), Err((n, at))) => says(out, error, &format!("map: {n}, address {at:04x} ")),
            (Err(_), _) => false,
        };
        if !fits {
            self.differences.add(&format!("the program on {:?} says {said:?}", String::from_utf8_lossy(text)));
        }
    }

    fn words(&mut self, words: &[u64; 64], count: usize, addresses: &[u16]) {
        let plain = Table::new(&made::meant(words, count));
        self.count(&plain);
        for &address in addresses {
            let told = map::of_words(words, count, address);
            self.judge(told, lookup(&plain, address), || format!("address {address:04x} of {count} of {words:x?}"));
        }
        let units = self.random.pick(&[0, 1, 2, 3, 4, 4, 4, 5, usize::MAX]);
        let (address, value) = (self.random.pick(addresses), self.random.word() as u8);
        let target = target(&plain, units, address);
        self.met[match target {
            Ok(Some(_)) => 4,
            Ok(None) => 5,
            Err((15, _)) => 6,
            Err(_) => return,
        }] += 1;
        let what = || format!("{units} units, address {address:04x}, byte {value:02x}, {count} of {words:x?}");
        let read = target.and_then(|unit| match unit {
            Some(unit) => self.called(Call::Read, unit, address, value).0,
            None => Ok(255),
        });
        self.judge(map::read(words, count, units, address), read, || format!("read: {}", what()));
        for shows in 0..4 {
            let written = target.and_then(|unit| {
                let call = if unit == Some(shows) { Call::Write } else { Call::Observe };
                self.called(call, shows, address, value).1
            });
            let told = map::write(words, count, units, address, value, shows as u8);
            self.judge(told, written, || format!("write: {}, unit {shows} shows", what()));
        }
    }

    /// What the Rust's peripheral answers to a call at 1 s, and what the register of that address shows then.
    fn called(&self, call: Call, unit: usize, address: u16, value: u8) -> (Told, Told) {
        let mut state: State = iic::blank(&Rates::DEFAULT);
        let mut words = Vec::new();
        reference::Bridge::words(&reference::Bridge::fresh(&Rates::DEFAULT), &mut words);
        state.copy_from_slice(&words);
        state[iic::ADDRESS] = SARS[unit];
        let mut iic = reference::Bridge::state(&state);
        let mut answer = Answer::empty();
        let args = iic::args(1 << 64, [address.into(), value.into()]);
        reference::Bridge::call(call, &mut iic, &self.clocks, &args, &mut answer);
        let told = |answer: &Answer| match answer.end {
            End::Done => Ok(answer.words[1] as u16),
            End::Refused(number) => Err((number, 0)),
            End::Trapped(_) => Err((255, 0)),
        };
        let first = told(&answer);
        let mut shown = Answer::empty();
        reference::Bridge::call(Call::Observe, &mut iic, &self.clocks, &args, &mut shown);
        (first, first.and(told(&shown)))
    }

    fn judge(&mut self, told: Told, plain: Told, what: impl FnOnce() -> String) {
        self.lookups += 1;
        if told != plain {
            self.differences.add(&format!("{}\n  plain {plain:?}\n  port {told:?}", what()));
        }
    }
}

fn says(out: &str, error: &str, start: &str) -> bool {
    out.is_empty() && program::is_line(error) && error.starts_with(start)
}

fn lookup(plain: &Result<Table, Refusal>, address: u16) -> Told {
    plain.as_ref().map(|table| table.unit(address).into()).map_err(|refusal| *refusal)
}

/// Whom a call reaches: one of the peripherals, or none.
fn target(plain: &Result<Table, Refusal>, units: usize, address: u16) -> Result<Option<usize>, Refusal> {
    if !(1..=4).contains(&units) {
        return Err((15, 0));
    }
    let unit = usize::from(lookup(plain, address)?);
    Ok((unit < units).then_some(unit))
}
