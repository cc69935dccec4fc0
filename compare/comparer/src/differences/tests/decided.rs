//! The page's sections on what the Rust decides: each run is made as the page has it, by the port, both builds of the Rust and the
//! two trace players, and all answer what stands there.
use super::peripheral::alike;
use super::PAGE;
use crate::inputs::{plain_set, FREQUENCIES as DEFAULT};
use crate::peripheral::machine::{ClockSet, Machine};
use std::fs;
use words::iic::{self, Call, State};
use words::layout;
use words::rates::Rates;

const TESTS: &str = concat!(include_str!("decided.rs"), include_str!("peripheral.rs"));

/// A call of a run on the page: its line in a trace, and what the answer line has behind its number.
struct Step {
    now: u128,
    call: Call,
    operands: [u64; 2],
    line: String,
    answer: String,
}

/// `SECONDS FRACTION VERB OPERANDS → REFUSAL VALUE LEVELS STATUS`.
fn step(text: &str) -> Step {
    let (line, answer) = text.split_once('→').expect("a call and its answer");
    let fields: Vec<&str> = line.split_whitespace().collect();
    let [seconds, fraction] =
        [(fields[0], 10), (fields[1], 16)].map(|(text, radix)| u64::from_str_radix(text, radix).unwrap());
    let operand = |place: usize| fields.get(place).map_or(0, |text| u64::from_str_radix(text, 16).unwrap());
    Step {
        now: layout::joined(seconds, fraction),
        call: match fields[2] {
            "r" => Call::Read,
            "w" => Call::Write,
            "p" => Call::InputPins,
            "g" => Call::SetGate,
            "v" => Call::Advance,
            "d" => Call::Deadline,
            verb => panic!("no verb {verb}"),
        },
        operands: [operand(3), operand(4)],
        line: fields.join("\t"),
        answer: answer.split_whitespace().collect::<Vec<_>>().join("\t"),
    }
}

/// The runs that stand on the page below the name of a test, parted by lines that aren't theirs.
fn runs(name: &str) -> Vec<Vec<Step>> {
    let (_, below) = PAGE.split_once(&format!("\n`{name}`: ")).expect("the test's runs");
    let block = below.lines().take_while(|line| !line.starts_with('`') && !line.starts_with('#'));
    let lines: Vec<&str> = block.collect();
    let blocks = lines.split(|line| !line.starts_with("    "));
    blocks.filter(|block| !block.is_empty()).map(|block| block.iter().map(|line| step(line)).collect()).collect()
}

/// Plays the runs of a test everywhere, and answers the states that each leaves, call by call.
fn played(name: &str) -> Vec<Vec<State>> {
    runs(name).iter().map(|run| states(run)).collect()
}

fn states(run: &[Step]) -> Vec<State> {
    let trace: String = run.iter().map(|step| format!("{}\n", step.line)).collect();
    let answers: String = (1..).zip(run).map(|(number, step)| format!("{number}\t{}\n", step.answer)).collect();
    let mut out = [0; 4096];
    let written = port::player::play(trace.as_bytes(), &mut out);
    assert_eq!(String::from_utf8_lossy(&out[..written]), answers);
    let plain = plain_player::play_like(answers.as_bytes(), trace.as_bytes(), out.len());
    assert_eq!(String::from_utf8(plain.bytes).unwrap(), answers);
    let set = ClockSet::new(plain_set(0, DEFAULT));
    let mut machine = Machine::fresh(&Rates::DEFAULT).unwrap();
    run.iter()
        .map(|step| {
            machine.call(step.call, &set, &iic::args(step.now, step.operands)).unwrap();
            assert!(machine.parted.is_empty(), "{}", step.line);
            *machine.state()
        })
        .collect()
}

/// One clock has seen SDA low before the peripheral is off, for a second; one more is enough for a start.
#[test]
fn a_level_latched_before() {
    let runs = played("a_level_latched_before");
    assert_eq!(runs.len(), 2);
    for states in runs {
        let seen = |place: usize| [iic::LATCH + 1, iic::FILTERED + 1, iic::BUSY].map(|word| states[place][word]);
        assert_eq!([3, 4, 5, 6].map(seen), [[0, 1, 0], [0, 1, 0], [0, 1, 0], [0, 0, 1]]);
    }
}

/// The flag was seen and is written 0; the frame takes the byte that ICDRT holds by default, and TDRE is raised again.
#[test]
fn a_status_write_that_leaves_a_flag() {
    let [states] = &played("a_status_write_that_leaves_a_flag")[..] else { panic!("one run") };
    let [before, after] = [&states[3], &states[4]];
    assert_eq!([iic::STATUS, iic::SEEN].map(|word| before[word]), [iic::TDRE, iic::TDRE]);
    assert_eq!([iic::STATUS, iic::SEEN].map(|word| after[word]), [iic::TDRE, 0]);
    let waits_and_shift = [iic::FRAME + 6, iic::FRAME + 1];
    assert_eq!(waits_and_shift.map(|word| before[word]), [0, 0]);
    assert_eq!(waits_and_shift.map(|word| after[word]), [1, 0xff]);
}

/// In reset: a start of another takes the bus and arbitration from a master, without a frame; a stop gives the bus back.
#[test]
fn starts_and_stops_in_reset() {
    let [states] = &played("starts_and_stops_in_reset")[..] else { panic!("one run") };
    let seen =
        |place: usize| [iic::RESET, iic::BUSY, iic::FRAME, iic::CONTROL, iic::STATUS].map(|word| states[place][word]);
    assert_eq!([4, 5, 10].map(seen), [[1, 0, 0, 0xa0, 0], [1, 1, 0, 0x80, iic::AL], [1, 0, 0, 0x80, iic::AL]]);
}

/// A frame that waits for its byte, and one that is through, take no bit where the clock rises.
#[test]
fn a_rising_clock_in_a_frame() {
    let [states] = &played("a_rising_clock_in_a_frame")[..] else { panic!("one run") };
    let frame = |place: usize| &states[place][iic::FRAME..iic::SELECTED];
    assert_eq!([states[7][iic::FILTERED], states[8][iic::FILTERED]], [0, 1]);
    assert_eq!([frame(7), frame(8)], [[1, 0, 8, 0, 0, 1, 0, 0]; 2]);
    // While a master's stop waits for its clock, a byte of another's goes by, and one more clock.
    let mut rest = Vec::new();
    alike(|master| {
        master.gate(1)?;
        master.write(0, 0xaf)?;
        master.write(1, 0x00)?;
        master.start()?;
        master.bits(0x55 << 1, 9)?;
        let mut look = |state: &State| rest.push([state[..iic::RAW].to_vec(), state[iic::CLOCK_WAIT..].to_vec()]);
        master.levels(0, 1)?;
        look(master.state());
        master.levels(1, 1)?;
        look(master.state());
        Some(())
    });
    const DONE: u64 = 2;
    assert_eq!(rest[0][1][iic::FRAME + 3 - iic::CLOCK_WAIT], DONE);
    assert_eq!(rest[0], rest[1]);
}

/// Document 01's overrun also stops the clock and lets SCL go; before it, the byte that was received has set the count to 0.
#[test]
fn an_overrun_and_a_completion() {
    let [states] = &played("an_overrun_and_a_completion")[..] else { panic!("one run") };
    let seen = |place: usize| [iic::COUNT, iic::COMPLETED, iic::STATUS].map(|word| states[place][word]);
    assert_eq!([8, 9].map(seen), [[1, 0, 0], [0, 1, iic::RDRF]]);
    let clock = |place: usize| [iic::CONTROL, iic::STATUS, iic::CLOCK_WAIT, iic::DRIVE].map(|word| states[place][word]);
    assert_eq!([16, 17].map(clock), [[0xa0, iic::RDRF, 1, 0], [0x80, iic::RDRF | iic::AL, 0, 1]]);
}

/// After a refused call that isn't idle, an idle visit is refused, and SCL has changed.
#[test]
fn refused_idle_visit() {
    let [states] = &played("refused_idle_visit")[..] else { panic!("one run") };
    // No wait is due, since none is left; and there is a frame already.
    let waits = [iic::FILTER_WAIT, iic::SETUP_WAIT, iic::MONITOR_WAIT, iic::CLOCK_WAIT, iic::FRAME];
    assert_eq!(waits.map(|place| states[3][place]), [0, 0, 0, 0, 1]);
    assert_eq!([states[3][iic::DRIVE], states[4][iic::DRIVE]], [1, 0]);
}

/// A part of the page, from its heading to the next.
fn section(heading: &str) -> &'static str {
    let (_, part) = PAGE.split_once(&format!("## {heading}\n")).expect("the section");
    part.split("\n## ").next().unwrap()
}

/// Each row where the Rust decides names a test that there is, in its last cell.
#[test]
fn rows_where_the_rust_decides_have_tests() {
    let rows = section("Where the Rust decides").lines().filter(|line| line.starts_with("| ")).skip(1);
    let names: Vec<&str> = rows.map(|row| row.split('`').rev().nth(1).expect("a test")).collect();
    assert!(names.len() > 5);
    for name in names {
        assert!(TESTS.contains(&format!("#[test]\nfn {name}() {{")), "{name}");
    }
}

/// The definitions of a file of definitions, with the comment that stands right above each.
fn definitions(text: &str) -> Vec<(String, String)> {
    let mut found = Vec::new();
    let mut comment = String::new();
    for line in text.lines().skip(1) {
        if let Some(more) = line.strip_prefix("--") {
            comment += more;
            continue;
        }
        let signature = ["abbrev pub ", "unfoldable pub "].iter().find_map(|word| line.strip_prefix(word));
        if let Some((name, _)) = signature.and_then(|rest| rest.split_once(" :")) {
            found.push((name.to_string(), comment.clone()));
        }
        comment.clear();
    }
    found
}

/// Whether a comment cites lines of the Rust.
fn cites_lines(comment: &str) -> bool {
    comment.match_indices('(').any(|(place, _)| comment[place + 1..].starts_with(|c: char| c.is_ascii_digit()))
}

/// The crates whose definitions the section on what the Rust alone decides is about.
const CRATES: [&str; 8] = ["domain", "prescaler", "clocks", "rates", "waits", "frames", "registers", "iic"];

/// The definitions of those crates.
fn all_definitions() -> Vec<(String, String)> {
    let folders = CRATES.map(|name| format!("{}/../../crates/{name}/specs", env!("CARGO_MANIFEST_DIR")));
    let files = folders.iter().flat_map(|folder| fs::read_dir(folder).unwrap());
    let texts = files.map(|file| fs::read_to_string(file.unwrap().path()).unwrap());
    texts.filter(|text| text.starts_with("-- Definitions")).flat_map(|text| definitions(&text)).collect()
}

/// A definition that has no source but lines of iic.rs, neither document 01 nor a register of the manual, is on the page.
#[test]
fn definitions_by_the_rust_alone_are_on_the_page() {
    const SOURCES: [&str; 9] = ["document 01", "ICCR1", "ICCR2", "ICMR", "ICIER", "ICSR", "SAR", "ICDRT", "ICDRR"];
    let alone = |comment: &str| cites_lines(comment) && !SOURCES.iter().any(|source| comment.contains(source));
    let named: Vec<_> = all_definitions().into_iter().filter(|(_, comment)| alone(comment)).collect();
    assert!(named.len() > 50, "{}", named.len());
    for (name, comment) in named {
        assert!(section("What the Rust alone decides").contains(&format!("`{name}`")), "{name}: {comment}");
    }
}

/// What the rows there have in their last cell are definitions, and crates.
#[test]
fn definitions_on_the_page_exist() {
    let known: Vec<String> = all_definitions().into_iter().map(|(name, _)| name).collect();
    for row in section("What the Rust alone decides").lines().filter(|line| line.starts_with("| ")) {
        let cell = row.rsplit(" | ").next().unwrap();
        for name in cell.split('`').skip(1).step_by(2) {
            assert!(known.iter().any(|other| other == name) || CRATES.contains(&name), "{name}");
        }
    }
}
