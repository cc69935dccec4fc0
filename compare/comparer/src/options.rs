//! The command line.

/// What a part is told.
#[derive(Clone, PartialEq, Eq, Debug)]
pub struct Options {
    pub seed: u64,
    /// Random calls, those of a bench's units too, lines of traces, searches, or edges.
    pub count: u64,
    /// Whether what takes long and tells little is left out.
    pub quick: bool,
    from: String,
}

/// What can be compared by itself, and the count of each in the quick run.
const PARTS: [(&str, u64); 11] = [
    ("time", 4_000_000),
    ("clocks", 4_000_000),
    ("iic", 5_000_000),
    ("hosts", 1_000_000),
    ("flags", 2_000_000),
    ("traces", 1_500_000),
    ("shortest", 50_000),
    ("sensor", 5_000_000),
    ("rates", 2_000_000),
    ("bench", 2_000_000),
    ("maps", 1_000_000),
];
/// Where runs of the peripheral can begin.
const ORIGINS: [&str; 2] = ["default", "made"];

/// The parts that are to be compared, each with its options.
pub fn read(mut words: impl Iterator<Item = String>) -> Result<Vec<(&'static str, Options)>, String> {
    let (mut seed, mut count, mut quick) = (None, None, false);
    let (mut part, mut from) = ("all".to_string(), "all".to_string());
    while let Some(word) = words.next() {
        if word == "--quick" {
            quick = true;
            continue;
        }
        let value = words.next().ok_or(format!("{word} wants a value"))?;
        match word.as_str() {
            "--seed" => seed = Some(number(&value)?),
            "--count" => count = Some(number(&value)?),
            "--part" => part = value,
            "--from" => from = value,
            _ => return Err(format!("no option {word}: --quick, --seed N, --count N, --part NAME, --from NAME")),
        }
    }
    known("part", &part, &PARTS.map(|(name, _)| name))?;
    known("beginning", &from, &ORIGINS)?;
    let seed = seed.unwrap_or(if quick { 20_102 } else { 1 });
    let count = |of_quick| count.unwrap_or(if quick { of_quick } else { 1_000_000 });
    let options = |of_quick| Options { seed, count: count(of_quick), quick, from: from.clone() };
    let chosen = PARTS.into_iter().filter(|(name, _)| part == "all" || part == *name);
    Ok(chosen.map(|(name, of_quick)| (name, options(of_quick))).collect())
}

fn known(what: &str, name: &str, names: &[&str]) -> Result<(), String> {
    if name == "all" || names.contains(&name) {
        return Ok(());
    }
    Err(format!("no {what} {name}: all, {}", names.join(", ")))
}

fn number(text: &str) -> Result<u64, String> {
    text.replace('_', "").parse().map_err(|_| format!("not a number: {text}"))
}

impl Options {
    /// Whether runs begin there.
    pub fn begins(&self, origin: &str) -> bool {
        self.from == "all" || self.from == origin
    }
}

#[cfg(test)]
mod tests {
    use super::{read, Options, PARTS};

    fn of(line: &str) -> Result<Vec<(&'static str, Options)>, String> {
        read(line.split_whitespace().map(str::to_string))
    }

    #[test]
    fn what_a_line_asks_for() {
        let given = |seed, count, quick, from: &str| Options { seed, count, quick, from: from.to_string() };
        assert_eq!(of("--part iic --from made"), Ok(vec![("iic", given(1, 1_000_000, false, "made"))]));
        assert_eq!(of("--quick --part traces"), Ok(vec![("traces", given(20_102, 1_500_000, true, "all"))]));
        assert_eq!(of("--seed 7 --count 1_000 --part time --quick"), Ok(vec![("time", given(7, 1_000, true, "all"))]));
        assert_eq!(of("").map(|parts| parts.len()), Ok(PARTS.len()));
    }

    #[test]
    fn what_it_cant_ask_for() {
        for line in ["--part iics", "--from nowhere", "--seed", "--seed x", "--count -1", "--fast 1"] {
            assert!(of(line).is_err(), "{line}");
        }
    }
}
