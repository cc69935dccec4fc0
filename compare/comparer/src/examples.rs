//! The traces and scripts of the folder examples, whose answer lines stand beside them.
use std::fs;
use std::path::{Path, PathBuf};

pub struct Example {
    pub name: String,
    /// Of a script, how many units it is for.
    pub units: Option<usize>,
    pub input: Vec<u8>,
    pub answers: Vec<u8>,
}

/// The traces, which are those that the table of the folder's README.md names, and at least one.
pub fn traces() -> Result<Vec<Example>, String> {
    read(&folder(), "trace")
}

/// The scripts, in the same way.
pub fn scripts() -> Result<Vec<Example>, String> {
    read(&folder(), "script")
}

fn folder() -> PathBuf {
    Path::new(env!("CARGO_MANIFEST_DIR")).join("../../examples")
}

/// The examples of a kind; each answers file is one of an example that is named.
fn read(folder: &Path, kind: &str) -> Result<Vec<Example>, String> {
    let rows = named(folder)?;
    let names = |kinds: &[&str]| {
        let of_kind = rows.iter().filter(|row| kinds.contains(&row[0].as_str()));
        sorted(of_kind.map(|row| row[1].clone()).collect())
    };
    for (ending, named) in [(kind, names(&[kind])), ("answers", names(&["trace", "script"]))] {
        let found = found(folder, ending)?;
        if found.is_empty() || found != named {
            let folder = folder.display();
            return Err(format!("{folder}: README.md names {named:?}, the files .{ending} are {found:?}"));
        }
    }
    rows.iter().filter(|row| row[0] == kind).map(|row| example(folder, row)).collect()
}

fn example(folder: &Path, [kind, name, second]: &[String; 3]) -> Result<Example, String> {
    let units = if kind == "script" {
        Some(second.parse().map_err(|_| format!("{}: README.md says {second:?} units of {name}", folder.display()))?)
    } else {
        None
    };
    let input = bytes(&folder.join(format!("{name}.{kind}")))?;
    let answers = bytes(&folder.join(format!("{name}.answers")))?;
    Ok(Example { name: name.clone(), units, input, answers })
}

/// Of each row of the tables the first word of the table's head, the name in the first column and what the second holds.
fn named(folder: &Path) -> Result<Vec<[String; 3]>, String> {
    let page = bytes(&folder.join("README.md"))?;
    let page = String::from_utf8_lossy(&page);
    let (mut head, mut rows) = ("", Vec::new());
    for row in page.lines().filter_map(|line| line.strip_prefix("| ")) {
        let mut cells = row.trim_end_matches(" |").split(" | ");
        let (first, second) = (cells.next().unwrap_or(""), cells.next().unwrap_or(""));
        match first.strip_prefix('`').and_then(|name| name.strip_suffix('`')) {
            Some(name) => rows.push([head, name, second].map(str::to_string)),
            None => head = first,
        }
    }
    Ok(rows)
}

/// The names of the files with that ending.
fn found(folder: &Path, ending: &str) -> Result<Vec<String>, String> {
    let reason = |e| format!("{}: {e}", folder.display());
    let mut names = Vec::new();
    for file in folder.read_dir().map_err(reason)? {
        let name = file.map_err(reason)?.file_name().to_string_lossy().into_owned();
        names.extend(name.strip_suffix(&format!(".{ending}")).map(str::to_string));
    }
    Ok(sorted(names))
}

fn sorted(mut names: Vec<String>) -> Vec<String> {
    names.sort();
    names
}

fn bytes(file: &Path) -> Result<Vec<u8>, String> {
    fs::read(file).map_err(|e| format!("{}: {e}", file.display()))
}

#[cfg(test)]
mod tests {
    use super::{read, scripts, traces};
    use std::fs;

    #[test]
    fn those_that_there_are() {
        assert!(traces().unwrap().iter().all(|example| example.units.is_none()));
        assert!(scripts().unwrap().iter().all(|example| example.units.is_some()));
    }

    #[test]
    fn what_is_missing_is_told() {
        let folder = std::env::temp_dir().join(format!("examples-{}", std::process::id()));
        let reason = |kind| read(&folder, kind).err().unwrap_or_default();
        let of_trace = || reason("trace");
        assert!(of_trace().contains("README.md: "), "no folder: {}", of_trace());
        fs::create_dir(&folder).unwrap();
        let write = |name: &str, text: &str| fs::write(folder.join(name), text).unwrap();
        write("README.md", "no table\n");
        assert!(of_trace().contains("names [], the files .trace are []"), "{}", of_trace());
        write(
            "README.md",
            "| trace | what |\n|---|---|\n| `one` | a |\n\n| script | units |\n|---|---|\n| `two` | 2 |\n",
        );
        assert!(of_trace().contains("names [\"one\"], the files .trace are []"), "{}", of_trace());
        write("one.trace", "");
        write("one.answers", "");
        assert!(of_trace().contains("names [\"one\", \"two\"], the files .answers are [\"one\"]"), "{}", of_trace());
        write("two.answers", "");
        assert_eq!(read(&folder, "trace").map(|examples| examples.len()), Ok(1));
        assert!(reason("script").contains("names [\"two\"], the files .script are []"), "{}", reason("script"));
        write("two.script", "");
        assert_eq!(read(&folder, "script").map(|examples| examples[0].units), Ok(Some(2)));
        write("three.trace", "");
        assert!(of_trace().contains("the files .trace are [\"one\", \"three\"]"), "{}", of_trace());
        fs::remove_dir_all(&folder).unwrap();
    }
}
