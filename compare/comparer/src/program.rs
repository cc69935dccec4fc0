//! A program of the port, which is asked by arguments and reads standard input.
use std::io::{self, Write};
use std::path::{Path, PathBuf};
use std::process::{Child, Command, Output, Stdio};
use std::thread;

#[derive(Clone)]
pub struct Program {
    path: PathBuf,
}

impl Program {
    /// That of the crate of this name, where rt builds it.
    pub fn find(name: &str) -> Result<Self, String> {
        let path = Path::new(env!("CARGO_MANIFEST_DIR")).join("../../crates").join(name).join("out").join(name);
        if path.exists() {
            return Ok(Self { path });
        }
        Err(format!("{} is missing: compare/run builds it", path.display()))
    }

    /// What the program writes to standard output and to standard error; an error if it can't be run or ends badly.
    pub fn run(&self, words: &[&str], input: &[u8]) -> Result<(String, String), String> {
        let output = self.named(self.piped(words, input, input.len().max(1)))?;
        if !output.status.success() {
            return self.named(Err(io::Error::other(output.status.to_string())));
        }
        Ok([output.stdout, output.stderr].map(|bytes| String::from_utf8_lossy(&bytes).into_owned()).into())
    }

    /// What it leaves, fed by a pipe with at most so many bytes in a write.
    pub fn piped(&self, words: &[&str], input: &[u8], most: usize) -> io::Result<Output> {
        let mut child = self.start(words, Stdio::piped())?;
        let pipe = child.stdin.take();
        thread::scope(|scope| {
            // The program may stop reading; what it says is judged, not that.
            scope.spawn(move || pipe.map(|mut pipe| input.chunks(most).try_for_each(|part| pipe.write_all(part))));
            child.wait_with_output()
        })
    }

    pub fn start(&self, words: &[&str], input: Stdio) -> io::Result<Child> {
        Command::new(&self.path).args(words).stdin(input).stdout(Stdio::piped()).stderr(Stdio::piped()).spawn()
    }

    /// With the program's name before the reason of an error.
    pub fn named<T>(&self, said: io::Result<T>) -> Result<T, String> {
        said.map_err(|reason| format!("{}: {reason}", self.path.display()))
    }
}

/// Whether that is one line.
pub fn is_line(text: &str) -> bool {
    text.find('\n').is_some_and(|end| end > 0 && end + 1 == text.len())
}
