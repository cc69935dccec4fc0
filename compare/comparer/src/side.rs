//! Several parts, side by side: each in a process of its own, as many at a time as there are processors, at most two.
use std::env;
use std::io;
use std::process::{Command, Stdio};
use std::sync::atomic::{AtomicUsize, Ordering};
use std::thread;

const MOST: usize = 2;
/// How the last line of a part begins.
pub const LAST: &str = "differences: ";

/// Prints what each part prints, in one piece when it has ended, and returns the sum of their differences. Of a part that
/// can't be run or ends otherwise, the reason is one.
pub fn compare(words: &[String], names: &[&str]) -> u64 {
    let next = AtomicUsize::new(0);
    let work = || {
        let mut differences = 0;
        while let Some(name) = names.get(next.fetch_add(1, Ordering::Relaxed)) {
            let said = run(words, name).unwrap_or_else(|reason| format!("difference: part {name}: {reason}\n"));
            print!("{said}");
            differences += found(&said);
        }
        differences
    };
    let workers = thread::available_parallelism().map_or(1, |cores| cores.get().min(MOST));
    thread::scope(|scope| {
        let started: Vec<_> = (0..workers).map(|_| scope.spawn(work)).collect();
        started.into_iter().map(|worker| worker.join().unwrap_or(1)).sum()
    })
}

fn run(words: &[String], name: &str) -> io::Result<String> {
    let mut command = Command::new(env::current_exe()?);
    let output = command.args(words).args(["--part", name]).stderr(Stdio::inherit()).output()?;
    Ok(String::from_utf8_lossy(&output.stdout).into_owned())
}

/// The number on the last line of what a part prints, or 1 where that isn't there.
fn found(said: &str) -> u64 {
    let last = said.lines().last().and_then(|line| line.strip_prefix(LAST));
    last.and_then(|number| number.parse().ok()).unwrap_or(1)
}

#[cfg(test)]
mod tests {
    use super::{compare, found};

    #[test]
    fn what_a_part_says() {
        assert_eq!(found("some\ndifferences: 0\n"), 0);
        assert_eq!(found("difference: that\ndifferences: 3\n"), 3);
        for broken in ["", "some\n", "differences: 0\nmore\n", "differences: \n", "differences: -1\n"] {
            assert_eq!(found(broken), 1, "{broken}");
        }
    }

    #[test]
    fn parts_that_cant_be_run_are_differences() {
        // The test's own program knows no such options.
        assert_eq!(compare(&["--seed".to_string()], &["time", "clocks", "iic"]), 3);
    }
}
