//! The port's players. Both give the answer lines and nothing else: the C export returns the bytes written alone, and
//! the program writes all there are. The lines played and 0 or 6 are compared by the program of crates/traces, which
//! prints them; `compare/plain-answers` works out what it has to print.
use crate::program::Program;
use std::io;
use std::os::fd::OwnedFd;
use std::os::unix::net::UnixDatagram;
use std::process::{Output, Stdio};
use std::thread;

/// What the rest of a buffer holds.
const UNTOUCHED: u8 = 0xa5;

/// What `play_trace` writes into a buffer of that size; an error if it alters a byte behind that.
pub fn play_trace(trace: &[u8], size: usize) -> Result<Vec<u8>, String> {
    written_by(port::player::play, trace, size)
}

/// The same of `busy_trace`.
pub fn busy_trace(trace: &[u8], size: usize) -> Result<Vec<u8>, String> {
    written_by(port::player::busy, trace, size)
}

/// The same of `wave_trace`.
pub fn wave_trace(trace: &[u8], size: usize) -> Result<Vec<u8>, String> {
    written_by(port::player::wave, trace, size)
}

fn written_by(call: fn(&[u8], &mut [u8]) -> usize, trace: &[u8], size: usize) -> Result<Vec<u8>, String> {
    in_buffer(size, |out| call(trace, out))
}

/// What a call that returns the bytes written writes into a buffer of that size; an error if it alters a byte behind that.
pub fn in_buffer(size: usize, call: impl FnOnce(&mut [u8]) -> usize) -> Result<Vec<u8>, String> {
    let mut out = vec![UNTOUCHED; size];
    let written = call(&mut out);
    let rest = out.get(written..).ok_or_else(|| format!("{written} bytes written, and there are {size}"))?;
    if let Some(place) = rest.iter().position(|byte| *byte != UNTOUCHED) {
        return Err(format!("{written} bytes written, yet byte {} has changed", written + place));
    }
    out.truncate(written);
    Ok(out)
}

/// How the program gets its standard input.
#[derive(Clone, Copy)]
pub enum Feeding {
    /// By a pipe, in one write or one for each byte.
    Whole,
    Bytes,
    /// Each read returns so many bytes, though fewer at the end.
    Pieces(usize),
}

/// What the program play writes; an error if it ends badly or says anything on standard error.
pub fn play(program: &Program, words: &[&str], trace: &[u8], feeding: Feeding) -> Result<Vec<u8>, String> {
    let left = match feeding {
        Feeding::Whole => program.piped(words, trace, trace.len().max(1)),
        Feeding::Bytes => program.piped(words, trace, 1),
        Feeding::Pieces(most) => by_datagrams(program, words, trace, most),
    };
    program.named(left.and_then(written))
}

/// A read from a socket of datagrams returns one of them, an empty one like the end of a file, which may be looked
/// at twice.
fn by_datagrams(program: &Program, words: &[&str], trace: &[u8], most: usize) -> io::Result<Output> {
    let (ours, theirs) = UnixDatagram::pair()?;
    let child = program.start(words, Stdio::from(OwnedFd::from(theirs)))?;
    thread::scope(|scope| {
        scope.spawn(move || {
            let pieces = trace.chunks(most).chain([&[][..]; 2]);
            pieces.map(|piece| ours.send(piece)).find(|sent| sent.is_err())
        });
        child.wait_with_output()
    })
}

/// What a program writes until it ends well. A Rattle program has no exit status of its own: what it says on standard
/// error is its failure.
fn written(output: Output) -> io::Result<Vec<u8>> {
    if output.status.success() && output.stderr.is_empty() {
        return Ok(output.stdout);
    }
    let said = String::from_utf8_lossy(&output.stderr);
    Err(io::Error::other(format!("{}, on standard error {:?}", output.status, said.trim_end())))
}
