//! Two programs on one script, byte for byte, however its bytes arrive.

use crate::random::Random;
use crate::script::INPUT_CHUNK;
use crate::script_file::ScriptFile;
use std::io::Write;
use std::os::fd::OwnedFd;
use std::os::unix::net::UnixDatagram;
use std::process::{Child, Command, Output, Stdio};

/// How a script reaches a program. The answers must not depend on it.
#[derive(Clone, Copy, PartialEq, Eq, Debug)]
pub enum Arrival {
    /// From a file: each read gets all that it asks for, so chunks end where they do in every run.
    File,
    /// Through a pipe in one write: reads get what is there.
    Pipe,
    /// Each read gets one piece, of a size from this seed.
    Pieces(u64),
}

impl Arrival {
    pub fn of(seed: u64) -> Arrival {
        match seed % 4 {
            0 => Arrival::Pieces(seed),
            1 => Arrival::Pipe,
            _ => Arrival::File,
        }
    }
}

/// A program's whole output for an input; what went wrong if it could not be run or failed.
pub fn output(program: &str, input: &[u8], arrival: Arrival) -> Result<Vec<u8>, String> {
    let outcome = match arrival {
        Arrival::File => from_file(program, input),
        Arrival::Pipe => from_pipe(program, input),
        Arrival::Pieces(seed) => from_pieces(program, input, seed),
    };
    let outcome = outcome.map_err(|error| format!("{program}: {error}"))?;
    if outcome.status.success() {
        Ok(outcome.stdout)
    } else {
        Err(format!("{program}: {}", outcome.status))
    }
}

fn start(program: &str, stdin: Stdio) -> std::io::Result<Child> {
    Command::new(program).stdin(stdin).stdout(Stdio::piped()).spawn()
}

fn from_file(program: &str, input: &[u8]) -> std::io::Result<Output> {
    let script = ScriptFile::write(input)?;
    start(program, Stdio::from(script.open()?))?.wait_with_output()
}

// In the next two: a program that stops reading early is judged by its output, so a failed write is no matter.

fn from_pipe(program: &str, input: &[u8]) -> std::io::Result<Output> {
    let mut child = start(program, Stdio::piped())?;
    let stdin = child.stdin.take();
    std::thread::scope(|scope| {
        scope.spawn(move || stdin.map(|mut pipe| pipe.write_all(input)));
        child.wait_with_output()
    })
}

/// A pipe would join pieces that wait in it. A socket of messages does not: a read gets one of them.
fn from_pieces(program: &str, input: &[u8], seed: u64) -> std::io::Result<Output> {
    let (ours, theirs) = UnixDatagram::pair()?;
    let child = start(program, Stdio::from(OwnedFd::from(theirs)))?;
    std::thread::scope(|scope| {
        scope.spawn(move || send_pieces(&ours, input, seed));
        child.wait_with_output()
    })
}

/// An empty message is the end of the input. There are some more of it for a program that asks again.
fn send_pieces(socket: &UnixDatagram, input: &[u8], seed: u64) -> std::io::Result<()> {
    let ends: [&[u8]; 4] = [&[]; 4];
    pieces(input, seed).into_iter().chain(ends).try_for_each(|piece| socket.send(piece).map(drop))
}

/// Most bytes of a piece, which is less than a program asks for at once.
pub const MAX_PIECE: u32 = INPUT_CHUNK as u32 / 2;

/// The input in pieces. Long inputs get larger ones, so that there are some 500 of them at most.
pub fn pieces(input: &[u8], seed: u64) -> Vec<&[u8]> {
    let mut random = Random::new(seed);
    let most = random.pick(&[2, 30, 300, MAX_PIECE]).max(input.len() as u32 / 250).min(MAX_PIECE);
    let mut all = Vec::new();
    let mut rest = input;
    while !rest.is_empty() {
        let size = random.within(1, most) as usize;
        let (piece, after) = rest.split_at(size.min(rest.len()));
        all.push(piece);
        rest = after;
    }
    all
}

/// The first line in which two outputs differ, counted from 1; none if they are equal.
pub fn first_difference(one: &[u8], other: &[u8]) -> Option<usize> {
    if one == other {
        return None;
    }
    let lines = |bytes: &[u8]| bytes.split_inclusive(|&byte| byte == b'\n').map(<[u8]>::to_vec).collect::<Vec<_>>();
    let (left, right) = (lines(one), lines(other));
    let equal = left.iter().zip(&right).take_while(|(one, other)| one == other).count();
    Some(equal + 1)
}
