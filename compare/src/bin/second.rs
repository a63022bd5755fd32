//! `second`: yard's input and output over the library. Output is written after each chunk read.

use judge::mistake::Correct;
use judge::script::Program;
use std::io::{ErrorKind, Read, Write};
use std::process::ExitCode;

const BLOCK: usize = 1 << 16;

fn main() -> ExitCode {
    match run() {
        Ok(()) => ExitCode::SUCCESS,
        // A closed output or a failed read: nothing more can be said.
        Err(_) => ExitCode::FAILURE,
    }
}

fn run() -> std::io::Result<()> {
    let mut input = std::io::stdin().lock();
    let mut output = std::io::stdout().lock();
    let mut program = Program::new(Correct);
    let mut bytes = vec![0; BLOCK];
    let mut out = Vec::new();
    while !program.is_done() {
        let count = match input.read(&mut bytes) {
            Ok(count) => count,
            Err(error) if error.kind() == ErrorKind::Interrupted => continue,
            Err(error) => return Err(error),
        };
        if count == 0 {
            program.finish(&mut out);
        } else {
            program.feed(&bytes[..count], &mut out);
        }
        output.write_all(&out)?;
        output.flush()?;
        out.clear();
        if count == 0 {
            break;
        }
    }
    Ok(())
}
