//! `tell`: a script in words, as a picture, or made from calls by name. Over the library: a second opinion, and no part of
//! what is proved.

use judge::tell::columns::{columns, VERBATIM};
use judge::tell::form::CALLS;
use judge::tell::picture::layout::{MAX_LANES, MAX_ROWS};
use judge::tell::picture::Picture;
use judge::tell::recount::Recount;
use judge::tell::text::told;
use judge::tell::words::counted;
use std::borrow::Cow;
use std::ffi::OsString;
use std::io::{BufRead, ErrorKind, IsTerminal, Write};
use std::path::Path;
use std::process::ExitCode;

/// How a picture begins.
const PICTURE: &[u8] = b"<svg";
/// Lines that are wrong and are told one by one.
const MOST_TOLD: usize = 10;

/// Status of a command line that is none.
const BAD_USAGE: u8 = 2;

fn main() -> ExitCode {
    let arguments: Vec<OsString> = std::env::args_os().skip(1).collect();
    let words: Vec<Cow<str>> = arguments.iter().map(|argument| argument.to_string_lossy()).collect();
    let words: Vec<&str> = words.iter().map(Cow::as_ref).collect();
    let outcome = match words.as_slice() {
        [] => input("a script").and_then(|script| print(told(&Recount::of(&script)).as_bytes())),
        ["--svg", _] => input("a script").and_then(|script| draw(Path::new(&arguments[1]), &script)),
        ["--columns"] => make_columns(),
        ["--help"] => print(usage().as_bytes()),
        _ => {
            eprint!("{}", usage());
            return ExitCode::from(BAD_USAGE);
        }
    };
    match outcome {
        Ok(()) => ExitCode::SUCCESS,
        Err(message) => {
            eprintln!("tell: {message}");
            ExitCode::FAILURE
        }
    }
}

fn usage() -> String {
    let calls: String = CALLS.iter().map(|form| format!("  {}\n", form.usage())).collect();
    format!(
        "\
usage: ./tell < SCRIPT              each line in words: what it asks, what is answered and why; the ledger at the end, the way on
       ./tell --svg FILE < SCRIPT   the same as a picture: up to {MAX_ROWS} lines, a lane each for up to {MAX_LANES} replicas
       ./tell --columns < CALLS     calls by name become a script for ./yard and ./tell
       ./tell --help

A script has a call a line, in fields of eight columns: ./yard runs it. tell is a second opinion, over the second
program in compare/, written from the documents: no part of what is proved.

Calls by name, blanks between, a call a line; what follows a # is a comment. A list of certificates has just f+1
numbers; an open has no steps, or eight:
{calls}  {VERBATIM} LINE    (stands in the script as it is, to show a line that is no call)
"
    )
}

/// All of standard input. Who sits at a terminal is told what is read.
fn input(what: &str) -> Result<Vec<u8>, String> {
    let mut stdin = std::io::stdin().lock();
    if stdin.is_terminal() {
        eprintln!("tell: reading {what} from the terminal, up to its end (Ctrl-D)");
    }
    let mut bytes = Vec::new();
    loop {
        let read = stdin.fill_buf().map_err(|error| format!("standard input: {error}"))?;
        let count = read.len();
        if count == 0 {
            return Ok(bytes);
        }
        bytes.extend_from_slice(read);
        stdin.consume(count);
    }
}

/// A reader that goes away, as `head` does, has what it wants.
fn print(bytes: &[u8]) -> Result<(), String> {
    let mut stdout = std::io::stdout().lock();
    match stdout.write_all(bytes).and_then(|()| stdout.flush()) {
        Err(error) if error.kind() != ErrorKind::BrokenPipe => Err(format!("standard output: {error}")),
        _ => Ok(()),
    }
}

fn draw(file: &Path, script: &[u8]) -> Result<(), String> {
    let is_other = file.is_file() && std::fs::read(file).is_ok_and(|old| !old.is_empty() && !old.starts_with(PICTURE));
    if is_other {
        return Err(format!("{}: is there and is no picture; nothing is written", file.display()));
    }
    let name = file.file_stem().unwrap_or_default().to_string_lossy();
    let picture = Picture::of(&name, script);
    std::fs::write(file, picture.svg).map_err(|error| format!("{}: {error}", file.display()))?;
    print(format!("{}: {}\n", file.display(), picture.drawn).as_bytes())
}

/// Where lines are wrong the first of them are told, and nothing is printed.
fn make_columns() -> Result<(), String> {
    let script = columns(&input("calls")?).map_err(|wrong| {
        let more = wrong.len().saturating_sub(MOST_TOLD);
        let told = wrong[..wrong.len() - more].join("\ntell: ");
        told + &if more == 0 { String::new() } else { format!("\ntell: and {} more", counted(more as u32, "line")) }
    })?;
    print(&script)
}
