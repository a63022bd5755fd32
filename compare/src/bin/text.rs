//! `text`: yard's loops over text, transcribed into plain Rust as the measure of their speed.
//!
//! Unlike everything else here it is made from the proved sources (crates/stream, script, reader, field): the same loops, with a search
//! by sixteen bytes where yard has the kit's for a line feed. It is for timing only and judges nothing. It opens no ledger: a line of
//! numbers is called as before any opening.

use judge::call::{call, Outcome};
use judge::field::COLUMNS;
use judge::memory::Memory;
use judge::mistake::Correct;
use judge::refusal::UNREADABLE;
use judge::script::{ANSWER_BYTES, INPUT_CHUNK, MAX_FIELDS, MAX_LINES, MAX_LINE_BYTES, MIN_FIELDS};
use std::io::{Read, Write};

const FEED_STEP: usize = 16;
/// One more byte than a readable line can have.
const HELD_PLACES: usize = MAX_LINE_BYTES + 1;

/// The line that goes on in the next chunk, and the number of lines answered.
struct Progress {
    line: [u8; HELD_PLACES],
    held: usize,
    lines: u32,
}

fn main() -> std::io::Result<()> {
    let (mut input, mut output) = (std::io::stdin().lock(), std::io::stdout().lock());
    let mut chunk = [0; INPUT_CHUNK];
    let mut out = [0; (INPUT_CHUNK + 1) * ANSWER_BYTES];
    let mut progress = Progress { line: [0; HELD_PLACES], held: 0, lines: 0 };
    while progress.lines < MAX_LINES {
        let count = input.read(&mut chunk)?;
        let written =
            if count == 0 { finish(&mut progress, &mut out) } else { feed(&mut progress, &chunk[..count], &mut out) };
        output.write_all(&out[..written])?;
        if count == 0 {
            break;
        }
    }
    output.flush()
}

/// Answers the lines that end in the chunk; gives how many bytes were written.
fn feed(progress: &mut Progress, chunk: &[u8], out: &mut [u8]) -> usize {
    let (mut rest, mut written) = (chunk, 0);
    while progress.lines < MAX_LINES {
        let Some(end) = line_end(rest) else {
            hold(progress, rest);
            return written;
        };
        let answer = if progress.held == 0 {
            answer_line(&rest[..end])
        } else {
            hold(progress, &rest[..end]);
            answer_line(&progress.line[..progress.held])
        };
        progress.held = 0;
        progress.lines += 1;
        put_answer(&mut out[written..written + ANSWER_BYTES], progress.lines, answer);
        written += ANSWER_BYTES;
        rest = &rest[end + 1..];
    }
    written
}

/// A last line may lack its line feed.
fn finish(progress: &mut Progress, out: &mut [u8]) -> usize {
    if progress.held == 0 {
        return 0;
    }
    feed(progress, b"\n", out)
}

/// Holds bytes of a line that goes on, as far as there are places.
fn hold(progress: &mut Progress, bytes: &[u8]) {
    let count = bytes.len().min(HELD_PLACES - progress.held);
    progress.line[progress.held..progress.held + count].copy_from_slice(&bytes[..count]);
    progress.held += count;
}

/// The place of the first line feed.
fn line_end(bytes: &[u8]) -> Option<usize> {
    let mut at = 0;
    while at + FEED_STEP <= bytes.len() {
        if bytes[at..at + FEED_STEP].iter().fold(false, |any, &byte| any | (byte == b'\n')) {
            break;
        }
        at += FEED_STEP;
    }
    while at < bytes.len() && bytes[at] != b'\n' {
        at += 1;
    }
    (at < bytes.len()).then_some(at)
}

/// A line of numbers is called on a ledger that is not open, by the library: no table is lent.
fn answer_line(line: &[u8]) -> Outcome {
    let mut given = [0; MAX_FIELDS];
    let Some(count) = read_numbers(line, &mut given) else {
        return Outcome { answer: UNREADABLE, first: 0, second: 0 };
    };
    let mut memory = Memory { table: &mut [], log: &mut [], blocks: &mut [] };
    call(Correct, &mut memory, given[0], given[1], given[2], &given[MIN_FIELDS..count])
}

/// The bytes of a line and the column reached.
struct Reader<'a> {
    line: &'a [u8],
    column: usize,
}

/// The numbers of a line, field after field from the column reached.
impl Iterator for Reader<'_> {
    type Item = u32;

    fn next(&mut self) -> Option<u32> {
        let number = read_number(self.line.get(self.column..)?.get(..COLUMNS)?)?;
        self.column += COLUMNS;
        Some(number)
    }
}

/// Reads the line's numbers, field after field; gives how many there are.
fn read_numbers(line: &[u8], given: &mut [u32; MAX_FIELDS]) -> Option<usize> {
    let count = line.len() / COLUMNS;
    if COLUMNS * count != line.len() || !(MIN_FIELDS..=MAX_FIELDS).contains(&count) {
        return None;
    }
    let mut reader = Reader { line, column: 0 };
    for place in &mut given[..count] {
        *place = reader.next()?;
    }
    Some(count)
}

/// Past the blanks: the digits, without a leading zero.
fn read_number(field: &[u8]) -> Option<u32> {
    let first = field.iter().position(|byte| *byte != b' ')?;
    read_digits(&field[first..])
}

fn read_digits(digits: &[u8]) -> Option<u32> {
    if digits[0] == b'0' && digits.len() != 1 {
        return None;
    }
    let mut number = 0;
    for byte in digits {
        if !byte.is_ascii_digit() {
            return None;
        }
        number = 10 * number + u32::from(*byte - b'0');
    }
    Some(number)
}

fn put_answer(text: &mut [u8], line: u32, outcome: Outcome) {
    let numbers = [line, outcome.answer, outcome.first, outcome.second];
    for (field, number) in text.chunks_exact_mut(COLUMNS).zip(numbers) {
        put_number(field, number);
    }
    text[ANSWER_BYTES - 1] = b'\n';
}

/// Blanks, then the digits over them from the last column on. Most numbers have one digit.
fn put_number(field: &mut [u8], number: u32) {
    field.copy_from_slice(&[b' '; COLUMNS]);
    let count = digit_count(number);
    if count == 1 {
        field[COLUMNS - 1] = b'0' + number as u8;
        return;
    }
    let first = COLUMNS - count;
    let mut rest = number;
    for at in (first..COLUMNS).rev() {
        field[at] = b'0' + (rest % 10) as u8;
        rest /= 10;
    }
}

fn digit_count(number: u32) -> usize {
    match number {
        0..=9 => 1,
        10..=99 => 2,
        100..=999 => 3,
        1_000..=9_999 => 4,
        10_000..=99_999 => 5,
        100_000..=999_999 => 6,
        1_000_000..=9_999_999 => 7,
        10_000_000..=99_999_999 => 8,
        _ => 0,
    }
}
