//! Scripts whose lines lie over the ends of the chunks in which a program reads its input.

use crate::field::{field_text, COLUMNS};
use crate::random::Random;
use crate::script::{INPUT_CHUNK, MAX_LINE_BYTES};

/// A script's lines among unreadable ones, so that the ends of chunks cut the lines at any column: before the first
/// byte, before and after the line feed too. Some lines stand there a second time, too long to be read.
pub fn over_chunk_ends(random: &mut Random, script: &[u8]) -> Vec<u8> {
    let mut out = Vec::new();
    for line in script.split_inclusive(|&byte| byte == b'\n') {
        if random.once_in(6) {
            let long = lengthened(random, line);
            put(random, &mut out, &long);
        }
        put(random, &mut out, line);
    }
    out
}

/// Adds a line, now and then over the end of the chunk: the longest that can be read sooner than others.
fn put(random: &mut Random, out: &mut Vec<u8>, line: &[u8]) {
    let room = INPUT_CHUNK - out.len() % INPUT_CHUNK;
    let before = cut(random, line.len());
    let times = if line.len() > MAX_LINE_BYTES { 4 } else { 16 };
    if before < room && (room <= line.len() || random.once_in(times)) {
        fill(random, out, room - before);
    }
    out.extend(line);
}

/// How many of a line's bytes come before the end of the chunk: its ends sooner than the columns between.
fn cut(random: &mut Random, length: usize) -> usize {
    let any = random.below(length as u32 + 1) as usize;
    random.pick(&[any, any, any, 0, length, length - 1])
}

/// So many bytes of unreadable lines.
fn fill(random: &mut Random, out: &mut Vec<u8>, count: usize) {
    let byte = if random.once_in(1000) { b'\n' } else { random.pick(b"x 0") };
    out.extend(vec![byte; count - 1]);
    out.push(b'\n');
}

/// Fields or bytes more than a line can have: just one byte, one field, or more than a block.
fn lengthened(random: &mut Random, line: &[u8]) -> Vec<u8> {
    const MOST: usize = MAX_LINE_BYTES;
    let lengths = [MOST + 1, MOST + 2, MOST + COLUMNS, 2 * MOST, 2 * MOST + 2, INPUT_CHUNK - 1, INPUT_CHUNK, 20_000];
    let length = random.pick(&lengths);
    let mut line = line.strip_suffix(b"\n").unwrap_or(line).to_vec();
    while line.len() + COLUMNS <= length {
        line.extend(field_text(1).into_bytes());
    }
    line.resize(length.max(line.len()), b' ');
    line.push(b'\n');
    line
}
