//! Damaged text: bytes changed, put in and left out, fields too many or too few, line ends of other sorts.

use crate::call::{LAST_CODE, OPEN};
use crate::driver::Line;
use crate::field::{field_text, COLUMNS, MAX_NUMBER};
use crate::memory::CEILING;
use crate::random::Random;
use crate::script::MAX_LINE_BYTES;

const BYTES: &[u8] = b" 0123456789\t\r\n\0-+.,abc\xff\x80/:";

/// Some of the script's lines are damaged, most stay.
pub fn damaged(random: &mut Random, script: &[u8]) -> Vec<u8> {
    let mut out = Vec::new();
    let one_in = random.pick(&[2, 4, 16]);
    for line in script.split_inclusive(|&byte| byte == b'\n') {
        let mut line = line.to_vec();
        if random.once_in(one_in) {
            for _ in 0..random.pick(&[1, 1, 1, 2, 5]) {
                damage(random, &mut line);
            }
        }
        out.extend(line);
    }
    match random.below(4) {
        0 => drop(out.pop()),
        1 => out.extend(Line::new(OPEN, 1, 0, &[]).text().into_bytes()),
        _ => {}
    }
    out
}

/// Damages a line once.
pub fn damage(random: &mut Random, line: &mut Vec<u8>) {
    let place = random.below(line.len() as u32 + 1) as usize;
    match random.below(12) {
        0 | 1 if place < line.len() => line[place] = random.pick(BYTES),
        2 => line.insert(place, random.pick(BYTES)),
        3 if place < line.len() => drop(line.remove(place)),
        4 => put_field(random, line, 0),
        5 => line.truncate(place),
        6 => line.insert(line.len().saturating_sub(1), b'\r'),
        7 => *line = b"\n".to_vec(),
        8 => (0..random.below(60)).for_each(|_| put_field(random, line, 1)),
        9 => change_field(random, line),
        10 => put_before(random, line),
        _ => drop_field(random, line),
    }
}

/// Puts bytes of no number before the line.
fn put_before(random: &mut Random, line: &mut Vec<u8>) {
    let count = random.pick(&[COLUMNS, MAX_LINE_BYTES - COLUMNS, 300, 70_000]);
    line.splice(0..0, vec![b'x'; count]).for_each(drop);
}

/// Where a random field starts.
fn field_start(random: &mut Random, line: &[u8]) -> usize {
    COLUMNS * random.below((line.len() / COLUMNS) as u32 + 1) as usize
}

fn put_field(random: &mut Random, line: &mut Vec<u8>, number: u32) {
    let start = field_start(random, line);
    line.splice(start..start, field_text(number).into_bytes()).for_each(drop);
}

fn drop_field(random: &mut Random, line: &mut Vec<u8>) {
    let start = field_start(random, line);
    line.drain(start..(start + COLUMNS).min(line.len())).for_each(drop);
}

/// Texts for a field's columns, readable or not.
fn field_texts() -> Vec<String> {
    let right = |text: &str| format!("{text:>COLUMNS$}");
    let mut texts = vec![right(""), right("00"), "0".repeat(COLUMNS), right("01"), format!("{:<COLUMNS$}", 1)];
    texts.extend([right("1 0"), right("1")]);
    texts.extend([LAST_CODE + 1, MAX_NUMBER, CEILING, CEILING + 1].map(field_text));
    texts.extend([right("1").replacen(' ', "\t", 1), right("-1"), right("+0")]);
    texts.push(u32::MAX.to_string()[..COLUMNS].to_string());
    texts
}

/// Another text in a field's columns.
fn change_field(random: &mut Random, line: &mut [u8]) {
    let start = field_start(random, line);
    if let Some(field) = line.get_mut(start..start + COLUMNS) {
        let texts = field_texts();
        field.copy_from_slice(texts[random.below(texts.len() as u32) as usize].as_bytes());
    }
}
