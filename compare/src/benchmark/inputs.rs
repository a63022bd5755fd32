//! Scripts that the programs are timed on.

use crate::call::*;
use crate::driver::{script_text, Driver, Line};
use crate::field::field_text;
use crate::generate::damage::damage;
use crate::generate::progress::progress;
use crate::generate::scripts::script;
use crate::memory::{CEILING, MAX_F, MAX_REPLICAS};
use crate::mistake::Correct;
use crate::random::Random;
use crate::script::{BLOCK_SLOTS, CERTIFICATE_SLOTS};

/// Name and text of each row's script, of some `lines` lines.
pub fn rows(seed: u64, lines: usize) -> Vec<(String, Vec<u8>)> {
    vec![
        ("mixed".to_string(), mixed(seed, lines)),
        ("full log".to_string(), full_log(lines)),
        (format!("f = {MAX_F}"), repeated_progress(seed, MAX_F, lines)),
    ]
}

/// Scripts of all sorts, one after the other.
fn mixed(seed: u64, lines: usize) -> Vec<u8> {
    let mut text = Vec::new();
    let (mut next, mut count) = (seed, 0);
    while count < lines {
        let mut part = script(next).text;
        next += 1;
        part.push(b'\n');
        count += part.iter().filter(|&&byte| byte == b'\n').count();
        text.extend(part);
    }
    text
}

/// Ledgers of one f that decide until their log is full.
fn repeated_progress(seed: u64, f: u32, lines: usize) -> Vec<u8> {
    let mut all: Vec<Line> = Vec::new();
    let mut random = Random::new(seed);
    while all.len() < lines {
        let left = lines - all.len();
        all.extend(progress(Random::new(random.bits()), f, &[], left, false));
    }
    script_text(&all)
}

/// An opened ledger with so many certificates and all blocks, and a replica that stands in the last one's view.
fn filled(f: u32, certificates: usize) -> (Driver<Correct>, Line) {
    let mut driver = Driver::open(Correct, f, CERTIFICATE_SLOTS, BLOCK_SLOTS);
    for block in 0..BLOCK_SLOTS as u32 - 1 {
        driver.call(BLOCK, 0, block, &[]);
    }
    let n = driver.n();
    for number in 0..certificates as u32 {
        driver.enter(number % n, number / n + 1);
    }
    let last = (certificates as u32).saturating_sub(1);
    // With no certificate to find, a view that is refused after the form test.
    let view = if certificates == 0 { CEILING } else { last / n + 1 };
    (driver, Line::new(VIEW, last % n, view, &[]))
}

fn full_log(lines: usize) -> Vec<u8> {
    let (driver, again) = filled(1, CERTIFICATE_SLOTS);
    let mut all = driver.lines();
    all.extend(vec![again; lines.saturating_sub(all.len())]);
    script_text(&all)
}

/// Two scripts that differ in `calls` repeated calls on a log of so many certificates.
pub fn growth(f: u32, certificates: usize, calls: usize) -> (Vec<u8>, Vec<u8>) {
    let (driver, again) = filled(f, certificates);
    let mut lines = driver.lines();
    let without = script_text(&lines);
    lines.extend(vec![again; calls]);
    (without, script_text(&lines))
}

/// Two scripts of the same lines on the greatest f and full memory: some calls before the opening, where they meet no memory,
/// and after the last certificate, where the form test passes and their replica is out of range.
pub fn form_test(calls: usize) -> (Vec<u8>, Vec<u8>) {
    let (driver, _) = filled(MAX_F, CERTIFICATE_SLOTS);
    let filling = script_text(&driver.lines());
    let calls = script_text(&vec![Line::new(VIEW, MAX_REPLICAS, 1, &[]); calls]);
    ([&calls[..], &filling].concat(), [&filling[..], &calls].concat())
}

/// Bytes of a very long line.
pub const LONG_LINE: usize = 70_000;

/// Just so many lines, all of them text work: calls before any opening and, as often, lines with damage. The last two
/// are very long.
pub fn text_only(seed: u64, lines: usize) -> Vec<u8> {
    let mut random = Random::new(seed);
    let mut text = Vec::new();
    let mut count = 0;
    while count + 2 < lines {
        let line = text_line(&mut random);
        // No line may open a ledger. Damage can make two lines of one, none, or a very long one.
        let is_one = line.iter().position(|&byte| byte == b'\n').map(|place| place + 1) == Some(line.len());
        if is_one && line.len() < 1000 && !line.starts_with(field_text(OPEN).as_bytes()) {
            text.extend(line);
            count += 1;
        }
    }
    let long = [vec![b'x'; LONG_LINE], vec![b'\n']].concat();
    text.extend([long.clone(), long].concat());
    text
}

/// A call, damaged half the time.
fn text_line(random: &mut Random) -> Vec<u8> {
    let list: Vec<u32> = (0..random.below(8)).map(|_| random.below(CERTIFICATE_SLOTS as u32)).collect();
    let line = Line::new(random.pick(&[ACCUMULATE, DECIDE, RECOVER]), random.below(MAX_REPLICAS), 0, &list);
    let mut text = script_text(&[line]);
    if random.once_in(2) {
        damage(random, &mut text);
    }
    text
}
