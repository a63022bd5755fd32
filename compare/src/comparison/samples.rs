//! Two checkers on one memory: answer, values and every word; the panel; one number's text.

use super::checkers::Checker;
use crate::call::Outcome;
use crate::field::{COLUMNS, MAX_NUMBER};
use crate::generate::memory::{sample, Sample};
use crate::random::Random;

/// What differs between the two on a call, in words; none if all is equal.
pub fn call_difference(one: &dyn Checker, other: &dyn Checker, sample: &Sample) -> Option<String> {
    let (mut left, mut right) = (sample.clone(), sample.clone());
    let (answer, expected) = (one.call(&mut left), other.call(&mut right));
    if answer != expected {
        return Some(format!("answers {} and {}", told(answer), told(expected)));
    }
    let words = |name: &str, left: &[u32], right: &[u32]| {
        let place = left.iter().zip(right).position(|(one, other)| one != other)?;
        Some(format!("answer {}, then {name}[{place}] is {} and {}", told(answer), left[place], right[place]))
    };
    words("table", &left.table, &right.table)
        .or_else(|| words("log", &left.log, &right.log))
        .or_else(|| words("blocks", &left.blocks, &right.blocks))
}

fn told(outcome: Outcome) -> String {
    format!("{} {} {}", outcome.answer, outcome.first, outcome.second)
}

pub fn panel_difference(one: &dyn Checker, other: &dyn Checker, sample: &Sample) -> Option<String> {
    let (mut left, mut right) = (sample.clone(), sample.clone());
    let replica = sample.line.replica;
    let (shown, expected) = (one.panel(&mut left, replica), other.panel(&mut right, replica));
    if shown != expected {
        return Some(format!("panel of {replica}: {shown:?} and {expected:?}"));
    }
    (left != *sample).then(|| "the panel changed a word".to_string())
}

/// Reads random text and writes a random number through both.
pub fn number_difference(one: &dyn Checker, other: &dyn Checker, seed: u64) -> Option<String> {
    let mut random = Random::new(seed);
    let text = any_text(&mut random);
    let (read, expected) = (one.read_number(&text), other.read_number(&text));
    if read != expected {
        return Some(format!("{:?} reads {read} and {expected}", String::from_utf8_lossy(&text)));
    }
    let bits = random.below(33);
    let number =
        if random.once_in(8) { MAX_NUMBER + 1 - random.below(2) } else { (random.bits() >> 32 >> bits) as u32 };
    let (mut left, mut right) = (text.clone(), text);
    let (wrote, expected) = (one.write_number(number, &mut left), other.write_number(number, &mut right));
    ((wrote, &left) != (expected, &right)).then(|| format!("{number} in {} bytes: {wrote} and {expected}", left.len()))
}

fn any_text(random: &mut Random) -> Vec<u8> {
    let length = if random.once_in(8) { random.below(COLUMNS as u32 + 4) } else { COLUMNS as u32 };
    let digits = random.below(length + 1);
    let mut text: Vec<u8> =
        (0..length).map(|place| if place + digits < length { b' ' } else { b'0' + random.below(10) as u8 }).collect();
    if random.once_in(3) && !text.is_empty() {
        let place = random.below(length) as usize;
        text[place] = random.pick(b" 0/:\t\r\n-+a\x00\x80\xb0\xff");
    }
    text
}

/// What differs for a seed: a memory and its call, its panel, or one number's text.
pub fn difference(one: &dyn Checker, other: &dyn Checker, seed: u64) -> Option<(String, Option<Sample>)> {
    if seed.is_multiple_of(8) {
        return number_difference(one, other, seed).map(|text| (text, None));
    }
    let sample = sample(seed);
    let told = call_difference(one, other, &sample).or_else(|| panel_difference(one, other, &sample))?;
    Some((told, Some(sample)))
}
