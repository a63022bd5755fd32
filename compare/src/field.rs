//! One number in its columns: blanks, then a decimal without leading zeros.

use crate::mistake::{Mistake, Rules};
use crate::refusal::{ACCEPTED, UNREADABLE};

pub const COLUMNS: usize = 8;
/// As many nines as there are columns.
pub const MAX_NUMBER: u32 = 10u32.pow(COLUMNS as u32) - 1;
/// What reading gives for bytes that are no such field.
pub const NO_NUMBER: u32 = u32::MAX;

/// The number, or `NO_NUMBER`.
pub fn read_number<R: Rules>(rules: R, bytes: &[u8]) -> u32 {
    if bytes.len() != COLUMNS {
        return NO_NUMBER;
    }
    let blanks = bytes.iter().take_while(|&&b| b == b' ').count();
    let digits = &bytes[blanks..];
    let lone_zero = digits == b"0";
    let leading_zero = digits.first() == Some(&b'0') && !lone_zero;
    let blank = digits.is_empty() && !rules.has(Mistake::TextBlankField);
    if blank || leading_zero && !rules.has(Mistake::TextLeadingZero) {
        return NO_NUMBER;
    }
    let mut number = 0;
    for &digit in digits {
        if !digit.is_ascii_digit() {
            return NO_NUMBER;
        }
        number = 10 * number + u32::from(digit - b'0');
    }
    number
}

/// `ACCEPTED`, or `UNREADABLE` with the bytes untouched where the length is wrong or the number too large.
#[inline]
pub fn write_number<R: Rules>(rules: R, number: u32, bytes: &mut [u8]) -> u32 {
    if bytes.len() != COLUMNS || is_too_large(rules, number) {
        return UNREADABLE;
    }
    bytes.fill(b' ');
    let mut rest = number;
    for byte in bytes.iter_mut().rev() {
        *byte = b'0' + (rest % 10) as u8;
        rest /= 10;
        if rest == 0 {
            break;
        }
    }
    miscount(rules, number, bytes);
    ACCEPTED
}

fn is_too_large<R: Rules>(rules: R, number: u32) -> bool {
    if number == MAX_NUMBER {
        return rules.has(Mistake::DigitsMostRefused);
    }
    number > MAX_NUMBER && !rules.has(Mistake::DigitsPastMost)
}

/// What a mistake in the digit count does to a number's text: its first digit is lost, or a zero stands before it.
fn miscount<R: Rules>(rules: R, number: u32, bytes: &mut [u8]) {
    let has_eight = number > MAX_NUMBER / 10;
    let is_power = number >= 10 && number == 10u32.pow(number.ilog10());
    let lost = rules.has(Mistake::DigitsZeroNone) && number == 0
        || rules.has(Mistake::DigitsTenOne) && number == 10
        || rules.has(Mistake::DigitsPowersShort) && is_power
        || rules.has(Mistake::DigitsLastPowerShort) && is_power && has_eight
        || rules.has(Mistake::DigitsEightAsSeven) && has_eight;
    let padded = rules.has(Mistake::DigitsNineTwo) && number == 9
        || rules.has(Mistake::DigitsSevenAsEight) && !has_eight && number > MAX_NUMBER / 100;
    if lost || padded {
        let first = bytes.iter().take_while(|&&byte| byte == b' ').count();
        bytes[first - usize::from(padded)] = if padded { b'0' } else { b' ' };
    }
}

/// A number in its columns; a greater one takes more of them.
pub fn field_text(number: u32) -> String {
    format!("{number:COLUMNS$}")
}
