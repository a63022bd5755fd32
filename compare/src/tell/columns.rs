//! Calls by name and plain numbers, a call a line, become a script of eight columns.

use super::form::{CallForm, ListForm, CALLS};
use super::words::{counted, thousands};
use crate::call::MAX_LIST;
use crate::driver::Line;
use crate::field::MAX_NUMBER;

/// What follows this word and a blank stands in the script as it is, so that a script may hold lines that are no call.
pub const VERBATIM: &str = "verbatim";

const COMMENT: u8 = b'#';
/// Some editors put it before the first line.
const BYTE_ORDER_MARK: &[u8] = "\u{feff}".as_bytes();

/// The script, or what is wrong with each line that is none of these: a call, a comment, blank, or verbatim.
pub fn columns(calls: &[u8]) -> Result<Vec<u8>, Vec<String>> {
    let calls = calls.strip_prefix(BYTE_ORDER_MARK).unwrap_or(calls);
    let (mut script, mut wrong) = (Vec::new(), Vec::new());
    for (line, number) in calls.split_inclusive(|&byte| byte == b'\n').zip(1..) {
        let text = line.strip_suffix(b"\n").unwrap_or(line);
        let feed = &line[text.len()..];
        match script_line(text) {
            Ok(Some(columns)) => script.extend([columns.as_slice(), feed].concat()),
            Ok(None) => {}
            Err(why) => wrong.push(format!("line {number}: {why}")),
        }
    }
    if wrong.is_empty() {
        Ok(script)
    } else {
        Err(wrong)
    }
}

/// The script's line without its line feed; none for a comment or a blank line.
fn script_line(text: &[u8]) -> Result<Option<Vec<u8>>, String> {
    if let Some(bytes) = text.strip_prefix(VERBATIM.as_bytes()).and_then(|rest| rest.strip_prefix(b" ")) {
        return Ok(Some(bytes.to_vec()));
    }
    let code = text.split(|&byte| byte == COMMENT).next().unwrap_or(text);
    let words = String::from_utf8_lossy(code);
    let mut words = words.split_whitespace();
    let Some(name) = words.next() else { return Ok(None) };
    let form = CallForm::named(name).ok_or_else(|| no_call(name))?;
    let numbers: Vec<u32> = words.map(number).collect::<Result<_, _>>()?;
    Ok(Some(call(form, &numbers)?.text().into_bytes()))
}

fn no_call(name: &str) -> String {
    if number(name).is_ok() {
        return format!("'{name}' is no call's name: is this a script already?");
    }
    let names: Vec<&str> = CALLS.iter().map(|form| form.name).collect();
    format!("no call '{}': the calls are {}", name.escape_debug(), names.join(", "))
}

fn number(word: &str) -> Result<u32, String> {
    if !word.bytes().all(|byte| byte.is_ascii_digit()) {
        return Err(format!("'{}' is no number", word.escape_debug()));
    }
    let number = word.parse().ok().filter(|&number| number <= MAX_NUMBER);
    number.ok_or_else(|| format!("{word} is above {}, the greatest number of eight columns", thousands(MAX_NUMBER)))
}

fn call(form: &CallForm, numbers: &[u32]) -> Result<Line, String> {
    let fixed = form.fixed();
    let most = fixed
        + match form.list {
            ListForm::None => 0,
            ListForm::One(_) => 1,
            ListForm::Any(_) => MAX_LIST,
        };
    let least = if matches!(form.list, ListForm::One(_)) { most } else { fixed };
    if !(least..=most).contains(&numbers.len()) {
        let given = counted(numbers.len() as u32, "number");
        let needed = if least == most { format!("{least}") } else { format!("{least} to {most}") };
        return Err(format!("{given}, where {needed} must stand: {}", form.usage()));
    }
    let (mut rest, list) = (numbers[..fixed].iter().copied(), &numbers[fixed..]);
    let mut next = |is_used: bool| if is_used { rest.next().unwrap_or(0) } else { 0 };
    let (replica, number) = (next(form.replica.is_some()), next(form.number.is_some()));
    Ok(Line::new(form.code, replica, number, list))
}
