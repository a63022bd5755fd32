//! A recount as text: for each of the script's lines its number with what it asks, what is answered, and what changed.

use super::given::changes;
use super::recount::{Answered, Entry, Recount};
use super::summary::summary;
use crate::call::Outcome;
use crate::field::field_text;

const ACCEPTED: &str = "accepted, ";
const CHANGED: &str = "changed: ";

pub fn told(recount: &Recount) -> String {
    let width = recount.entries.len().to_string().len();
    let mut text = String::new();
    for entry in &recount.entries {
        text += &format!("{:width$}  {}\n{:width$}  {}\n", entry.line, entry.asks, "", answer(entry));
        if let Some(words) = changed(entry) {
            text += &format!("{:width$}  {words}\n", "");
        }
    }
    text + &summary(recount)
}

/// "changed: flag 0 to 1", of the calling replica; none where it stays as it is.
pub fn changed(entry: &Entry) -> Option<String> {
    let changes = changes(entry.change?);
    (!changes.is_empty()).then(|| format!("{CHANGED}{}", changes.join(", ")))
}

/// "accepted, 4 and 0: what it gave", or "7: why".
pub fn answer(entry: &Entry) -> String {
    let Outcome { first, second, .. } = entry.outcome;
    match &entry.answered {
        Answered::Accepted(words) => format!("{ACCEPTED}{first} and {second}: {words}"),
        Answered::Refused(reason) => format!("{}: {}", reason.number, reason.words),
    }
}

/// The numbers that a text tells, in the columns of yard's output; an error where a line cannot be read.
pub fn numbers_told(text: &str) -> Result<Vec<u8>, String> {
    let told = text.lines().take_while(|line| !line.is_empty());
    let mut lines = told.filter(|line| !line.trim_start().starts_with(CHANGED));
    let mut out = String::new();
    while let Some(asked) = lines.next() {
        let answer = lines.next().ok_or(format!("no answer to: {asked}"))?;
        let numbers = numbers(asked, answer).ok_or(format!("no numbers in: {asked} / {answer}"))?;
        out += &(numbers.map(field_text).concat() + "\n");
    }
    Ok(out.into_bytes())
}

fn numbers(asked: &str, answer: &str) -> Option<[u32; 4]> {
    let line = asked.split_whitespace().next()?.parse().ok()?;
    let (numbers, _) = answer.trim_start().split_once(": ")?;
    match numbers.strip_prefix(ACCEPTED) {
        Some(values) => {
            let (first, second) = values.split_once(" and ")?;
            Some([line, 0, first.parse().ok()?, second.parse().ok()?])
        }
        None => Some([line, numbers.parse().ok()?, 0, 0]),
    }
}
