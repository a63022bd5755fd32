//! Why a line of a script is no call.

use super::form::{CallForm, ListForm};
use super::words::{counted, thousands};
use crate::call::LAST_CODE;
use crate::driver::Line;
use crate::field::{read_number, COLUMNS, NO_NUMBER};
use crate::mistake::Correct;
use crate::script::{MAX_FIELDS, MIN_FIELDS};

/// The call of a line without its line feed, or why there is none.
pub fn read_call(text: &[u8]) -> Result<Line, String> {
    let fields = read_fields(text).map_err(|why| by_name(text).unwrap_or(why))?;
    let line = Line::new(fields[0], fields[1], fields[2], &fields[MIN_FIELDS..]);
    let form = CallForm::of_code(line.code)
        .ok_or_else(|| format!("code {}: the calls have the codes 0 to {LAST_CODE}", thousands(line.code)))?;
    list_fits(form, line.list.len())?;
    unused_is_zero(form, "replica", form.replica.is_none(), line.replica)?;
    unused_is_zero(form, "number", form.number.is_none(), line.number)?;
    Ok(line)
}

/// Of a line that has no fields but begins with a call's name.
fn by_name(text: &[u8]) -> Option<String> {
    let text = String::from_utf8_lossy(text);
    let form = CallForm::named(text.split_whitespace().next()?)?;
    Some(format!("'{}' is a call by name: ./tell --columns makes a script of such lines", form.name))
}

fn read_fields(text: &[u8]) -> Result<Vec<u32>, String> {
    length_fits(text)?;
    let columns = |place: usize| format!("columns {} to {}", COLUMNS * place + 1, COLUMNS * (place + 1));
    let field = |(place, bytes)| read_field(bytes).map_err(|why| format!("{}: {why}", columns(place)));
    text.chunks_exact(COLUMNS).enumerate().map(field).collect()
}

fn length_fits(text: &[u8]) -> Result<(), String> {
    let (columns, fields) = (text.len(), text.len() / COLUMNS);
    let odd = match text.iter().position(|&byte| byte == b'\t') {
        Some(place) => format!("; column {} is a tab", place + 1),
        None if text.last() == Some(&b'\r') => "; it ends with a carriage return".to_string(),
        None => String::new(),
    };
    if columns == 0 {
        Err("the line is empty".to_string())
    } else if !columns.is_multiple_of(COLUMNS) {
        Err(format!("{}: a field has {COLUMNS}, and the last is not whole{odd}", counted(columns as u32, "column")))
    } else if !(MIN_FIELDS..=MAX_FIELDS).contains(&fields) {
        Err(format!("{}: a call has {MIN_FIELDS} to {MAX_FIELDS}", counted(fields as u32, "field")))
    } else {
        Ok(())
    }
}

fn read_field(bytes: &[u8]) -> Result<u32, String> {
    let number = read_number(Correct, bytes);
    if number != NO_NUMBER {
        return Ok(number);
    }
    let digits = bytes.trim_ascii_start();
    let odd = bytes.iter().find(|&&byte| byte != b' ' && !byte.is_ascii_digit());
    Err(match odd {
        Some(b'\t') => "a tab, where blanks are needed".to_string(),
        Some(b'\r') => "a carriage return".to_string(),
        Some(byte) => format!("'{}' is no digit", byte.escape_ascii()),
        None if digits.is_empty() => "no number".to_string(),
        None if digits.contains(&b' ') => "a blank after a digit".to_string(),
        None => "a zero leads".to_string(),
    })
}

/// A list is never too long: a line has at most so many fields.
fn list_fits(form: &CallForm, length: usize) -> Result<(), String> {
    let given = counted(length as u32, "number");
    match form.list {
        ListForm::None if length == 1 => Err(format!("{} has no list, and {given} stands in one", form.name)),
        ListForm::None if length > 1 => Err(format!("{} has no list, and {given} stand in one", form.name)),
        ListForm::One(item) if length != 1 => {
            Err(format!("{} has a list of just one number, the {item}; here are {given}", form.name))
        }
        _ => Ok(()),
    }
}

fn unused_is_zero(form: &CallForm, field: &str, unused: bool, number: u32) -> Result<(), String> {
    if unused && number != 0 {
        return Err(format!("an unused field is not 0: {} has no {field}, and {number} stands there", form.name));
    }
    Ok(())
}
