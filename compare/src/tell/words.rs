//! Numbers, lists, certificates and calls in words.

use crate::call::*;
use crate::certificate::*;
use crate::driver::Line;
use crate::memory::*;

/// A script lends no table before its first accepted opening.
pub fn is_open(m: &Memory) -> bool {
    !m.table.is_empty()
}

pub fn kind_name(kind: u32) -> &'static str {
    match kind {
        PROP => "PROP",
        COMMIT => "COMMIT",
        NEWVIEW => "NEWVIEW",
        ACC => "ACC",
        REQ => "REQ",
        REPLY => "REPLY",
        _ => "certificate",
    }
}

pub fn status_name(status: u32) -> &'static str {
    match status {
        LIVE => "live",
        RECOVERING => "recovering",
        _ => "retired",
    }
}

/// Digits between two commas.
const GROUP: usize = 3;

/// As "1,000,000".
pub fn thousands(number: impl ToString) -> String {
    let digits = number.to_string();
    let mut words = String::new();
    for (place, digit) in digits.chars().enumerate() {
        if place > 0 && (digits.len() - place).is_multiple_of(GROUP) {
            words.push(',');
        }
        words.push(digit);
    }
    words
}

/// As "4, 5 and 6".
pub fn joined<T: ToString>(items: &[T]) -> String {
    let words: Vec<String> = items.iter().map(T::to_string).collect();
    match words.as_slice() {
        [] => "none".to_string(),
        [one] => one.clone(),
        [before @ .., last] => format!("{} and {last}", before.join(", ")),
    }
}

/// Rising numbers as "0 to 29 and 45": three or more in a row are a range.
pub fn ranges(numbers: &[u32]) -> String {
    let runs = numbers.chunk_by(|one, next| one + 1 == *next);
    let words = runs.flat_map(|run| match run {
        [first, _, .., last] => vec![format!("{first} to {last}")],
        few => few.iter().map(u32::to_string).collect(),
    });
    joined(&words.collect::<Vec<_>>())
}

/// As "replica 3" or "replicas 0 to 2 and 4".
pub fn replicas(numbers: &[u32]) -> String {
    format!("replica{} {}", if numbers.len() == 1 { "" } else { "s" }, ranges(numbers))
}

/// As "1 reserve" or "5 reserves".
pub fn counted(count: u32, thing: &str) -> String {
    format!("{} {thing}{}", thousands(count), if count == 1 { "" } else { "s" })
}

/// As "COMMITs 4 and 5"; "certificates 4 and 9" where they are not issued or not of one kind.
pub fn certificates(m: &Memory, numbers: &[u32]) -> String {
    let kind = match numbers {
        [] => return "no certificates".to_string(),
        [first, ..] => m.certificate(*first).kind,
    };
    let is_one = |number| is_open(m) && m.is_issued(number) && m.certificate(number).kind == kind;
    let of_one_kind = numbers.iter().all(|&number| is_one(number));
    let name = if of_one_kind { kind_name(kind) } else { "certificate" };
    format!("{name}{} {}", if numbers.len() == 1 { "" } else { "s" }, joined(numbers))
}

/// "PROP 3", or "certificate 3" where it is not issued.
pub fn certificate(m: &Memory, number: u32) -> String {
    certificates(m, &[number])
}

/// "nothing stored", or the block and its of-view.
pub fn stored(block: u32, view: u32) -> String {
    if view == 0 {
        "nothing stored".to_string()
    } else {
        format!("block {block} stored in view {view}")
    }
}

/// Why an ACC names its block.
fn basis(of_view: u32) -> String {
    if of_view == 0 {
        "as nothing is stored".to_string()
    } else {
        format!("the last stored, in view {of_view}")
    }
}

/// What a certificate says.
pub fn says(c: Certificate) -> String {
    let Certificate { signer, view, block, of_view, subject, subject_boot, .. } = c;
    let words = match c.kind {
        PROP => format!("replica {signer} proposes block {block} in view {view}"),
        COMMIT => format!("replica {signer} has stored block {block} in view {view}"),
        NEWVIEW => format!("replica {signer} enters view {view} with {}", stored(block, of_view)),
        ACC => {
            format!("replica {signer} accumulated view {view}: a proposal stands on block {block}, {}", basis(of_view))
        }
        REQ => format!("replica {signer}, at boot {subject_boot}, asks to come back at view {view}"),
        _ => format!(
            "replica {signer} answers replica {subject} of boot {subject_boot}, at view {view}, with {}",
            stored(block, of_view)
        ),
    };
    match c.signer_boot {
        0 => words,
        boot => format!("{words}; signed at boot {boot}"),
    }
}

/// What a call asks, in the words of a host.
pub fn asks(m: &Memory, line: &Line) -> String {
    let Line { code, replica, number, ref list } = *line;
    let listed = || certificates(m, list);
    match code {
        OPEN if list.is_empty() => format!("open a ledger for f = {replica}"),
        OPEN => format!("open a ledger for f = {replica} with the steps {}", joined(list)),
        BLOCK => format!("add a block on block {number}"),
        PREPARE_ACC | PREPARE_COMMITS => format!("replica {replica} proposes block {number} on {}", listed()),
        STORE => format!("replica {replica} stores {}", certificate(m, number)),
        VIEW => format!("replica {replica} enters view {number}"),
        ACCUMULATE => format!("replica {replica} accumulates {}", listed()),
        DECIDE => format!("replica {replica} decides on {}", listed()),
        REBOOT => format!("replica {replica} reboots after a power cut"),
        RESERVE => format!("replica {replica} reserves views"),
        REQUEST => format!("replica {replica} asks the others"),
        REPLY_TO => format!("replica {replica} replies to {}", certificate(m, number)),
        _ => format!("replica {replica} recovers with {}", listed()),
    }
}
