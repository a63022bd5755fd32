//! The calls by name: which of a line's fields each has, and what it calls them.

use crate::call::*;
use crate::driver::Line;

/// How many numbers the list of a call may have.
#[derive(Clone, Copy, PartialEq, Eq)]
pub enum ListForm {
    None,
    One(&'static str),
    Any(&'static str),
}

/// A call by name. A field without a name is not used, and is 0 in a script.
pub struct CallForm {
    pub code: u32,
    pub name: &'static str,
    pub replica: Option<&'static str>,
    pub number: Option<&'static str>,
    pub list: ListForm,
}

const REPLICA: Option<&str> = Some("REPLICA");

const fn form(
    code: u32,
    name: &'static str,
    replica: Option<&'static str>,
    number: Option<&'static str>,
    list: ListForm,
) -> CallForm {
    CallForm { code, name, replica, number, list }
}

/// In the order of their codes.
pub const CALLS: &[CallForm] = &[
    form(OPEN, "open", Some("F"), None, ListForm::Any("STEP")),
    form(BLOCK, "block", None, Some("PARENT"), ListForm::None),
    form(PREPARE_ACC, "prepare-on-acc", REPLICA, Some("BLOCK"), ListForm::One("ACC")),
    form(PREPARE_COMMITS, "prepare-on-commits", REPLICA, Some("BLOCK"), ListForm::Any("COMMIT")),
    form(STORE, "store", REPLICA, Some("PROP"), ListForm::None),
    form(VIEW, "view", REPLICA, Some("VIEW"), ListForm::None),
    form(ACCUMULATE, "accumulate", REPLICA, None, ListForm::Any("NEWVIEW")),
    form(DECIDE, "decide", REPLICA, None, ListForm::Any("COMMIT")),
    form(REBOOT, "reboot", REPLICA, None, ListForm::None),
    form(RESERVE, "reserve", REPLICA, None, ListForm::None),
    form(REQUEST, "request", REPLICA, None, ListForm::None),
    form(REPLY_TO, "reply", REPLICA, Some("REQ"), ListForm::None),
    form(RECOVER, "recover", REPLICA, None, ListForm::Any("REPLY")),
];

impl CallForm {
    pub fn of_code(code: u32) -> Option<&'static CallForm> {
        CALLS.iter().find(|form| form.code == code)
    }

    pub fn named(name: &str) -> Option<&'static CallForm> {
        CALLS.iter().find(|form| form.name == name)
    }

    /// The numbers that stand before the list.
    pub fn fixed(&self) -> usize {
        usize::from(self.replica.is_some()) + usize::from(self.number.is_some())
    }

    /// The call by name, as "view 0 1".
    pub fn text(&self, line: &Line) -> String {
        let replica = self.replica.map(|_| line.replica);
        let number = self.number.map(|_| line.number);
        let numbers = replica.into_iter().chain(number).chain(line.list.iter().copied());
        numbers.fold(self.name.to_string(), |text, number| format!("{text} {number}"))
    }

    /// As "accumulate REPLICA NEWVIEW..".
    pub fn usage(&self) -> String {
        let mut words = vec![self.name.to_string()];
        words.extend(self.replica.into_iter().chain(self.number).map(str::to_string));
        match self.list {
            ListForm::None => {}
            ListForm::One(item) => words.push(item.to_string()),
            ListForm::Any(item) => words.push(format!("{item}..")),
        }
        words.join(" ")
    }
}
