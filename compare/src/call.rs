//! Call codes, as in a script line and in the C interface: code, replica, number, list.

use crate::accumulator::accumulate;
use crate::checker::{block, decide, prepare, store, view, Justification};
use crate::memory::{Memory, MAX_F};
use crate::mistake::{Mistake, Rules};
use crate::opening::open;
use crate::recovery::{reboot, recover, reply, request, reserve};
use crate::refusal::{Answer, ACCEPTED, UNREADABLE, WRONG_STATUS};

pub const OPEN: u32 = 0;
pub const BLOCK: u32 = 1;
pub const PREPARE_ACC: u32 = 2;
pub const PREPARE_COMMITS: u32 = 3;
pub const STORE: u32 = 4;
pub const VIEW: u32 = 5;
pub const ACCUMULATE: u32 = 6;
pub const DECIDE: u32 = 7;
pub const REBOOT: u32 = 8;
pub const RESERVE: u32 = 9;
pub const REQUEST: u32 = 10;
pub const REPLY_TO: u32 = 11;
pub const RECOVER: u32 = 12;
pub const LAST_CODE: u32 = RECOVER;
/// The calls that issue a certificate.
pub const ISSUING: &[u32] = &[PREPARE_ACC, PREPARE_COMMITS, STORE, VIEW, ACCUMULATE, REQUEST, REPLY_TO];

/// Most numbers of a list: f+1 for the greatest f.
pub const MAX_LIST: usize = MAX_F as usize + 1;

/// Number returned and both values.
#[derive(Clone, Copy, PartialEq, Eq, Debug)]
pub struct Outcome {
    pub answer: u32,
    pub first: u32,
    pub second: u32,
}

impl Outcome {
    pub fn is_accepted(&self) -> bool {
        self.answer == ACCEPTED
    }

    /// What a call of that code tells of the certificate it issued: found or added; none if it issued none.
    pub fn filed(&self, code: u32) -> Option<u32> {
        (self.is_accepted() && ISSUING.contains(&code)).then_some(self.second)
    }
}

impl From<Answer> for Outcome {
    fn from(answer: Answer) -> Outcome {
        match answer {
            Ok((first, second)) => Outcome { answer: ACCEPTED, first, second },
            Err(answer) => Outcome { answer, first: 0, second: 0 },
        }
    }
}

/// Whether the numbers make a call: a code that there is, unused numbers 0, a list only where the call has one.
pub fn is_call<R: Rules>(rules: R, code: u32, replica: u32, number: u32, list: &[u32]) -> bool {
    let list_fits = match code {
        OPEN if rules.has(Mistake::OpenListUnreadable) => list.is_empty(),
        OPEN if rules.has(Mistake::OpenLongListRead) => true,
        PREPARE_ACC => list.len() == 1,
        OPEN | PREPARE_COMMITS | ACCUMULATE | DECIDE | RECOVER => list.len() <= MAX_LIST,
        _ => list.is_empty(),
    };
    let unused = match code {
        BLOCK => replica,
        OPEN | ACCUMULATE | DECIDE | REBOOT | RESERVE | REQUEST | RECOVER => number,
        _ => 0,
    };
    code <= LAST_CODE && list_fits && (unused == 0 || rules.has(Mistake::TextUnused))
}

/// One call by its code; `UNREADABLE` where the numbers make no call.
pub fn call<R: Rules>(rules: R, m: &mut Memory, code: u32, replica: u32, number: u32, list: &[u32]) -> Outcome {
    if !is_call(rules, code, replica, number, list) {
        return Outcome::from(Err(UNREADABLE));
    }
    if rules.has(Mistake::RefuseAll) && code != OPEN {
        return Outcome::from(Err(WRONG_STATUS));
    }
    let answer = match code {
        OPEN => open(rules, m, replica, list),
        BLOCK => block(rules, m, number),
        PREPARE_ACC => prepare(rules, m, replica, number, Justification::Acc(list[0])),
        PREPARE_COMMITS => prepare(rules, m, replica, number, Justification::Commits(list)),
        STORE => store(rules, m, replica, number),
        VIEW => view(rules, m, replica, number),
        ACCUMULATE => accumulate(rules, m, replica, list),
        DECIDE => decide(rules, m, replica, list),
        REBOOT => reboot(rules, m, replica),
        RESERVE => reserve(rules, m, replica),
        REQUEST => request(rules, m, replica),
        REPLY_TO => reply(rules, m, replica, number),
        _ => recover(rules, m, replica, list),
    };
    Outcome::from(answer)
}
