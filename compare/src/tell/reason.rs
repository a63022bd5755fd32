//! Why a call of a script is refused: the first of its tests that fails, in the order of the numbers, with the numbers that
//! fail it. What no script can fail is not tested here: a sound form, a PROP by the leader of its view, COMMITs of one view
//! that are of one block, a REPLY to its subject's present boot that is of another view or its own.

use super::signers::{all, different, matching_commits, not_of_kind, of_kind, of_one_view};
use super::words::*;
use crate::block::block_slots;
use crate::call::*;
use crate::certificate::*;
use crate::driver::Line;
use crate::leader::leader;
use crate::log::log_slots;
use crate::memory::*;
use crate::refusal::*;
use crate::steps::{MAX_STEP, MIN_STEP};

pub struct Reason {
    pub number: u32,
    pub words: String,
}

type Test = Result<(), Reason>;

fn refuse(number: u32, words: String) -> Test {
    Err(Reason { number, words })
}

fn need(holds: bool, number: u32, words: impl FnOnce() -> String) -> Test {
    if holds {
        Ok(())
    } else {
        refuse(number, words())
    }
}

/// Of a list's test: its words with a number.
fn by(number: u32, test: Result<(), String>) -> Test {
    test.or_else(|words| refuse(number, words))
}

/// A call that was refused, on the memory that it left as it was.
struct Refused<'a> {
    m: &'a Memory<'a>,
    line: &'a Line,
}

/// Where every test passes there was no room, the last of the refusals.
pub fn reason(m: &Memory, line: &Line) -> Reason {
    let call = Refused { m, line };
    call.first_failure().err().unwrap_or_else(|| call.no_room())
}

impl Refused<'_> {
    fn first_failure(&self) -> Test {
        let (m, replica, number) = (self.m, self.line.replica, self.line.number);
        if self.line.code == OPEN {
            return self.opening();
        }
        need(is_open(m), WRONG_FORM, || "no ledger is open: open one first".to_string())?;
        if self.line.code == BLOCK {
            return self.is_added(number);
        }
        need(m.is_replica(replica), OUT_OF_RANGE, || {
            format!("there is no replica {replica}: with f = {} they are 0 to {}", m.f(), m.replicas() - 1)
        })?;
        match self.line.code {
            PREPARE_ACC | PREPARE_COMMITS => self.prepare(),
            STORE => self.store(),
            VIEW => self.view(),
            ACCUMULATE => self.accumulate(),
            DECIDE => self.list().and_then(|()| by(WRONG_CERTIFICATE, matching_commits(m, &self.line.list))),
            RESERVE => self.reserve(),
            REQUEST => self.has_status(RECOVERING),
            REPLY_TO => self.reply(),
            RECOVER => self.recover(),
            _ => Ok(()),
        }
    }

    fn caller(&self) -> Replica {
        self.m.replica(self.line.replica)
    }

    fn opening(&self) -> Test {
        let (f, steps) = (self.line.replica, &self.line.list);
        need((1..=MAX_F).contains(&f), OUT_OF_RANGE, || format!("f is {}: it must be 1 to {MAX_F}", thousands(f)))?;
        need(steps.is_empty() || steps.len() == STEP_WORDS, WRONG_STEPS, || {
            format!("{}: an opening has {STEP_WORDS}, or none", counted(steps.len() as u32, "step"))
        })?;
        for (place, &step) in steps.iter().enumerate() {
            need((MIN_STEP..=MAX_STEP).contains(&step), WRONG_STEPS, || {
                format!(
                    "the step of boot {place} is {}: it must be {MIN_STEP} to {}",
                    thousands(step),
                    thousands(MAX_STEP)
                )
            })?;
            let before = if place == 0 { step } else { steps[place - 1] };
            need(before <= step, WRONG_STEPS, || {
                format!("the step of boot {place} is {step}, smaller than the one before, {before}")
            })?;
        }
        Ok(())
    }

    fn is_added(&self, block: u32) -> Test {
        need(self.m.is_added(block), UNKNOWN_NUMBER, || {
            format!("there is no block {}: {}", thousands(block), up_to(self.m.added(), "block", "added"))
        })
    }

    fn is_issued(&self, number: u32) -> Test {
        need(self.m.is_issued(number), UNKNOWN_NUMBER, || {
            format!(
                "there is no certificate {}: {}",
                thousands(number),
                up_to(self.m.issued(), "certificate", "issued")
            )
        })
    }

    /// As long as it must be, and every number issued.
    fn list(&self) -> Test {
        let (given, needed) = (self.line.list.len() as u32, self.m.f() + 1);
        need(given == needed, OUT_OF_RANGE, || {
            format!("a list of {}: just f + 1 = {needed} are needed", counted(given, "certificate"))
        })?;
        self.line.list.iter().try_for_each(|&number| self.is_issued(number))
    }

    fn has_status(&self, status: u32) -> Test {
        let (replica, has) = (self.line.replica, self.caller().status);
        need(has == status, WRONG_STATUS, || {
            format!("replica {replica} is {}, and must be {}", status_name(has), status_name(status))
        })
    }

    fn prepare(&self) -> Test {
        let (m, block, list) = (self.m, self.line.number, &self.line.list);
        match self.line.code {
            PREPARE_ACC => self.is_issued(list[0])?,
            _ => self.list()?,
        }
        self.is_added(block)?;
        self.has_status(LIVE)?;
        let first = m.certificate(list[0]);
        let view = match self.line.code {
            PREPARE_ACC => {
                self.own_acc()?;
                first.view
            }
            _ => {
                by(WRONG_CERTIFICATE, matching_commits(m, list))?;
                first.view + 1
            }
        };
        self.leads(view)?;
        need(block != 0, WRONG_BLOCK, || "block 0 is never proposed".to_string())?;
        need(m.parent(block) == first.block, WRONG_BLOCK, || {
            let basis = certificates(m, list);
            let (parent, base) = (m.parent(block), first.block);
            format!("block {block} is on block {parent}; on {basis} only a block on block {base} can be proposed")
        })?;
        self.at_lowest(view)?;
        self.below_limit(view)
    }

    fn own_acc(&self) -> Test {
        let (m, number) = (self.m, self.line.list[0]);
        let acc = m.certificate(number);
        need(acc.kind == ACC, WRONG_CERTIFICATE, || not_of_kind(m, number, ACC))?;
        need(acc.signer == self.line.replica, WRONG_CERTIFICATE, || {
            let turn = self.turn(acc.view);
            format!("ACC {number} was signed by replica {}, and only its signer may propose on it; {turn}", acc.signer)
        })
    }

    fn leads(&self, view: u32) -> Test {
        let led = leader(view, self.m.replicas());
        let on = match self.line.code {
            PREPARE_COMMITS => format!("COMMITs of view {} are for a proposal in view {view}: ", view - 1),
            _ => String::new(),
        };
        need(led == Some(self.line.replica), WRONG_CERTIFICATE, || format!("{on}{}", self.turn(view)))
    }

    fn turn(&self, view: u32) -> String {
        let leader = leader(view, self.m.replicas()).map_or("nobody".to_string(), |leader| format!("replica {leader}"));
        format!("view {view} is the turn of {leader}")
    }

    fn at_lowest(&self, view: u32) -> Test {
        let (replica, r) = (self.line.replica, self.caller());
        need(r.min_view <= view, WRONG_VIEW, || self.below_lowest(view))?;
        need(r.min_view == view, WRONG_VIEW, || {
            format!(
                "replica {replica} has not entered view {}: its lowest view is {}",
                thousands(view),
                thousands(r.min_view)
            )
        })?;
        need(r.flag == 0, WRONG_VIEW, || {
            format!("replica {replica} has proposed in view {view} already: its flag is raised")
        })
    }

    fn below_lowest(&self, view: u32) -> String {
        let replica = self.line.replica;
        format!(
            "view {} is below replica {replica}'s lowest view, {}",
            thousands(view),
            thousands(self.caller().min_view)
        )
    }

    fn not_below_lowest(&self, view: u32) -> Test {
        need(view >= self.caller().min_view, WRONG_VIEW, || self.below_lowest(view))
    }

    fn below_limit(&self, view: u32) -> Test {
        let (replica, limit) = (self.line.replica, self.caller().view_limit);
        need(view < limit, COUNTER_LIMIT, || {
            let (view, limit, reserves) = (thousands(view), thousands(limit), self.reserves(view + 1));
            format!("view {view} is not below replica {replica}'s limit, {limit}: {reserves}")
        })
    }

    /// How many reserves bring the caller's limit to the one that is needed.
    fn reserves(&self, needed: u32) -> String {
        let r = self.caller();
        let step = self.m.steps().of_boot(r.boot);
        let count = (needed - r.view_limit).div_ceil(step);
        let room = (CEILING - r.view_limit) / step;
        if count > room {
            let (last, ceiling) = (thousands(r.view_limit + room * step), thousands(CEILING));
            format!("reserves of {step} end at {last}, as the counter never passes {ceiling}")
        } else {
            format!("{} of {step} more", counted(count, "reserve"))
        }
    }

    fn store(&self) -> Test {
        let (m, number) = (self.m, self.line.number);
        self.is_issued(number)?;
        self.has_status(LIVE)?;
        let prop = m.certificate(number);
        need(prop.kind == PROP, WRONG_CERTIFICATE, || not_of_kind(m, number, PROP))?;
        self.not_below_lowest(prop.view)?;
        self.below_limit(prop.view)
    }

    fn view(&self) -> Test {
        let view = self.line.number;
        need((1..=CEILING).contains(&view), OUT_OF_RANGE, || {
            format!("view {}: a view to be entered is 1 to {}", thousands(view), thousands(CEILING))
        })?;
        self.has_status(LIVE)?;
        self.not_below_lowest(view)?;
        self.below_limit(view)
    }

    fn accumulate(&self) -> Test {
        let (m, list) = (self.m, &self.line.list);
        self.list()?;
        self.has_status(LIVE)?;
        by(WRONG_CERTIFICATE, of_kind(m, list, NEWVIEW))?;
        by(WRONG_CERTIFICATE, of_one_view(m, list))?;
        by(WRONG_CERTIFICATE, different(m, list))
    }

    fn reserve(&self) -> Test {
        let (replica, r) = (self.line.replica, self.caller());
        let step = self.m.steps().of_boot(r.boot);
        need(r.status != RETIRED, WRONG_STATUS, || format!("replica {replica} is retired"))?;
        need(r.view_limit + step <= CEILING, COUNTER_LIMIT, || {
            format!(
                "the limit is {}, and a step of {step} more would pass {}",
                thousands(r.view_limit),
                thousands(CEILING)
            )
        })
    }

    fn reply(&self) -> Test {
        let (m, number, replica) = (self.m, self.line.number, self.line.replica);
        self.is_issued(number)?;
        self.has_status(LIVE)?;
        let req = m.certificate(number);
        need(req.kind == REQ, WRONG_CERTIFICATE, || not_of_kind(m, number, REQ))?;
        need(req.signer != replica, WRONG_CERTIFICATE, || {
            format!("REQ {number} was signed by replica {replica} itself: another must reply")
        })?;
        let limit = self.caller().view_limit;
        need(req.view <= limit, COUNTER_LIMIT, || {
            format!(
                "the limit is {}, the REQ asks for {}: {}",
                thousands(limit),
                thousands(req.view),
                self.reserves(req.view)
            )
        })
    }

    fn recover(&self) -> Test {
        let (m, list) = (self.m, &self.line.list);
        self.list()?;
        self.has_status(RECOVERING)?;
        by(WRONG_CERTIFICATE, of_kind(m, list, REPLY))?;
        by(WRONG_CERTIFICATE, all(m, list, |number, c| self.unfit_reply(number, c)))?;
        by(WRONG_CERTIFICATE, different(m, list))?;
        let (needed, limit) = (m.greatest(list, false).of_view + 1, self.caller().view_limit);
        need(needed <= limit, COUNTER_LIMIT, || {
            format!(
                "a REPLY tells of view {}, the limit is {}: {}",
                thousands(needed - 1),
                thousands(limit),
                self.reserves(needed)
            )
        })
    }

    fn unfit_reply(&self, number: u32, c: Certificate) -> Option<String> {
        let (replica, r) = (self.line.replica, self.caller());
        if c.subject != replica {
            Some(format!("REPLY {number} is for replica {}", c.subject))
        } else if c.subject_boot != r.boot {
            Some(format!(
                "REPLY {number} is for boot {} of replica {replica}, which is at boot {}",
                c.subject_boot, r.boot
            ))
        } else {
            None
        }
    }

    fn no_room(&self) -> Reason {
        let (blocks, slots) = (block_slots(self.m.blocks) as u32, log_slots(self.m.log) as u32);
        let words = if self.line.code == BLOCK {
            format!("no room: all {} blocks are added", thousands(blocks))
        } else {
            format!("no room: the log has {} certificates, and none equal to this one", thousands(slots))
        };
        Reason { number: NO_ROOM, words }
    }
}

/// As "blocks 0 to 3 are added".
fn up_to(count: u32, thing: &str, done: &str) -> String {
    match count {
        0 => format!("none is {done} yet"),
        1 => format!("only {thing} 0 is {done}"),
        _ => format!("{thing}s 0 to {} are {done}", count - 1),
    }
}
