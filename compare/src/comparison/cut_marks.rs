//! What the boot of a certificate's signer can show that the generators are meant to reach, in scripts and on memories:
//! certificates made again after a cut, boots in lists, the bound of the word, the log's lengths.

use super::{marks, memory_marks};
use crate::call::*;
use crate::certificate::{Certificate, ACC, ADDED, FOUND, REPLY, REQ};
use crate::log::SHORT_WORDS;
use crate::memory::*;
use crate::mistake::{Correct, Mistake};
use crate::refusal::*;
use crate::script::MIN_FIELDS;

type Mark<T> = (&'static str, fn(&T) -> bool);

/// The certificate that an issuing call gives, or would give if a full log had a slot more, and the numbers of those that
/// are the same of another boot.
pub struct Issued {
    certificate: Certificate,
    twins: Vec<u32>,
}

impl Issued {
    /// By a line's numbers and what it gives; the memory is the one that it leaves.
    pub fn by_line(memory: Memory, numbers: &[u32], outcome: Outcome) -> Option<Issued> {
        let [code, replica, number, list @ ..] = numbers else { return None };
        match outcome.answer {
            _ if !ISSUING.contains(code) => None,
            ACCEPTED => Some(Issued::of(&memory, outcome.first)),
            NO_ROOM => {
                let (table, blocks) = (&mut memory.table.to_vec(), &mut memory.blocks.to_vec());
                let log = &mut [memory.log, &mut [0; CERTIFICATE_WORDS]].concat();
                let mut larger = Memory { table, log, blocks };
                let given = call(Correct, &mut larger, *code, *replica, *number, list);
                given.is_accepted().then(|| Issued::of(&larger, given.first))
            }
            _ => None,
        }
    }

    fn of(memory: &Memory, number: u32) -> Issued {
        let certificate = memory.certificate(number);
        let twins = (0..memory.issued()).filter(|&other| memory.certificate(other).is_twin(&certificate)).collect();
        Issued { certificate, twins }
    }

    /// On one side of a cut it was issued, on the other it is asked for.
    pub fn is_again(&self) -> bool {
        !self.twins.is_empty()
    }
}

/// A certificate that a call names, and the boot that its signer has now.
pub struct Shown {
    certificate: Certificate,
    present_boot: u32,
}

impl Shown {
    /// By a line's numbers; of a sound form.
    pub fn by_line(memory: &Memory, numbers: &[u32]) -> Vec<Shown> {
        let named = match numbers {
            [OPEN, ..] | [] => &[],
            [STORE | REPLY_TO, _, number, ..] => std::slice::from_ref(number),
            _ => numbers.get(MIN_FIELDS..).unwrap_or(&[]),
        };
        let issued = named.iter().filter(|&&number| memory.is_issued(number));
        let shown = |&number: &u32| {
            let certificate = memory.certificate(number);
            Shown { certificate, present_boot: memory.replica(certificate.signer).boot }
        };
        issued.map(shown).collect()
    }

    fn is_of_earlier_boot(&self) -> bool {
        self.certificate.signer_boot < self.present_boot
    }

    fn is_of_later_boot(&self) -> bool {
        self.certificate.signer_boot > self.present_boot
    }
}

/// Two of them are the same of two boots of one signer.
fn have_twins(shown: &[Shown]) -> bool {
    shown.iter().any(|one| shown.iter().any(|other| one.certificate.is_twin(&other.certificate)))
}

fn have_several_boots(shown: &[Shown]) -> bool {
    shown.iter().any(|one| one.certificate.signer_boot != shown[0].certificate.signer_boot)
}

type ScriptMark = (&'static str, fn(&marks::Seen) -> bool);

const SCRIPT_MARKS: &[ScriptMark] = &[
    ("again after a cut: an ACC, added", |seen| seen.makes_again(ACC, ADDED)),
    ("again after a cut: a REPLY, added", |seen| seen.makes_again(REPLY, ADDED)),
    ("again after a cut: an ACC, found within the boot", |seen| seen.makes_again(ACC, FOUND)),
    ("again after a cut: a REPLY, found within the boot", |seen| seen.makes_again(REPLY, FOUND)),
    ("again after a cut: of a third boot", |seen| seen.issued.as_ref().is_some_and(|issued| issued.twins.len() > 1)),
    ("again after a cut: no room in a full log", |seen| {
        seen.outcome.answer == NO_ROOM && seen.issued.as_ref().is_some_and(Issued::is_again)
    }),
    ("after a cut: prepare on an ACC of before", |seen| seen.takes_earlier(PREPARE_ACC)),
    ("after a cut: prepare on an ACC of after", |seen| {
        seen.is(PREPARE_ACC, ACCEPTED) && seen.shown.iter().any(|acc| acc.certificate.signer_boot > 0)
    }),
    ("after a cut: store of a PROP of before", |seen| seen.takes_earlier(STORE)),
    ("after a cut: decide on a COMMIT of before", |seen| seen.takes_earlier(DECIDE)),
    ("after a cut: accumulate of a NEWVIEW of before", |seen| seen.takes_earlier(ACCUMULATE)),
    ("after a cut: reply to a REQ of before", |seen| seen.takes_earlier(REPLY_TO)),
    ("after a cut: recover by a REPLY of before", |seen| seen.takes_earlier(RECOVER)),
    ("signers of several boots: prepare on commits", |seen| seen.takes_several(PREPARE_COMMITS)),
    ("signers of several boots: decide", |seen| seen.takes_several(DECIDE)),
    ("signers of several boots: accumulate", |seen| seen.takes_several(ACCUMULATE)),
    ("signers of several boots: recover", |seen| seen.takes_several(RECOVER)),
    ("one signer of two boots: recover", |seen| seen.is(RECOVER, WRONG_CERTIFICATE) && have_twins(&seen.shown)),
];

impl marks::Seen<'_> {
    /// It gives a certificate of this kind, and one of another boot stands in the log.
    fn makes_again(&self, kind: u32, told: u32) -> bool {
        let again = |issued: &Issued| issued.certificate.kind == kind && issued.is_again();
        self.outcome.filed(self.code) == Some(told) && self.issued.as_ref().is_some_and(again)
    }

    fn takes_earlier(&self, code: u32) -> bool {
        self.is(code, ACCEPTED) && self.shown.iter().any(Shown::is_of_earlier_boot)
    }

    fn takes_several(&self, code: u32) -> bool {
        self.is(code, ACCEPTED) && have_several_boots(&self.shown)
    }
}

/// Whether a line asks for a certificate that stands in the log of another boot of its signer.
pub fn asks_again_after_cut(script: &[u8]) -> bool {
    let mut again = false;
    marks::seen_lines(script, |seen| again |= seen.issued.as_ref().is_some_and(Issued::is_again));
    again
}

pub fn script_names() -> Vec<String> {
    SCRIPT_MARKS.iter().map(|(mark, _)| mark.to_string()).collect()
}

/// In the order of the names.
pub fn script_hits(seen: &marks::Seen) -> Vec<bool> {
    SCRIPT_MARKS.iter().map(|(_, holds)| holds(seen)).collect()
}

/// The calls that issue, by name.
const ISSUE: &[(u32, &str)] = &[
    (PREPARE_ACC, "prepare on an ACC"),
    (PREPARE_COMMITS, "prepare on commits"),
    (STORE, "store"),
    (VIEW, "view"),
    (ACCUMULATE, "accumulate"),
    (REQUEST, "request"),
    (REPLY_TO, "reply"),
];

/// The calls that ask for different signers, by name, and the mistake of telling signers apart by boot.
const LISTS: &[(u32, &str, Mistake)] = &[
    (PREPARE_COMMITS, "prepare on commits", Mistake::CommitsByBoot),
    (DECIDE, "decide", Mistake::CommitsByBoot),
    (ACCUMULATE, "accumulate", Mistake::AccumulateByBoot),
    (RECOVER, "recover", Mistake::RecoverByBoot),
];

/// Of a signer's boot that alone makes a form wrong.
const WRONG_BOOTS: &[Mark<u32>] = &[
    ("a signer's boot of 1,000,001", |boot| *boot == CEILING + 1),
    ("a signer's boot of 4,294,967,295", |boot| *boot == u32::MAX),
];

/// Lengths of the log that are wrong form, at opening too.
const WRONG_LENGTHS: &[Mark<usize>] = &[
    ("seven log words", |words| *words == SHORT_WORDS),
    ("log slots and a word", |words| words % CERTIFICATE_WORDS == 1 && *words < MAX_LOG_WORDS),
    ("log slots of seven words", |words| {
        words.is_multiple_of(SHORT_WORDS) && !words.is_multiple_of(CERTIFICATE_WORDS) && *words > SHORT_WORDS
    }),
    ("32,767 log words", |words| *words == MAX_LOG_WORDS - 1),
    ("32,769 log words", |words| *words == MAX_LOG_WORDS + 1),
    ("32,776 log words", |words| *words == MAX_LOG_WORDS + CERTIFICATE_WORDS),
];

const LENGTHS: &[Mark<usize>] = &[
    ("no log words", |words| *words == 0),
    ("28,680 log words", |words| *words == SHORT_WORDS * MAX_CERTIFICATES + CERTIFICATE_WORDS),
    ("32,768 log words", |words| *words == MAX_LOG_WORDS),
];

/// A call on a memory, what it issues and what it names.
struct Met<'a> {
    seen: &'a memory_marks::Seen,
    issued: Option<Issued>,
    shown: Vec<Shown>,
    /// The certificates before the call, where the form is sound.
    log: Vec<Certificate>,
}

type MemoryMark = (&'static str, fn(&Met) -> bool);

const MEMORY_MARKS: &[MemoryMark] = &[
    ("found after one of another boot", |met| {
        met.files(FOUND) && met.twins().any(|twin| twin < met.seen.outcome.first)
    }),
    ("found before one of another boot", |met| {
        met.files(FOUND) && met.twins().any(|twin| twin > met.seen.outcome.first)
    }),
    ("added beside one of a later boot", |met| met.files(ADDED) && met.has_later_twin()),
    ("added beside one of another boot of its subject", |met| met.files(ADDED) && met.has_other_subject_boot()),
    ("no room beside one of another boot", |met| met.seen.outcome.answer == NO_ROOM && met.twins().next().is_some()),
    ("prepare on an ACC of an earlier boot", |met| met.takes(PREPARE_ACC, Shown::is_of_earlier_boot)),
    ("prepare on an ACC of a later boot", |met| met.takes(PREPARE_ACC, Shown::is_of_later_boot)),
    ("store of a PROP of an earlier boot", |met| met.takes(STORE, Shown::is_of_earlier_boot)),
    ("reply to a REQ of an earlier boot", |met| met.takes(REPLY_TO, Shown::is_of_earlier_boot)),
    ("a signer's boot of 1,000,000", |met| met.log.iter().any(|c| c.signer_boot == CEILING)),
    ("a signer's boot above the one reached", |met| met.shown.iter().any(Shown::is_of_later_boot)),
    ("a REQ of two boots", |met| met.log.iter().any(|c| c.kind == REQ && c.signer_boot != c.subject_boot)),
];

impl<'a> Met<'a> {
    fn of(seen: &'a memory_marks::Seen) -> Met<'a> {
        let line = &seen.before.line;
        let numbers = [&[line.code, line.replica, line.number], &line.list[..]].concat();
        if !seen.is_sound() {
            return Met { seen, issued: None, shown: Vec::new(), log: Vec::new() };
        }
        let issued = Issued::by_line(seen.after.clone().memory(), &numbers, seen.outcome);
        let mut before = seen.before.clone();
        let memory = before.memory();
        let log = (0..memory.issued()).map(|number| memory.certificate(number)).collect();
        Met { seen, issued, shown: Shown::by_line(&memory, &numbers), log }
    }

    fn files(&self, told: u32) -> bool {
        self.seen.outcome.filed(self.seen.code()) == Some(told)
    }

    /// Numbers of those that are the same of another boot.
    fn twins(&self) -> impl Iterator<Item = u32> + '_ {
        self.issued.iter().flat_map(|issued| issued.twins.iter().copied())
    }

    fn has_later_twin(&self) -> bool {
        let later = |issued: &Issued, twin: u32| self.log[twin as usize].signer_boot > issued.certificate.signer_boot;
        self.issued.as_ref().is_some_and(|issued| self.twins().any(|twin| later(issued, twin)))
    }

    fn has_other_subject_boot(&self) -> bool {
        let other = |c: Certificate, d: Certificate| c != d && Certificate { subject_boot: d.subject_boot, ..c } == d;
        self.issued.as_ref().is_some_and(|issued| self.log.iter().any(|&c| other(c, issued.certificate)))
    }

    fn takes(&self, code: u32, test: fn(&Shown) -> bool) -> bool {
        self.seen.code() == code && self.seen.outcome.is_accepted() && self.shown.iter().any(test)
    }

    /// Files its certificate as told, where one of another boot stands in the log.
    fn files_beside(&self, code: u32, told: u32) -> bool {
        self.seen.code() == code && self.files(told) && self.twins().next().is_some()
    }

    /// Refused because one signer stands there in two boots: nothing else is wrong with the list.
    fn refuses_two_boots(&self, code: u32, by_boot: Mistake) -> bool {
        let told_apart = || self.seen.before.clone().run(Some(by_boot));
        self.seen.code() == code
            && self.seen.outcome.answer == WRONG_CERTIFICATE
            && told_apart().answer != WRONG_CERTIFICATE
    }

    fn takes_several(&self, code: u32) -> bool {
        self.seen.code() == code && self.seen.outcome.is_accepted() && have_several_boots(&self.shown)
    }
}

/// The first signer's boot past the ceiling, where such words alone make the form wrong.
fn wrong_boot(seen: &memory_marks::Seen) -> Option<u32> {
    let issued = *seen.before.table.get(header::ISSUED)? as usize;
    let wrong = |slot: &[u32]| Certificate::from_words(slot).signer_boot > CEILING;
    let boot = seen.before.log.chunks_exact(CERTIFICATE_WORDS).take(issued).find(|slot| wrong(slot));
    let boot = boot.map(|slot| Certificate::from_words(slot).signer_boot)?;
    let mut mended = seen.before.clone();
    for slot in mended.log.chunks_exact_mut(CERTIFICATE_WORDS).take(issued).filter(|slot| wrong(slot)) {
        slot.copy_from_slice(&Certificate { signer_boot: 0, ..Certificate::from_words(slot) }.words());
    }
    let alone = seen.code() != OPEN && seen.outcome.answer == WRONG_FORM && mended.run(Correct).answer != WRONG_FORM;
    alone.then_some(boot)
}

/// Lengths are looked for at opening and in the other calls.
const CALLS: &[(bool, &str)] = &[(true, "opening: "), (false, "")];

pub fn memory_names() -> Vec<String> {
    let added = ISSUE.iter().map(|(_, call)| format!("added beside one of another boot: {call}"));
    let found = ISSUE.iter().map(|(_, call)| format!("found beside one of another boot: {call}"));
    let refused = LISTS.iter().map(|(_, call, _)| format!("one signer of two boots: {call}"));
    let several = LISTS.iter().map(|(_, call, _)| format!("signers of several boots: {call}"));
    let boots = WRONG_BOOTS.iter().map(|(kind, _)| format!("1 for {kind}"));
    let wrong =
        CALLS.iter().flat_map(|(_, call)| WRONG_LENGTHS.iter().map(move |(kind, _)| format!("{call}1 for {kind}")));
    let lengths = CALLS.iter().flat_map(|(_, call)| LENGTHS.iter().map(move |(kind, _)| format!("{call}{kind}")));
    let marks = MEMORY_MARKS.iter().map(|(mark, _)| mark.to_string());
    added.chain(found).chain(refused).chain(several).chain(boots).chain(wrong).chain(lengths).chain(marks).collect()
}

/// In the order of the names.
pub fn memory_hits(seen: &memory_marks::Seen) -> Vec<bool> {
    let met = Met::of(seen);
    let words = seen.before.log.len();
    let added = ISSUE.iter().map(|(code, _)| met.files_beside(*code, ADDED));
    let found = ISSUE.iter().map(|(code, _)| met.files_beside(*code, FOUND));
    let refused = LISTS.iter().map(|(code, _, by_boot)| met.refuses_two_boots(*code, *by_boot));
    let several = LISTS.iter().map(|(code, _, _)| met.takes_several(*code));
    let boot = wrong_boot(seen);
    let boots = WRONG_BOOTS.iter().map(|(_, holds)| boot.as_ref().is_some_and(holds));
    let wrong = CALLS.iter().flat_map(|(opening, _)| {
        let refused = (seen.code() == OPEN) == *opening && seen.outcome.answer == WRONG_FORM;
        WRONG_LENGTHS.iter().map(move |(_, holds)| refused && holds(&words))
    });
    let lengths = CALLS.iter().flat_map(|(opening, _)| {
        let taken = if *opening { seen.code() == OPEN && seen.outcome.is_accepted() } else { seen.is_sound() };
        LENGTHS.iter().map(move |(_, holds)| taken && holds(&words))
    });
    let marks = MEMORY_MARKS.iter().map(|(_, holds)| holds(&met));
    added.chain(found).chain(refused).chain(several).chain(boots).chain(wrong).chain(lengths).chain(marks).collect()
}
