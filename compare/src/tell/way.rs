//! Whether there is a way on (document 02, #109) from the ledger at the end: who decides what, in which view and by which
//! calls; or what is missing, and what would help.

use super::form::CallForm;
use super::recount::{Ledger, Next};
use super::words::*;
use crate::call::{ACCUMULATE, DECIDE, STORE, VIEW};
use crate::driver::Line;
use crate::way_choice::{Reserves, WhyNot};
use crate::way_on::Way;

/// More calls than this are told by ranges.
const MOST_CALLS: usize = 20;
const ONLY_OPENING: &str = "Nothing but another opening";

pub fn next(ledger: &Ledger) -> String {
    match &ledger.next {
        Ok(next) => way(ledger, next),
        Err(why) => format!("\nNo way on: {}\n", missing(ledger.f, why)),
    }
}

/// The calls stand as in a file of calls, so that they can be put behind it.
fn way(ledger: &Ledger, next: &Next) -> String {
    let Way { replicas: able, view } = &next.way;
    let (block, count) = (ledger.blocks.len(), next.calls.len());
    let leader = next.calls.last().map_or(0, |decide| decide.replica);
    let lines = if count <= MOST_CALLS { next.calls.iter().map(by_name).collect() } else { in_ranges(&next.calls) };
    format!(
        "\nA way on: {} can decide block {block} in view {}, which replica {leader} leads, by {count} calls\n\n{}\n",
        replicas(able),
        thousands(view),
        lines.join("\n")
    )
}

fn by_name(call: &Line) -> String {
    CallForm::of_code(call.code).map_or(String::new(), |form| form.text(call))
}

/// One line for the views, one for the stores, and lists by their first and last number.
fn in_ranges(calls: &[Line]) -> Vec<String> {
    let same = calls.chunk_by(|one, next| one.code == next.code);
    same.map(|calls| {
        let called: Vec<u32> = calls.iter().map(|call| call.replica).collect();
        let call = &calls[0];
        match call.code {
            VIEW => format!("view R {} for R = {}", call.number, ranges(&called)),
            STORE => format!("store R {} for R = {}", call.number, ranges(&called)),
            ACCUMULATE | DECIDE => {
                let plain = Line { list: Vec::new(), ..call.clone() };
                format!("{} {}", by_name(&plain), ranges(&call.list))
            }
            _ => by_name(call),
        }
    })
    .collect()
}

fn missing(f: u32, why: &WhyNot) -> String {
    let quorum = f + 1;
    match why {
        WhyNot::Slots { free, needed } => {
            format!("it takes 2f + 4 = {needed} slots of the log, and {} free. {ONLY_OPENING} frees any.", are(*free))
        }
        WhyNot::BlockSlot => format!("it takes a slot of the blocks, and none is free. {ONLY_OPENING} frees one."),
        WhyNot::Live { live, back, stuck, retired } => {
            let few = if live.is_empty() { "none".to_string() } else { format!("only {}", replicas(live)) };
            let rest = [coming_back(quorum, back), staying(quorum, stuck, retired)].concat();
            let end = if back.is_empty() { format!(" {ONLY_OPENING} helps.") } else { String::new() };
            format!("f + 1 = {quorum} live replicas are needed, and {few} {} live.{rest}{end}", is(live.len()))
        }
        WhyNot::Views { reserves, back } => {
            let rest = match reserves {
                Some(reserves) => after_reserves(reserves),
                None => format!("Their counters end, and no reserve helps.{}", coming_back(quorum, back)),
            };
            format!(
                "no view is above the lowest views and below the limits of f + 1 = {quorum} live replicas, its leader among \
                 them. {rest}"
            )
        }
    }
}

fn is(count: usize) -> &'static str {
    if count > 1 {
        "are"
    } else {
        "is"
    }
}

fn are(count: u32) -> String {
    let number = if count == 0 { "none".to_string() } else { thousands(count) };
    format!("{number} {}", is(count as usize))
}

/// " Replica 2 can come back: f + 1 = 2 others are live or have replied to it."
fn coming_back(quorum: u32, back: &[u32]) -> String {
    let to = if back.len() == 1 { "it" } else { "each" };
    let who = capital(&replicas(back));
    match back {
        [] => String::new(),
        _ => format!(" {who} can come back: f + 1 = {quorum} others are live or have replied to {to}."),
    }
}

/// Who does not come back as things are, or never.
fn staying(quorum: u32, stuck: &[u32], retired: &[u32]) -> String {
    let mut words = String::new();
    if !stuck.is_empty() {
        let who = capital(&replicas(stuck));
        words += &format!(
            " {who} cannot come back: f + 1 = {quorum} others must be live or have replied, with slots left for a way on."
        );
    }
    if !retired.is_empty() {
        words += &format!(" {} {} retired for good.", capital(&replicas(retired)), is(retired.len()));
    }
    words
}

/// "After 1 reserve of replica 0 and 2 reserves each of replicas 1 and 3, replicas 0, 1 and 3 can decide in view 70."
fn after_reserves(reserves: &Reserves) -> String {
    let mut times: Vec<u32> = reserves.of.iter().map(|&(_, times)| times).collect();
    times.sort();
    times.dedup();
    let group = |&count: &u32| {
        let of: Vec<u32> =
            reserves.of.iter().filter(|(_, times)| *times == count).map(|&(replica, _)| replica).collect();
        format!("{}{} of {}", counted(count, "reserve"), if of.len() == 1 { "" } else { " each" }, replicas(&of))
    };
    let groups: Vec<String> = times.iter().map(group).collect();
    let Way { replicas: able, view } = &reserves.then;
    format!("After {}, {} can decide in view {}.", joined(&groups), replicas(able), thousands(view))
}

fn capital(words: &str) -> String {
    let (first, rest) = words.split_at(1);
    first.to_uppercase() + rest
}
