//! What `tell` says of a way on at a script's end: the replicas, the view and the calls, or what is missing and what would
//! help.

mod common;

use common::scenario_files;
use judge::tell::columns::columns;
use judge::tell::form::CallForm;
use judge::tell::recount::Recount;
use judge::tell::text::told;

/// What is told after the chain of decided blocks.
fn end(calls: &str) -> String {
    let text = told(&Recount::of(&columns(calls.as_bytes()).unwrap()));
    let (_, chain) = text.split_once("\nThe chain of decided blocks\n\n").unwrap();
    chain.split_once("\n\n").unwrap().1.to_string()
}

#[track_caller]
fn ends(calls: &str, sentence: &str) {
    assert_eq!(end(calls), sentence.to_string() + "\n");
}

const OPENING: &str = "Nothing but another opening";
const NO_VIEW: &str = "No way on: no view is above the lowest views and below the limits of f + 1 = 2 live replicas, \
                       its leader among them.";

#[test]
fn a_way() {
    ends(
        "open 1\n",
        "A way on: replicas 0 and 1 can decide block 1 in view 2, which replica 1 leads, by 8 calls\n\n\
         view 0 2\nview 1 2\naccumulate 1 0 1\nblock 0\nprepare-on-acc 1 1 2\nstore 0 3\nstore 1 3\ndecide 1 4 5",
    );
    let all = |call: &str| -> String { (0..5).map(|replica| format!("{call} {replica} 7\n")).collect() };
    ends(
        &format!("open 2\n{}reboot 0\nreboot 1\n", all("view")),
        "A way on: replicas 2 to 4 can decide block 1 in view 8, which replica 2 leads, by 10 calls\n\n\
         view 2 8\nview 3 8\nview 4 8\naccumulate 2 5 6 7\nblock 0\nprepare-on-acc 2 1 8\n\
         store 2 9\nstore 3 9\nstore 4 9\ndecide 2 10 11 12",
    );
}

/// Of many calls, those that differ in the replica alone stand in one line.
#[test]
fn a_way_of_many_calls() {
    ends(
        "open 30\n",
        "A way on: replicas 0 to 30 can decide block 1 in view 2, which replica 1 leads, by 66 calls\n\n\
         view R 2 for R = 0 to 30\naccumulate 1 0 to 30\nblock 0\nprepare-on-acc 1 1 31\n\
         store R 32 for R = 0 to 30\ndecide 1 33 to 63",
    );
    let views: String = (0..61).map(|replica| format!("view {replica} 39\n")).collect();
    ends(
        &format!("open 30\n{views}reboot 5\nreboot 7\n"),
        "A way on: replicas 0 to 4, 6, 8 to 31 and 39 can decide block 1 in view 40, which replica 39 leads, by 66 calls\n\n\
         view R 40 for R = 0 to 4, 6, 8 to 31 and 39\naccumulate 39 61 to 91\nblock 0\nprepare-on-acc 39 1 92\n\
         store R 93 for R = 0 to 4, 6, 8 to 31 and 39\ndecide 39 94 to 124",
    );
    let last = end("open 7\n");
    assert_eq!(last.lines().skip(2).count(), 20);
}

#[test]
fn too_few_live_replicas() {
    let few = "No way on: f + 1 = 2 live replicas are needed, and";
    let stuck = "cannot come back: f + 1 = 2 others must be live or have replied, with slots left for a way on.";
    ends(
        "open 1\nreboot 0\nreboot 1\n",
        &format!("{few} only replica 2 is live. Replicas 0 and 1 {stuck} {OPENING} helps."),
    );
    ends(
        "open 1\nreboot 0\nreboot 1\nreboot 2\n",
        &format!("{few} none is live. Replicas 0 to 2 {stuck} {OPENING} helps."),
    );
    let replied = "open 1\nreboot 2\nrequest 2\nreply 0 0\n";
    let back = "can come back: f + 1 = 2 others are live or have replied to it.";
    ends(&format!("{replied}reboot 0\n"), &format!("{few} only replica 1 is live. Replica 2 {back} Replica 0 {stuck}"));
    let steps = "open 1 4096 4096 4096 4096 4096 4096 4096 4096\n";
    let cuts = "reboot 0\n".repeat(244);
    ends(
        &format!("{steps}{cuts}reboot 1\n"),
        &format!("{few} only replica 2 is live. Replica 1 {stuck} Replica 0 is retired for good. {OPENING} helps."),
    );
    ends(
        "open 2\nreboot 0\nreboot 1\nreboot 2\n",
        &format!(
            "No way on: f + 1 = 3 live replicas are needed, and only replicas 3 and 4 are live. Replicas 0 to 2 cannot come back: \
             f + 1 = 3 others must be live or have replied, with slots left for a way on. {OPENING} helps."
        ),
    );
}

#[test]
fn no_view() {
    let recovered = "open 1\nreboot 1\nrequest 1\nreply 0 0\nreply 2 0\nrecover 1 1 2\n";
    ends(recovered, &format!("{NO_VIEW} After 1 reserve of replica 0, replicas 0 and 1 can decide in view 65."));
    ends(
        "open 1 1 1 1 1 1 1 1 1\n",
        &format!("{NO_VIEW} After 2 reserves each of replicas 0 and 1, replicas 0 and 1 can decide in view 2."),
    );
    ends(
        "open 1 1 1 1 1 1 1 1 1\nreserve 1\n",
        &format!(
            "{NO_VIEW} After 1 reserve of replica 1 and 2 reserves of replica 0, replicas 0 and 1 can decide in view 2."
        ),
    );
    // Reserves end at 999,424, so that view 999,423 is the last; a cut then retires.
    let steps = "open 1 4096 4096 4096 4096 4096 4096 4096 4096\n";
    let raised = "reserve 0\n".repeat(243) + &"reserve 1\n".repeat(243) + &"reserve 2\n".repeat(243);
    let last = "view 0 999423\nview 1 999423\nview 2 999423\n";
    ends(&format!("{steps}{raised}{last}"), &format!("{NO_VIEW} Their counters end, and no reserve helps."));
    ends(
        &format!("{steps}{raised}view 0 999423\nview 1 999423\nview 2 3\nreserve 2\nreboot 2\n"),
        &format!("{NO_VIEW} Their counters end, and no reserve helps."),
    );
    let early = "reserve 0\n".repeat(243) + &"reserve 1\n".repeat(243) + "reboot 2\n";
    ends(
        &format!("{steps}{early}view 0 999423\nview 1 999423\n"),
        &format!(
            "{NO_VIEW} Their counters end, and no reserve helps. \
             Replica 2 can come back: f + 1 = 2 others are live or have replied to it."
        ),
    );
}

#[test]
fn no_room() {
    let views = |count: u32| -> String {
        let reserves = "reserve 0\n".repeat(40);
        format!("open 1\n{reserves}{}", (1..=count).map(|view| format!("view 0 {view}\n")).collect::<String>())
    };
    let slots = "No way on: it takes 2f + 4 = 6 slots of the log, and";
    ends(&views(2043), &format!("{slots} 5 are free. {OPENING} frees any."));
    ends(&views(2047), &format!("{slots} 1 is free. {OPENING} frees any."));
    ends(&views(2048), &format!("{slots} none is free. {OPENING} frees any."));
    assert!(end(&views(2042)).starts_with("A way on: replicas 1 and 2 can decide"));
    let blocks = format!("open 1\n{}", "block 0\n".repeat(1023));
    ends(&blocks, &format!("No way on: it takes a slot of the blocks, and none is free. {OPENING} frees one."));
}

/// Without a ledger nothing is told of it.
#[test]
fn before_an_opening() {
    for calls in ["", "view 0 1\n", "open 0\n"] {
        let text = told(&Recount::of(&columns(calls.as_bytes()).unwrap()));
        assert!(text.ends_with("\nNo ledger is open.\n") && !text.contains("way on"), "{text}");
    }
}

/// Every call's name and numbers make its line again.
#[test]
fn calls_by_name_again() {
    for path in scenario_files("txt") {
        let script = std::fs::read(path).unwrap();
        for call in Recount::of(&script).entries.into_iter().filter_map(|entry| entry.call) {
            let text = CallForm::of_code(call.code).unwrap().text(&call);
            assert_eq!(columns(text.as_bytes()).unwrap(), call.text().into_bytes());
        }
    }
}

/// The scenarios end in just the calls that are named of the lines before them.
#[test]
fn the_scenarios_go_on_as_told() {
    let read = |name: &str| {
        let path = scenario_files("calls").into_iter().find(|path| path.ends_with(name)).unwrap();
        std::fs::read_to_string(path).unwrap()
    };
    for (name, calls) in [("way-on.calls", 10), ("way-on-f1.calls", 8)] {
        let text = read(name);
        let lines: Vec<&str> = text.lines().map(|line| line.split('#').next().unwrap().trim_end()).collect();
        let (past, way) = lines.split_at(lines.len() - calls);
        let told = end(&(past.join("\n") + "\n"));
        assert!(told.lines().skip(2).eq(way.iter().copied()), "{name}: {told}");
    }
}
