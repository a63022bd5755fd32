//! What `tell` says: each kind of refusal and each kind of unreadable line by its sentence, what accepted calls give, the
//! table at the end.

use judge::tell::columns::columns;
use judge::tell::recount::Recount;
use judge::tell::text::{answer, changed, told};

/// The calls of a decision by replicas 0 and 1 up to their COMMITs 4 and 5, with a rival block 2 beside block 1.
const COMMITTED: &str =
    "open 1\nview 0 1\nview 1 1\naccumulate 0 0 1\nblock 0\nblock 0\nprepare-on-acc 0 1 2\nstore 0 3\nstore 1 3\n";
/// They go on: replica 2 is cut and asks.
const ASKED: &str = "reboot 2\nrequest 2\n";

/// What the last of some calls is answered.
fn last(calls: &str) -> String {
    let script = columns(calls.as_bytes()).unwrap();
    answer(Recount::of(&script).entries.last().unwrap())
}

#[track_caller]
fn tells(before: &str, cases: &[(&str, &str)]) {
    for (call, sentence) in cases {
        assert_eq!(last(&format!("{before}{call}\n")), *sentence, "{call}");
    }
}

#[test]
fn refusals_of_an_opening() {
    tells(
        "",
        &[
            ("open 0", "2: f is 0: it must be 1 to 30"),
            ("open 31 1", "2: f is 31: it must be 1 to 30"),
            ("open 1 64 64 128", "12: 3 steps: an opening has 8, or none"),
            ("open 1 0 1 1 1 1 1 1 1", "12: the step of boot 0 is 0: it must be 1 to 4,096"),
            ("open 1 1 1 1 1 1 1 1 4097", "12: the step of boot 7 is 4,097: it must be 1 to 4,096"),
            ("open 1 9 9 9 8 9 9 9 9", "12: the step of boot 3 is 8, smaller than the one before, 9"),
        ],
    );
}

#[test]
fn refusals_1_to_4() {
    tells(
        "",
        &[
            ("view 0 1", "1: no ledger is open: open one first"),
            ("recover 0 1 2", "1: no ledger is open: open one first"),
        ],
    );
    tells(
        "open 1\n",
        &[
            ("view 3 1", "2: there is no replica 3: with f = 1 they are 0 to 2"),
            ("view 0 0", "2: view 0: a view to be entered is 1 to 1,000,000"),
            ("view 0 1000001", "2: view 1,000,001: a view to be entered is 1 to 1,000,000"),
            ("decide 0 4", "2: a list of 1 certificate: just f + 1 = 2 are needed"),
            ("accumulate 0", "2: a list of 0 certificates: just f + 1 = 2 are needed"),
            ("block 1", "3: there is no block 1: only block 0 is added"),
            ("store 0 0", "3: there is no certificate 0: none is issued yet"),
            ("request 0", "4: replica 0 is live, and must be recovering"),
        ],
    );
    tells(
        &(COMMITTED.to_string() + ASKED),
        &[
            ("decide 0 4 9999", "3: there is no certificate 9,999: certificates 0 to 6 are issued"),
            ("prepare-on-acc 0 3 2", "3: there is no block 3: blocks 0 to 2 are added"),
            ("store 2 3", "4: replica 2 is recovering, and must be live"),
            ("recover 0 4 5", "4: replica 0 is live, and must be recovering"),
        ],
    );
    let cuts = "reboot 0\n".repeat(244);
    let retired = format!("open 1 4096 4096 4096 4096 4096 4096 4096 4096\n{cuts}");
    tells(
        &retired,
        &[("reserve 0", "4: replica 0 is retired"), ("view 0 1", "4: replica 0 is retired, and must be live")],
    );
}

#[test]
fn refusals_of_certificates() {
    tells(
        &(COMMITTED.to_string() + "view 0 2\naccumulate 1 0 1\n"),
        &[
            ("store 2 0", "5: NEWVIEW 0 is no PROP"),
            ("prepare-on-acc 0 1 3", "5: PROP 3 is no ACC"),
            (
                "prepare-on-acc 0 1 7",
                "5: ACC 7 was signed by replica 1, and only its signer may propose on it; \
                 view 1 is the turn of replica 0",
            ),
            ("prepare-on-acc 1 1 7", "5: view 1 is the turn of replica 0"),
            (
                "prepare-on-commits 0 1 4 5",
                "5: COMMITs of view 1 are for a proposal in view 2: view 2 is the turn of replica 1",
            ),
            ("accumulate 0 0 2", "5: ACC 2 is no NEWVIEW"),
            ("accumulate 0 1 6", "5: NEWVIEW 6 is of view 2, NEWVIEW 1 of view 1"),
            ("accumulate 0 1 1", "5: NEWVIEW 1 is named twice, and counts for one signer, replica 1"),
            ("decide 0 4 4", "5: COMMIT 4 is named twice, and counts for one signer, replica 0"),
            ("decide 0 3 4", "5: PROP 3 is no COMMIT"),
            ("reply 0 3", "5: PROP 3 is no REQ"),
        ],
    );
    let replied = COMMITTED.to_string() + ASKED + "reply 0 6\nreply 1 6\n";
    tells(
        &replied,
        &[
            ("recover 2 7 4", "5: COMMIT 4 is no REPLY"),
            ("recover 2 7 7", "5: REPLY 7 is named twice, and counts for one signer, replica 0"),
            ("reboot 2\nrecover 2 7 8", "5: REPLY 7 is for boot 1 of replica 2, which is at boot 2"),
            ("recover 2 7 8\nreply 2 6", "5: REQ 6 was signed by replica 2 itself: another must reply"),
            ("reboot 1\nrecover 1 7 8", "5: REPLY 7 is for replica 2"),
        ],
    );
}

/// Replica 0 has replied to REQ 0 at boot 0 and, after a cut of its own, at boot 1: REPLYs 1 and 6.
#[test]
fn two_certificates_of_one_signer() {
    let calls = "open 2\nreboot 1\nrequest 1\nreply 0 0\nreboot 0\nrequest 0\nreply 2 2\nreply 3 2\nreply 4 2\n\
                 recover 0 3 4 5\nreply 0 0\nreply 2 0\n";
    tells(calls, &[("recover 1 1 6 7", "5: REPLY 1 and REPLY 6 have one signer, replica 0")]);
}

#[test]
fn refusals_of_blocks_and_views() {
    tells(
        COMMITTED,
        &[
            ("prepare-on-commits 1 0 4 5", "6: block 0 is never proposed"),
            (
                "prepare-on-commits 1 2 4 5",
                "6: block 2 is on block 0; on COMMITs 4 and 5 only a block on block 1 can be proposed",
            ),
            ("view 0 1", "7: view 1 is below replica 0's lowest view, 2"),
            ("store 0 3", "7: view 1 is below replica 0's lowest view, 2"),
            ("prepare-on-acc 0 1 2", "7: view 1 is below replica 0's lowest view, 2"),
        ],
    );
    tells(
        "open 1\nview 1 2\nview 2 1\nview 0 1\naccumulate 0 1 2\nblock 0\n",
        &[(
            "prepare-on-acc 0 1 3\nprepare-on-acc 0 1 3",
            "7: replica 0 has proposed in view 1 already: its flag is raised",
        )],
    );
    tells(
        "open 1\nview 0 2\nview 2 2\naccumulate 1 0 1\nblock 0\n",
        &[("prepare-on-acc 1 1 2", "7: replica 1 has not entered view 2: its lowest view is 1")],
    );
}

#[test]
fn refusals_of_the_counter() {
    tells(
        "open 1\n",
        &[
            ("view 0 64", "8: view 64 is not below replica 0's limit, 64: 1 reserve of 64 more"),
            ("view 0 200", "8: view 200 is not below replica 0's limit, 64: 3 reserves of 64 more"),
            (
                "view 0 1000000",
                "8: view 1,000,000 is not below replica 0's limit, 64: \
                 reserves of 64 end at 1,000,000, as the counter never passes 1,000,000",
            ),
        ],
    );
    let steps = "open 1 1 1 1 1 1 1 1 1\nreserve 1\nreserve 2\nview 1 1\nview 2 1\naccumulate 0 0 1\nblock 0\n";
    tells(steps, &[("prepare-on-acc 0 1 2", "8: view 1 is not below replica 0's limit, 1: 1 reserve of 1 more")]);
    let stored =
        "open 1\nreserve 0\nreserve 0\nreserve 1\nreserve 1\nview 0 151\nview 1 151\naccumulate 0 0 1\nblock 0\n\
                  prepare-on-acc 0 1 2\nstore 0 3\nstore 1 3\n";
    tells(
        stored,
        &[
            (
                "view 1 152",
                "accepted, 6 and 0: NEWVIEW 6 is added: replica 1 enters view 152 with block 1 stored in view 151",
            ),
            ("store 2 3", "8: view 151 is not below replica 2's limit, 64: 2 reserves of 64 more"),
            (
                "reboot 2\nrequest 2\nreply 0 6\nreply 1 6\nrecover 2 7 8",
                "8: a REPLY tells of view 151, the limit is 128: 1 reserve of 64 more",
            ),
            ("reboot 0\nrequest 0\nreply 2 6", "8: the limit is 64, the REQ asks for 192: 2 reserves of 64 more"),
        ],
    );
    let reserves = format!("open 1\n{}", "reserve 0\n".repeat(15_624));
    tells(&reserves, &[("reserve 0", "8: the limit is 1,000,000, and a step of 64 more would pass 1,000,000")]);
}

/// An opening leaves the log's words: a number that is not issued since has no kind.
#[test]
fn certificates_of_an_earlier_ledger() {
    let script = columns(b"open 1\nview 0 1\nopen 1\nstore 0 0\n").unwrap();
    assert_eq!(Recount::of(&script).entries[3].asks, "replica 0 stores certificate 0");
}

#[test]
fn refusals_for_want_of_room() {
    let blocks = format!("open 1\n{}", "block 0\n".repeat(1023));
    tells(&blocks, &[("block 0", "9: no room: all 1,024 blocks are added")]);
    let reserves = "reserve 0\n".repeat(40);
    let views: String = (1..2048).map(|view| format!("view 0 {view}\n")).collect();
    let full = format!("open 1\nreboot 1\nrequest 1\n{reserves}{views}");
    let no_room = "9: no room: the log has 2,048 certificates, and none equal to this one";
    tells(&full, &[("view 2 1", no_room), ("reply 2 0", no_room)]);
}

#[test]
fn unreadable_lines() {
    let cases: &[(&str, &str)] = &[
        ("", "10: the line is empty"),
        ("view 0 1", "10: 'view' is a call by name: ./tell --columns makes a script of such lines"),
        ("5 0 1", "10: 5 columns: a field has 8, and the last is not whole"),
        (
            "       5       0       1\r",
            "10: 25 columns: a field has 8, and the last is not whole; it ends with a carriage return",
        ),
        ("5\t0\t1", "10: 5 columns: a field has 8, and the last is not whole; column 2 is a tab"),
        ("       5       0", "10: 2 fields: a call has 3 to 34"),
        ("       5       0      01", "10: columns 17 to 24: a zero leads"),
        ("       5       0      1 ", "10: columns 17 to 24: a blank after a digit"),
        ("       5               1", "10: columns 9 to 16: no number"),
        ("       5       0      +1", "10: columns 17 to 24: '+' is no digit"),
        ("       5       0\t      1", "10: columns 17 to 24: a tab, where blanks are needed"),
        ("      \r5       0       1", "10: columns 1 to 8: a carriage return"),
        ("      \u{e9}       0       1", "10: columns 1 to 8: '\\xc3' is no digit"),
        ("      13       0       0", "10: code 13: the calls have the codes 0 to 12"),
        ("99999999       0       0", "10: code 99,999,999: the calls have the codes 0 to 12"),
        ("       0       1       7", "10: an unused field is not 0: open has no number, and 7 stands there"),
        ("       1       2       0", "10: an unused field is not 0: block has no replica, and 2 stands there"),
        ("       5       0       1       0", "10: view has no list, and 1 number stands in one"),
        ("       5       0       1       0       0", "10: view has no list, and 2 numbers stand in one"),
        ("       2       1       1", "10: prepare-on-acc has a list of just one number, the ACC; here are 0 numbers"),
    ];
    for (line, sentence) in cases {
        assert_eq!(last(&format!("open 1\nverbatim {line}\n")), *sentence, "{line:?}");
    }
    let long = "       0".repeat(35);
    assert_eq!(last(&format!("verbatim {long}\n")), "10: 35 fields: a call has 3 to 34");
}

#[test]
fn accepted_calls() {
    tells(
        "",
        &[
            ("open 1", "accepted, 3 and 0: 3 replicas, 0 to 2, each live with lowest view 1 and limit 64"),
            (
                "open 1 1 2 3 4 5 6 7 8",
                "accepted, 3 and 0: 3 replicas, 0 to 2, each live with lowest view 1 and limit 1",
            ),
        ],
    );
    tells(
        COMMITTED,
        &[
            ("block 1", "accepted, 3 and 0: block 3 is added, of height 2"),
            ("decide 0 4 5", "accepted, 1 and 1: block 1 of view 1 is decided, the panel shows 1"),
            (
                "decide 0 4 5\ndecide 0 5 4",
                "accepted, 1 and 1: block 1 of view 1 is decided; view 1 is not above view 1, so the panel stays at 1",
            ),
            (
                "view 0 5",
                "accepted, 6 and 0: NEWVIEW 6 is added: replica 0 enters view 5 with block 1 stored in view 1",
            ),
            (
                "view 0 2\nview 0 2",
                "accepted, 6 and 1: NEWVIEW 6 is found, nothing new is signed: \
                 replica 0 enters view 2 with block 1 stored in view 1",
            ),
            ("store 2 3", "accepted, 6 and 0: COMMIT 6 is added: replica 2 has stored block 1 in view 1"),
            ("reserve 2", "accepted, 128 and 0: the limit is 128"),
        ],
    );
}

#[test]
fn cuts_and_recoveries() {
    let asked = COMMITTED.to_string() + ASKED;
    tells(
        COMMITTED,
        &[
            (
                "reboot 0",
                "accepted, 1 and 64: boot 1: it is recovering, what it stored is forgotten, and its lowest view is its old limit, 64",
            ),
            (
                "reboot 2\nrequest 2",
                "accepted, 6 and 0: REQ 6 is added: replica 2, at boot 1, asks to come back at view 64; signed at boot 1",
            ),
        ],
    );
    tells(
        &asked,
        &[
            (
                "reply 0 6",
                "accepted, 7 and 0: REPLY 7 is added: replica 0 answers replica 2 of boot 1, at view 64, with block 1 stored in view 1",
            ),
            (
                "reply 0 6\nreply 1 6\nrecover 2 7 8",
                "accepted, 64 and 1: it is live again from view 64 on, with block 1 stored in view 1",
            ),
        ],
    );
    let steps = "open 1 4096 4096 4096 4096 4096 4096 4096 4096\n".to_string();
    let cuts = |count| steps.clone() + &"reboot 0\n".repeat(count);
    let retires = "accepted, 243 and 995328: the counter would pass 1,000,000: it is retired for good";
    tells(&cuts(243), &[("reboot 0", retires)]);
    tells(&cuts(244), &[("reboot 0", "accepted, 243 and 995328: it is retired for good")]);
}

/// What changed by the last of some calls.
fn change(calls: &str) -> Option<String> {
    let script = columns(calls.as_bytes()).unwrap();
    changed(Recount::of(&script).entries.last().unwrap())
}

#[test]
fn what_changed() {
    let cases = [
        ("view 0 2", None),
        ("prepare-on-acc 0 1 2", None),
        ("decide 0 4 5", Some("decided view 0 to 1, decided block 0 to 1, panel 0 to 1")),
        ("store 2 3", Some("lowest view 1 to 2, stored view 0 to 1, stored block 0 to 1")),
        ("view 0 5", Some("lowest view 2 to 5")),
        ("reserve 0", Some("limit 64 to 128")),
        (
            "reboot 0",
            Some(
                "status live to recovering, boot 0 to 1, lowest view 2 to 64, limit 64 to 128, \
                 stored view 1 to 0, stored block 1 to 0",
            ),
        ),
        (
            "reboot 2\nrequest 2\nreply 0 6\nreply 1 6\nrecover 2 7 8",
            Some("status recovering to live, stored view 0 to 1, stored block 0 to 1"),
        ),
    ];
    for (call, words) in cases {
        let words = words.map(|words| format!("changed: {words}"));
        assert_eq!(change(&format!("{COMMITTED}{call}\n")), words, "{call}");
    }
    let proposed = "open 1\nview 0 1\nview 1 1\naccumulate 0 0 1\nblock 0\nprepare-on-acc 0 1 2\n";
    assert_eq!(change(proposed).unwrap(), "changed: flag 0 to 1");
}

#[test]
fn the_ledger_at_the_end() {
    let going_on = "decide 0 4 5\ndecide 0 5 4\nblock 1\nprepare-on-commits 1 3 4 5\nstore 0 6\nstore 1 6\n\
                    decide 2 7 8\ndecide 2 5 4\nreboot 1\n";
    let text = told(&Recount::of(&columns((COMMITTED.to_string() + going_on).as_bytes()).unwrap()));
    let (_, end) = text.split_once("\n\n").unwrap();
    let expected = "\
The ledger at the end: f = 1, 3 replicas

Replica  status      boot  lowest view  limit  flag  stored           decided          panel
0        live        0     3            64     0     block 3, view 2  block 1, view 1  1
1        recovering  1     64           128    0     -                -                0
2        live        0     1            64     0     -                block 3, view 2  2
Steps of the counter: 64, 64, 128, 128, 256, 256, 512 and 1024.

Certificates: 9

0  NEWVIEW  replica 0 enters view 1 with nothing stored
1  NEWVIEW  replica 1 enters view 1 with nothing stored
2  ACC      replica 0 accumulated view 1: a proposal stands on block 0, as nothing is stored
3  PROP     replica 0 proposes block 1 in view 1
4  COMMIT   replica 0 has stored block 1 in view 1
5  COMMIT   replica 1 has stored block 1 in view 1
6  PROP     replica 1 proposes block 3 in view 2
7  COMMIT   replica 0 has stored block 3 in view 2
8  COMMIT   replica 1 has stored block 3 in view 2

The chain of decided blocks

height 0: block 0
height 1: block 1, decided by replica 0 in view 1 and replica 2 in view 1
height 2: block 3, decided by replica 2 in view 2
beside it: block 2 on block 0, of height 1, not decided
";
    let way_on = "
A way on: replicas 0 and 2 can decide block 4 in view 4, which replica 0 leads, by 8 calls

view 0 4\nview 2 4\naccumulate 0 9 10\nblock 3\nprepare-on-acc 0 4 11\nstore 0 12\nstore 2 12\ndecide 0 13 14
";
    assert_eq!(end.strip_prefix(expected), Some(way_on));
    assert!(told(&Recount::of(b"")).ends_with("No ledger is open.\n"));
}
