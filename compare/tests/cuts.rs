//! Document 02, #107: the boot of a certificate's signer, in the record, where certificates are equal, in lists, in the
//! form, and where no call looks at it. Codes, words, numbers and answers are literal, as the documents have them.

mod common;

use common::{answers, given, refused, wrong_form, Given};
use judge::driver::Driver;
use judge::mistake::Correct;

/// A certificate's words: kind, signer, view, block, of-view, subject, the subject's boot, the signer's boot.
type Record = [u32; 8];

/// A ledger with these certificates; block 1 is on block 0, block 2 on block 1.
fn ledger(f: u32, records: &[Record], slots: usize) -> Driver<Correct> {
    let mut driver = Driver::open(Correct, f, slots, 3);
    assert_eq!(given(&mut driver, 1, 0, 0, &[]), (0, 1, 0));
    assert_eq!(given(&mut driver, 1, 0, 1, &[]), (0, 2, 0));
    driver.log[..8 * records.len()].copy_from_slice(&records.concat());
    driver.table[1] = records.len() as u32;
    driver
}

fn record(driver: &Driver<Correct>, number: u32) -> Record {
    driver.log[8 * number as usize..][..8].try_into().unwrap()
}

/// Gives a box a status and a boot by hand.
fn set(driver: &mut Driver<Correct>, replica: usize, status: u32, boot: u32) {
    driver.table[11 + 9 * replica..][..2].copy_from_slice(&[status, boot]);
}

/// Leader 0 accumulates for view 64, is cut, recovers, accumulates again and proposes on its old ACC.
const ACC_SCRIPT: [&[u32]; 21] = [
    &[0, 1, 0],
    &[1, 0, 0],
    &[9, 1, 0],
    &[9, 2, 0],
    &[5, 1, 64],
    &[5, 2, 64],
    &[6, 0, 0, 0, 1],
    &[6, 0, 0, 1, 0],
    &[8, 0, 0],
    &[6, 0, 0, 0, 1],
    &[10, 0, 0],
    &[11, 1, 3],
    &[11, 2, 3],
    &[12, 0, 0, 4, 5],
    &[6, 0, 0, 0, 1],
    &[6, 0, 0, 1, 0],
    &[2, 0, 1, 2],
    &[2, 0, 1, 6],
    &[4, 0, 7],
    &[4, 1, 7],
    &[7, 0, 0, 8, 9],
];

#[test]
fn an_acc_made_again_after_a_restart_is_another() {
    let before = [(0, 3, 0), (0, 1, 0), (0, 128, 0), (0, 128, 0), (0, 0, 0), (0, 1, 0), (0, 2, 0), (0, 2, 1)];
    let cut = [(0, 1, 64), (4, 0, 0), (0, 3, 0), (0, 4, 0), (0, 5, 0), (0, 64, 0)];
    let after = [(0, 6, 0), (0, 6, 1), (0, 7, 0), (7, 0, 0), (0, 8, 0), (0, 9, 0), (0, 1, 64)];
    assert_eq!(answers(&ACC_SCRIPT), [&before[..], &cut, &after].concat());
}

/// "No call tests it: prepare takes an ACC of an earlier boot", and one of its own.
#[test]
fn a_proposal_on_either_acc_decides() {
    let mut lines = ACC_SCRIPT;
    lines.swap(16, 17);
    let after = [(0, 7, 0), (7, 0, 0), (0, 8, 0), (0, 9, 0), (0, 1, 64)];
    assert_eq!(answers(&lines)[16..], after);
}

/// Box 0 replies to box 1 before its cut and after it; box 1 recovers with the first reply, and not with both.
#[test]
fn a_reply_made_again_after_a_restart_is_another() {
    let lines: [&[u32]; 18] = [
        &[0, 2, 0],
        &[8, 1, 0],
        &[10, 1, 0],
        &[11, 0, 0],
        &[11, 0, 0],
        &[8, 0, 0],
        &[11, 0, 0],
        &[10, 0, 0],
        &[11, 2, 2],
        &[11, 3, 2],
        &[11, 4, 2],
        &[12, 0, 0, 3, 4, 5],
        &[11, 0, 0],
        &[11, 0, 0],
        &[11, 2, 0],
        &[11, 3, 0],
        &[12, 1, 0, 1, 6, 7],
        &[12, 1, 0, 7, 1, 8],
    ];
    let before = [(0, 5, 0), (0, 1, 64), (0, 0, 0), (0, 1, 0), (0, 1, 1), (0, 1, 64), (4, 0, 0)];
    let cut = [(0, 2, 0), (0, 3, 0), (0, 4, 0), (0, 5, 0), (0, 64, 0)];
    let after = [(0, 6, 0), (0, 6, 1), (0, 7, 0), (0, 8, 0), (5, 0, 0), (0, 64, 0)];
    assert_eq!(answers(&lines), [&before[..], &cut, &after].concat());
    for list in [[6, 7, 8], [8, 6, 7]] {
        let last = [&[12, 1, 0][..], &list].concat();
        let lines = [&lines[..17], &[&last]].concat();
        assert_eq!(answers(&lines)[17], (0, 64, 0));
    }
}

/// Boxes 0, 1 and 2 have boots 3, 5 and 7.
#[test]
fn the_eighth_word_is_the_boot_of_the_signer() {
    let mut driver = ledger(1, &[], 16);
    for (replica, status, boot) in [(0, 0, 3), (1, 0, 5), (2, 1, 7)] {
        set(&mut driver, replica, status, boot);
    }
    let issued: [(u32, u32, u32, &[u32], Record); 9] = [
        (5, 0, 1, &[], [3, 0, 1, 0, 0, 0, 0, 3]),
        (5, 1, 1, &[], [3, 1, 1, 0, 0, 0, 0, 5]),
        (6, 0, 0, &[0, 1], [4, 0, 1, 0, 0, 0, 0, 3]),
        (2, 0, 1, &[2], [1, 0, 1, 1, 0, 0, 0, 3]),
        (4, 0, 3, &[], [2, 0, 1, 1, 0, 0, 0, 3]),
        (4, 1, 3, &[], [2, 1, 1, 1, 0, 0, 0, 5]),
        (10, 2, 0, &[], [5, 2, 1, 0, 0, 2, 7, 7]),
        (11, 0, 6, &[], [6, 0, 1, 1, 1, 2, 7, 3]),
        (11, 1, 6, &[], [6, 1, 1, 1, 1, 2, 7, 5]),
    ];
    for (number, (code, replica, field, list, words)) in (0..).zip(issued) {
        assert_eq!(given(&mut driver, code, replica, field, list), (0, number, 0));
        assert_eq!(record(&driver, number), words);
    }
    assert_eq!(given(&mut driver, 12, 2, 0, &[7, 8]), (0, 2, 1));
    assert_eq!(given(&mut driver, 3, 1, 2, &[4, 5]), (0, 9, 0));
    assert_eq!(record(&driver, 9), [1, 1, 2, 2, 0, 0, 0, 5]);
}

/// "The subject's boot in REQ and REPLY stays the seventh."
#[test]
fn reply_and_recover_go_by_the_seventh_word() {
    let mut driver = ledger(1, &[[5, 2, 1, 0, 0, 2, 7, 9]], 8);
    for (replica, status, boot) in [(0, 0, 9), (1, 0, 0), (2, 1, 7)] {
        set(&mut driver, replica, status, boot);
    }
    assert_eq!(given(&mut driver, 11, 0, 0, &[]), (0, 1, 0));
    assert_eq!(given(&mut driver, 11, 1, 0, &[]), (0, 2, 0));
    assert_eq!(record(&driver, 1), [6, 0, 1, 0, 0, 2, 7, 9]);
    assert_eq!(record(&driver, 2), [6, 1, 1, 0, 0, 2, 7, 0]);
    for boot in [0, 6, 8, 9] {
        set(&mut driver, 2, 1, boot);
        refused(&mut driver, 5, 12, 2, 0, &[1, 2]);
    }
    set(&mut driver, 2, 1, 7);
    assert_eq!(given(&mut driver, 12, 2, 0, &[1, 2]), (0, 1, 0));
}

/// "Equal now means equal in all eight." Box 0, of boot 3, asks for view 1.
#[test]
fn one_word_of_the_eight_makes_another() {
    let equal = [3, 0, 1, 0, 0, 0, 0, 3];
    let others = [4, 1, 2, 1, 1, 1, 1, 2];
    let mut driver = ledger(1, &[equal], 2);
    set(&mut driver, 0, 0, 3);
    assert_eq!(given(&mut driver, 5, 0, 1, &[]), (0, 0, 1));
    for word in 0..8 {
        let mut other = equal;
        other[word] = others[word];
        let mut driver = ledger(1, &[other], 2);
        set(&mut driver, 0, 0, 3);
        assert_eq!(given(&mut driver, 5, 0, 1, &[]), (0, 1, 0), "word {word}");
        assert_eq!(record(&driver, 1), equal);
        assert_eq!(given(&mut driver, 5, 0, 1, &[]), (0, 1, 1), "word {word}");
    }
}

#[test]
fn among_other_boots_the_first_equal_is_found() {
    let of_boot = |boot: u32| [3, 0, 1, 0, 0, 0, 0, boot];
    for (boot, number) in [(2, 0), (3, 1), (4, 3), (1_000_000, 5)] {
        let records = [2, 3, 3, 4, 2, 1_000_000].map(of_boot);
        let mut driver = ledger(1, &records, 6);
        set(&mut driver, 0, 0, boot);
        assert_eq!(given(&mut driver, 5, 0, 1, &[]), (0, number, 1), "boot {boot}");
        // Of boot 7 there is none, and no place is free.
        set(&mut driver, 0, 0, 7);
        refused(&mut driver, 9, 5, 0, 1, &[]);
    }
}

/// Each kind is issued in boot 5, then asked for in boot 6 and in 5 again, on the table that the first call met.
#[test]
fn each_kind_is_one_certificate_a_boot() {
    let records =
        [[3, 0, 1, 0, 0, 0, 0, 0], [3, 1, 1, 0, 0, 0, 0, 0], [4, 0, 1, 0, 0, 0, 0, 0], [1, 0, 1, 1, 0, 0, 0, 0]];
    let rest = [[2, 1, 0, 0, 0, 0, 0, 0], [2, 2, 0, 0, 0, 0, 0, 0], [5, 1, 1, 0, 0, 1, 4, 4]];
    let calls: [(u32, u32, &[u32], u32); 7] = [
        (5, 1, &[], 0),
        (6, 0, &[0, 1], 0),
        (2, 1, &[2], 0),
        (4, 3, &[], 0),
        (3, 1, &[4, 5], 0),
        (10, 0, &[], 1),
        (11, 6, &[], 0),
    ];
    for (code, number, list, status) in calls {
        let mut driver = ledger(1, &[&records[..], &rest].concat(), 9);
        for (boot, given_number, told) in [(5, 7, 0), (6, 8, 0), (5, 7, 1), (6, 8, 1)] {
            driver.table[11..20].copy_from_slice(&[status, boot, 1, 64, 0, 0, 0, 0, 0]);
            assert_eq!(given(&mut driver, code, 0, number, list), (0, given_number, told), "code {code}, boot {boot}");
            assert_eq!(record(&driver, given_number)[7], boot);
        }
        assert_eq!(record(&driver, 7)[..6], record(&driver, 8)[..6]);
        driver.table[11..20].copy_from_slice(&[status, 7, 1, 64, 0, 0, 0, 0, 0]);
        refused(&mut driver, 9, code, 0, number, list);
    }
}

/// The ACC again after a cut needs a place of its own; within a boot it needs none.
#[test]
fn a_full_log_has_no_room_for_the_acc_of_another_boot() {
    let mut driver = Driver::open(Correct, 1, 6, 2);
    for fields in &ACC_SCRIPT[1..14] {
        given(&mut driver, fields[0], fields[1], fields[2], &fields[3..]);
    }
    assert_eq!(driver.table[1], 6);
    refused(&mut driver, 9, 6, 0, 0, &[0, 1]);
    driver.table[12] = 0;
    assert_eq!(given(&mut driver, 6, 0, 0, &[0, 1]), (0, 2, 1));
}

/// What a list of certificates of this kind gives, each by its signer and boot; their other words fit the call.
fn with_signers(f: u32, code: u32, signers: &[(u32, u32)]) -> Given {
    let records = signers.iter().map(|&(signer, boot)| match code {
        6 => [3, signer, 2, 0, 0, 0, 0, boot],
        12 => [6, signer, 1, 0, 0, 4, 1, boot],
        _ => [2, signer, 1, 1, 0, 0, 0, boot],
    });
    let mut driver = ledger(f, &records.collect::<Vec<_>>(), 8);
    driver.table[11 + 9..][..9].copy_from_slice(&[0, 2, 2, 64, 0, 0, 0, 0, 0]);
    if f == 2 {
        set(&mut driver, 4, 1, 1);
    }
    let list: Vec<u32> = (0..signers.len() as u32).collect();
    match code {
        3 => given(&mut driver, 3, 1, 2, &list),
        12 => given(&mut driver, 12, 4, 0, &list),
        _ => given(&mut driver, code, 1, 0, &list),
    }
}

/// "Signers in a list differ by box, never by boot."
#[test]
fn signers_differ_by_box_never_by_boot() {
    let accepted = [(3, (0, 3, 0)), (6, (0, 3, 0)), (7, (0, 1, 1)), (12, (0, 1, 0))];
    for (code, answer) in accepted {
        for boots in [[0, 0, 0], [0, 1, 2], [5, 5, 1_000_000], [1_000_000, 0, 3]] {
            let signers = [(3, boots[0]), (0, boots[1]), (2, boots[2])];
            assert_eq!(with_signers(2, code, &signers), answer, "code {code}, boots {boots:?}");
        }
        for (one, other) in [(0, 0), (0, 1), (1, 0), (7, 1_000_000)] {
            for signers in
                [[(0, one), (0, other), (2, 0)], [(0, one), (2, 1), (0, other)], [(3, 0), (2, one), (2, other)]]
            {
                assert_eq!(with_signers(2, code, &signers), (5, 0, 0), "code {code}, {signers:?}");
            }
        }
    }
    for code in [3, 6, 7] {
        assert_eq!(with_signers(1, code, &[(0, 0), (0, 1)]), (5, 0, 0), "code {code}");
        assert_eq!(with_signers(1, code, &[(0, 1), (2, 0)]).0, 0, "code {code}");
    }
}

/// Calls that name certificates, on boxes of boot 5: the eighth words of these change nothing but what they are.
#[test]
fn no_call_tests_the_eighth_word() {
    let named: [(u32, u32, &[u32], &[Record]); 6] = [
        (2, 1, &[0], &[[4, 0, 1, 0, 0, 0, 0, 0]]),
        (3, 1, &[0, 1], &[[2, 1, 0, 0, 0, 0, 0, 0], [2, 2, 0, 0, 0, 0, 0, 0]]),
        (4, 0, &[], &[[1, 0, 1, 1, 0, 0, 0, 0]]),
        (6, 0, &[0, 1], &[[3, 1, 1, 2, 9, 0, 0, 0], [3, 2, 1, 1, 9, 0, 0, 0]]),
        (7, 0, &[0, 1], &[[2, 1, 1, 2, 0, 0, 0, 0], [2, 2, 1, 2, 0, 0, 0, 0]]),
        (11, 0, &[], &[[5, 1, 2, 0, 0, 1, 5, 0]]),
    ];
    let recover: (u32, u32, &[u32], &[Record]) =
        (12, 0, &[0, 1], &[[6, 1, 1, 1, 3, 0, 5, 0], [6, 2, 1, 2, 3, 0, 5, 0]]);
    for (code, number, list, records) in named.into_iter().chain([recover]) {
        let gives = |boots: &[u32]| {
            let mut driver = ledger(1, records, 4);
            (0..3).for_each(|replica| set(&mut driver, replica, 0, 5));
            set(&mut driver, 0, u32::from(code == 12), 5);
            for (place, &boot) in boots.iter().enumerate().take(records.len()) {
                driver.log[8 * place + 7] = boot;
            }
            let answer = given(&mut driver, code, 0, number, list);
            assert_eq!(answer.0, 0, "code {code}, boots {boots:?}");
            let issued = driver.log[8 * records.len()..].to_vec();
            (answer, driver.table, issued)
        };
        let present = gives(&[5, 5]);
        for boots in [[0, 0], [4, 5], [5, 4], [6, 6], [0, 1_000_000], [1_000_000, 1_000_000]] {
            assert!(gives(&boots) == present, "code {code}, boots {boots:?}");
        }
    }
}

/// "The form test bounds the new word at 1,000,000", whatever the kind and the boots that boxes have.
#[test]
fn the_eighth_word_is_at_most_1000000() {
    for kind in 1..=6 {
        for place in 0..3 {
            for boot in [0, 1, 7, 999_999, 1_000_000, 1_000_001, 1_048_576, u32::MAX] {
                let mut records = [[kind, 2, 1, 1, 0, 1, 0, 0]; 3];
                records[place][7] = boot;
                assert_eq!(wrong_form(&mut ledger(1, &records, 4)), boot > 1_000_000, "kind {kind}, boot {boot}");
                // The seventh is bounded as before.
                records[place][6..].copy_from_slice(&[boot, 0]);
                assert_eq!(wrong_form(&mut ledger(1, &records, 4)), boot > 1_000_000, "kind {kind}, boot {boot}");
            }
        }
    }
}

#[test]
fn words_past_the_count_are_not_read() {
    for boot in [1_000_001, u32::MAX] {
        let record = [3, 0, 1, 0, 0, 0, 0, boot];
        let mut driver = ledger(1, &[record; 3], 3);
        assert!(wrong_form(&mut driver));
        driver.table[1] = 1;
        driver.log[7] = 0;
        assert_eq!(given(&mut driver, 5, 0, 1, &[]), (0, 0, 1));
        assert_eq!(given(&mut driver, 5, 1, 1, &[]), (0, 1, 0));
        assert_eq!(driver.log, [[3, 0, 1, 0, 0, 0, 0, 0], [3, 1, 1, 0, 0, 0, 0, 0], record].concat());
    }
}

/// "Length a multiple of" eight, "at most 4,096 places".
#[test]
fn a_place_is_eight_words() {
    let short = [(0, 0), (1, 1), (6, 1), (7, 1), (8, 0), (9, 1), (14, 1), (15, 1), (16, 0), (21, 1), (28, 1), (56, 0)];
    let old = [(28_665, 1), (28_671, 1), (28_672, 0), (28_673, 1), (28_679, 1), (28_680, 0)];
    let most = [(32_760, 0), (32_767, 1), (32_768, 0), (32_769, 1), (32_772, 1), (32_775, 1), (32_776, 1), (65_536, 1)];
    for (length, answer) in short.into_iter().chain(old).chain(most) {
        let mut driver = Driver::open(Correct, 1, 0, 1);
        driver.log = vec![9; length];
        assert_eq!(wrong_form(&mut driver), answer == 1, "{length} words");
        driver.log.fill(9);
        if answer == 1 {
            refused(&mut driver, 1, 0, 1, 0, &[]);
        } else {
            assert_eq!(given(&mut driver, 0, 1, 0, &[]), (0, 3, 0), "{length} words");
            assert!(driver.log.iter().all(|&word| word == 9));
        }
    }
    for slots in [0, 1, 2, 7] {
        let mut driver = Driver::open(Correct, 30, slots, 1);
        for number in 0..slots as u32 {
            assert_eq!(given(&mut driver, 5, number, 1, &[]), (0, number, 0));
        }
        refused(&mut driver, 9, 5, 60, 1, &[]);
        driver.table[1] += 1;
        refused(&mut driver, 1, 5, 0, 1, &[]);
    }
}

/// yard's log keeps its 2,048 places.
#[test]
fn yard_has_2048_places() {
    let mut lines: Vec<Vec<u32>> = vec![vec![0, 30, 0]];
    lines.extend((0..2049).map(|number| vec![5, number % 61, number / 61 + 1]));
    let lines: Vec<&[u32]> = lines.iter().map(Vec::as_slice).collect();
    let given = answers(&lines);
    assert_eq!(given[2048..], [(0, 2047, 0), (9, 0, 0)]);
}
