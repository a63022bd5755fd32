//! The cases that document 01 marks P, the one it marks "run only", and the lengths it allows, with the leaders of
//! document 02's #103; certificates found and added, by its #102. Codes, numbers and answers are literal, as the
//! documents have them: derived from the library's constants they would hold for any others.

use judge::call::{call, Outcome};
use judge::memory::{replica_start, replica_word, table_length, Memory, BLOCK_WORDS, CERTIFICATE_WORDS, MAX_F};
use judge::mistake::Correct;

/// Code, replica, number and list of a call; its answer and both values.
type Row<'a> = (u32, u32, u32, &'a [u32], (u32, u32, u32));

/// The script after its opening, up to the proposal.
const PROPOSAL: &[Row] = &[
    (5, 0, 1, &[], (0, 0, 0)),
    (5, 1, 1, &[], (0, 1, 0)),
    (6, 0, 0, &[0, 1], (0, 2, 0)),
    (1, 0, 0, &[], (0, 1, 0)),
    (2, 0, 1, &[2], (0, 3, 0)),
];

struct Yard {
    table: Vec<u32>,
    log: Vec<u32>,
    blocks: Vec<u32>,
}

impl Yard {
    fn with_slots(f: u32, certificates: usize, blocks: usize) -> Yard {
        let (log, blocks) = (vec![9; CERTIFICATE_WORDS * certificates], vec![9; BLOCK_WORDS * blocks]);
        let mut yard = Yard { table: vec![9; table_length(f) as usize], log, blocks };
        assert_eq!(yard.call(0, f, 0, &[]), (0, 2 * f + 1, 0));
        yard
    }

    fn new(f: u32) -> Yard {
        Yard::with_slots(f, 64, 8)
    }

    fn call(&mut self, code: u32, replica: u32, number: u32, list: &[u32]) -> (u32, u32, u32) {
        let mut memory = Memory { table: &mut self.table, log: &mut self.log, blocks: &mut self.blocks };
        let Outcome { answer, first, second } = call(Correct, &mut memory, code, replica, number, list);
        (answer, first, second)
    }

    fn rows(&mut self, rows: &[Row]) {
        for (place, &(code, replica, number, list, given)) in rows.iter().enumerate() {
            assert_eq!(self.call(code, replica, number, list), given, "row {place}");
        }
    }

    /// A word of a replica, to be set by hand.
    fn word(&mut self, replica: u32, word: usize) -> &mut u32 {
        &mut self.table[replica_start(replica) + word]
    }

    /// Document 01's script after its opening, each answer checked. Document 02: "In 01's script prepare and
    /// accumulate move to box 0".
    fn worked() -> Yard {
        let mut yard = Yard::proposed();
        yard.rows(&[
            (4, 0, 3, &[], (0, 4, 0)),
            (8, 1, 0, &[], (0, 1, 64)),
            (4, 1, 3, &[], (4, 0, 0)),
            (4, 2, 3, &[], (0, 5, 0)),
            (7, 0, 0, &[4, 5], (0, 1, 1)),
        ]);
        yard
    }

    fn proposed() -> Yard {
        let mut yard = Yard::new(1);
        yard.rows(PROPOSAL);
        yard
    }

    /// No power cut: boxes 0 and 1 have committed block 1 in view 1, and box 1 leads view 2. Block 2 is on block 1.
    fn committed() -> Yard {
        let mut yard = Yard::proposed();
        yard.rows(&[(4, 0, 3, &[], (0, 4, 0)), (4, 1, 3, &[], (0, 5, 0)), (1, 0, 1, &[], (0, 2, 0))]);
        yard
    }
}

#[test]
fn the_script_and_its_continuation() {
    let mut yard = Yard::worked();
    assert_eq!(yard.call(10, 1, 0, &[]), (0, 6, 0));
    assert_eq!(yard.call(11, 0, 6, &[]), (0, 7, 0));
    assert_eq!(yard.call(11, 2, 6, &[]), (0, 8, 0));
    assert_eq!(yard.call(12, 1, 0, &[7, 8]), (0, 64, 1));
    assert_eq!(yard.call(5, 0, 64, &[]), (8, 0, 0));
    assert_eq!(yard.call(9, 0, 0, &[]), (0, 128, 0));
    assert_eq!(yard.call(5, 0, 64, &[]), (0, 9, 0));
}

#[test]
fn f_from_1_to_30() {
    for (f, answer) in [(0, 2), (1, 0), (30, 0), (31, 2), (99_999_999, 2), (u32::MAX, 2)] {
        let table = vec![7; table_length(f.clamp(1, MAX_F)) as usize];
        let mut yard = Yard { table, log: vec![], blocks: vec![5, 5] };
        let given = yard.call(0, f, 0, &[]);
        assert_eq!(given.0, answer);
        assert_eq!(yard.blocks, if answer == 0 { [0, 0] } else { [5, 5] });
    }
}

#[test]
fn opening_tests_f_before_lengths() {
    let mut yard = Yard { table: vec![1; 5], log: vec![1; 5], blocks: vec![] };
    assert_eq!(yard.call(0, 31, 0, &[]), (2, 0, 0));
    assert_eq!(yard.call(0, 1, 0, &[]), (1, 0, 0));
}

#[test]
fn lengths() {
    let lent =
        [(0, 2, 0), (8 * 4096, 8192, 0), (8 * 4097, 2, 1), (7, 2, 1), (0, 0, 1), (0, 1, 1), (0, 3, 1), (0, 8194, 1)];
    for (log, blocks, answer) in lent {
        let mut yard = Yard { table: vec![7; 11 + 9 * 3], log: vec![7; log], blocks: vec![7; blocks] };
        assert_eq!(yard.call(0, 1, 0, &[]).0, answer, "{log} words of log, {blocks} of blocks");
    }
}

#[test]
fn a_fresh_limit_of_64() {
    let mut yard = Yard::new(1);
    assert_eq!(yard.call(5, 0, 63, &[]), (0, 0, 0));
    assert_eq!(yard.call(5, 0, 64, &[]), (8, 0, 0));
}

#[test]
fn one_commit_twice() {
    let rows: [Row; 4] = [
        (7, 0, 0, &[4, 4], (5, 0, 0)),
        (3, 1, 2, &[4, 4], (5, 0, 0)),
        (7, 0, 0, &[4, 5], (0, 1, 1)),
        (3, 1, 2, &[4, 5], (0, 6, 0)),
    ];
    Yard::committed().rows(&rows);
}

#[test]
fn block_0_on_block_0() {
    let mut yard = Yard::new(1);
    assert_eq!(yard.call(5, 0, 1, &[]), (0, 0, 0));
    assert_eq!(yard.call(5, 1, 1, &[]), (0, 1, 0));
    assert_eq!(yard.call(6, 0, 0, &[0, 1]), (0, 2, 0));
    assert_eq!(yard.call(2, 0, 0, &[2]), (6, 0, 0));
}

#[test]
fn a_second_prepare_in_a_view() {
    let rows = [(1, 0, 0, &[][..], (0, 2, 0)), (2, 0, 2, &[2], (7, 0, 0)), (2, 0, 1, &[2], (7, 0, 0))];
    Yard::proposed().rows(&rows);
}

#[test]
fn a_full_log_answers_a_repeated_view() {
    let mut yard = Yard::with_slots(1, 2, 1);
    assert_eq!(yard.call(5, 0, 1, &[]), (0, 0, 0));
    assert_eq!(yard.call(5, 1, 1, &[]), (0, 1, 0));
    assert_eq!(yard.call(5, 2, 1, &[]), (9, 0, 0));
    assert_eq!(yard.call(5, 0, 1, &[]), (0, 0, 1));
    assert_eq!(yard.call(5, 1, 1, &[]), (0, 1, 1));
    assert_eq!(yard.call(1, 0, 0, &[]), (9, 0, 0));
}

#[test]
fn a_repeat_is_found_and_another_replicas_is_added() {
    Yard::new(1).rows(&[
        (5, 0, 1, &[], (0, 0, 0)),
        (5, 0, 1, &[], (0, 0, 1)),
        (5, 1, 1, &[], (0, 1, 0)),
        (5, 2, 1, &[], (0, 2, 0)),
        (5, 0, 1, &[], (0, 0, 1)),
        (6, 0, 0, &[0, 1], (0, 3, 0)),
        (6, 0, 0, &[0, 1], (0, 3, 1)),
        (6, 0, 0, &[1, 0], (0, 3, 1)),
        (6, 0, 0, &[2, 0], (0, 3, 1)),
        (6, 1, 0, &[0, 1], (0, 4, 0)),
        (6, 1, 0, &[1, 0], (0, 4, 1)),
        (8, 2, 0, &[], (0, 1, 64)),
        (10, 2, 0, &[], (0, 5, 0)),
        (10, 2, 0, &[], (0, 5, 1)),
        (11, 0, 5, &[], (0, 6, 0)),
        (11, 0, 5, &[], (0, 6, 1)),
        (11, 1, 5, &[], (0, 7, 0)),
        (11, 0, 5, &[], (0, 6, 1)),
    ]);
}

#[test]
fn the_same_line_may_issue_another_certificate() {
    Yard::new(1).rows(&[
        (8, 2, 0, &[], (0, 1, 64)),
        (10, 2, 0, &[], (0, 0, 0)),
        (11, 0, 0, &[], (0, 1, 0)),
        // After another cut the request has another boot.
        (8, 2, 0, &[], (0, 2, 128)),
        (10, 2, 0, &[], (0, 2, 0)),
        (10, 2, 0, &[], (0, 2, 1)),
        // Replica 0 stores a block, and its reply names it.
        (9, 0, 0, &[], (0, 128, 0)),
        (9, 1, 0, &[], (0, 128, 0)),
        (5, 0, 64, &[], (0, 3, 0)),
        (5, 1, 64, &[], (0, 4, 0)),
        (6, 0, 0, &[3, 4], (0, 5, 0)),
        (1, 0, 0, &[], (0, 1, 0)),
        (2, 0, 1, &[5], (0, 6, 0)),
        (4, 0, 6, &[], (0, 7, 0)),
        (11, 0, 0, &[], (0, 8, 0)),
        (11, 0, 0, &[], (0, 8, 1)),
    ]);
}

#[test]
fn an_opening_leaves_nothing_to_find() {
    let mut yard = Yard::new(1);
    for _ in 0..2 {
        let rows = [(0, 1, 0, &[][..], (0, 3, 0)), (5, 0, 1, &[], (0, 0, 0)), (5, 0, 1, &[], (0, 0, 1))];
        yard.rows(&rows);
    }
    assert_eq!(yard.log[..9], [3, 0, 1, 0, 0, 0, 0, 0, 9]);
}

#[test]
fn a_second_store_is_refused() {
    Yard::worked().rows(&[(4, 0, 3, &[], (7, 0, 0)), (4, 2, 3, &[], (7, 0, 0))]);
}

#[test]
fn a_prepare_finds_its_certificate_where_the_flag_is_lowered_by_hand() {
    let mut yard = Yard::committed();
    yard.rows(&[(3, 1, 2, &[4, 5], (0, 6, 0)), (3, 1, 2, &[4, 5], (7, 0, 0))]);
    let (table, log) = (yard.table.clone(), yard.log.clone());
    for list in [[4, 5], [5, 4]] {
        *yard.word(1, replica_word::FLAG) = 0;
        yard.rows(&[(3, 1, 2, &list, (0, 6, 1)), (3, 1, 2, &list, (7, 0, 0))]);
        assert!(yard.table == table && yard.log == log);
    }
    let mut yard = Yard::with_slots(1, 4, 2);
    yard.rows(PROPOSAL);
    *yard.word(0, replica_word::FLAG) = 0;
    yard.rows(&[(2, 0, 1, &[2], (0, 3, 1)), (2, 0, 1, &[2], (7, 0, 0)), (4, 0, 3, &[], (9, 0, 0))]);
}

#[test]
fn a_store_finds_its_certificate_where_the_lowest_view_is_set_back_by_hand() {
    let mut yard = Yard::worked();
    let (table, log) = (yard.table.clone(), yard.log.clone());
    for (replica, commit) in [(0, 4), (2, 5)] {
        *yard.word(replica, replica_word::MIN_VIEW) = 1;
        *yard.word(replica, replica_word::STORED_VIEW) = 0;
        yard.rows(&[(4, replica, 3, &[], (0, commit, 1)), (4, replica, 3, &[], (7, 0, 0))]);
        assert!(yard.table == table && yard.log == log);
    }
}

#[test]
fn of_two_equal_certificates_the_first_is_found() {
    let mut yard = Yard::new(1);
    yard.rows(&[(5, 1, 1, &[], (0, 0, 0)), (5, 0, 1, &[], (0, 1, 0)), (5, 2, 1, &[], (0, 2, 0))]);
    yard.log.copy_within(8..16, 16);
    yard.rows(&[(5, 0, 1, &[], (0, 1, 1)), (5, 2, 1, &[], (0, 3, 0))]);
}

#[test]
fn a_repeated_block_is_another_block() {
    let rows = [(1, 0, 0, &[][..], (0, 1, 0)), (1, 0, 0, &[], (0, 2, 0)), (1, 0, 1, &[], (0, 3, 0))];
    Yard::new(1).rows(&rows);
}

#[test]
fn the_counter_ends_at_a_million() {
    let mut yard = Yard::new(1);
    *yard.word(0, replica_word::VIEW_LIMIT) = 999_936;
    assert_eq!(yard.call(9, 0, 0, &[]), (0, 1_000_000, 0));
    assert_eq!(yard.call(9, 0, 0, &[]), (8, 0, 0));
    let mut before = yard.table.clone();
    assert_eq!(yard.call(8, 0, 0, &[]), (0, 0, 1));
    before[replica_start(0) + replica_word::STATUS] = 2;
    assert_eq!(yard.table, before);
    assert_eq!(yard.call(9, 0, 0, &[]), (4, 0, 0));
}

#[test]
fn reserves_reach_a_million() {
    let mut yard = Yard::new(1);
    let mut last = (0, 0, 0);
    for _ in 0..15_624 {
        last = yard.call(9, 0, 0, &[]);
    }
    assert_eq!(last, (0, 1_000_000, 0));
    assert_eq!(yard.call(9, 0, 0, &[]), (8, 0, 0));
}
