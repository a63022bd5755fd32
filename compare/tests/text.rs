//! The script program's text: fields and their digits, unreadable lines, blocks of any size, the last line.

use judge::comparison::checkers::Library;
use judge::comparison::numbers::{compare_numbers, compare_range, near_edges};
use judge::field::{field_text, read_number, write_number, COLUMNS, MAX_NUMBER, NO_NUMBER};
use judge::memory::MAX_F;
use judge::mistake::{Correct, Mistake};
use judge::script::{run, Program, MAX_FIELDS, MAX_LINES};

fn line(fields: &[u32]) -> String {
    fields.iter().copied().map(field_text).collect::<String>() + "\n"
}

/// The answers of a script, without their line numbers.
fn answers(script: &str) -> Vec<u32> {
    let out = String::from_utf8(run(Correct, script.as_bytes())).unwrap();
    out.lines().map(|line| line[COLUMNS..2 * COLUMNS].trim().parse().unwrap()).collect()
}

#[test]
fn fields() {
    for (text, number) in [("       0", 0), ("      10", 10), ("99999999", 99_999_999), ("       7", 7)] {
        assert_eq!(read_number(Correct, text.as_bytes()), number);
        let mut bytes = [b'x'; COLUMNS];
        assert_eq!(write_number(Correct, number, &mut bytes), 0);
        assert_eq!(bytes, text.as_bytes());
    }
    for text in ["", "        ", "      00", "00000001", "1       ", "      -1", "      +1", "   1   1", "\t      1"] {
        assert_eq!(read_number(Correct, text.as_bytes()), NO_NUMBER, "{text:?}");
    }
    assert_eq!(read_number(Correct, b"        1"), NO_NUMBER);
    let mut bytes = [b'x'; COLUMNS];
    assert_eq!(write_number(Correct, MAX_NUMBER + 1, &mut bytes), 10);
    assert_eq!(write_number(Correct, 1, &mut bytes[1..]), 10);
    assert_eq!(bytes, [b'x'; COLUMNS]);
}

/// Document 02, #106: "a choice among eight ranges, from 0 to 9 up to 10,000,000 to 99,999,999".
const RANGES: [(u32, u32, &str); 8] = [
    (0, 9, "       0       9"),
    (10, 99, "      10      99"),
    (100, 999, "     100     999"),
    (1_000, 9_999, "    1000    9999"),
    (10_000, 99_999, "   10000   99999"),
    (100_000, 999_999, "  100000  999999"),
    (1_000_000, 9_999_999, " 1000000 9999999"),
    (10_000_000, 99_999_999, "1000000099999999"),
];

#[test]
fn the_edges_of_the_ranges() {
    let near = near_edges();
    for (first, last, text) in RANGES {
        let mut bytes = [b'x'; 2 * COLUMNS];
        let (left, right) = bytes.split_at_mut(COLUMNS);
        assert_eq!([write_number(Correct, first, left), write_number(Correct, last, right)], [0, 0]);
        assert_eq!(bytes, text.as_bytes());
        assert!(near.contains(&first) && near.contains(&last) && near.contains(&(last + 1)), "{first} to {last}");
    }
    assert_eq!(compare_numbers(&Library(Correct), near.iter().copied()), Ok(near.len() as u64));
}

#[test]
fn every_mistake_in_the_digits_shows_near_an_edge() {
    let mistakes: Vec<_> = Mistake::ALL.iter().filter(|mistake| mistake.name().starts_with("digits-")).collect();
    assert!(!mistakes.is_empty());
    for &mistake in mistakes {
        assert!(compare_numbers(&Library(Some(mistake)), near_edges()).is_err(), "{mistake:?}");
    }
}

#[test]
fn cores_share_a_range() {
    for length in [0, 1, 2, 10, 1003] {
        assert_eq!(compare_range(&Library(Correct), 7..7 + length), Ok(u64::from(length)));
    }
    assert!(compare_range(&Library(Some(Mistake::DigitsTenOne)), 0..11).is_err());
    assert_eq!(compare_range(&Library(Some(Mistake::DigitsTenOne)), 11..1000), Ok(989));
}

#[test]
fn unreadable_lines() {
    let open = line(&[0, 1, 0]);
    for bad in [
        line(&[]),
        line(&[8, 0]),
        line(&[13, 0, 0]),
        line(&[0, 1, 1]),
        line(&[1, 1, 0]),
        line(&[2, 1, 1]),
        line(&[2, 1, 1, 0, 0]),
        line(&[4, 0, 0, 0]),
        line(&[6, 0, 1, 0, 0]),
        line(&[7; MAX_FIELDS + 1]),
        "       5       0       1\r\n".to_string(),
        format!(" {}", line(&[5, 0, 1])),
    ] {
        assert_eq!(answers(&format!("{bad}{open}{bad}")), [10, 0, 10], "{bad:?}");
    }
    assert_eq!(answers(&(open + &line(&[7, 0, 0]) + &line(&[12; MAX_FIELDS]))), [0, 2, 10]);
}

#[test]
fn before_the_first_opening() {
    assert_eq!(answers(&(line(&[5, 0, 1]) + &line(&[0, MAX_F + 1, 0]) + &line(&[8, 99, 0]))), [1, 2, 1]);
    let refused = line(&[0, 2, 0]) + &line(&[5, 4, 1]) + &line(&[0, MAX_NUMBER, 0]) + &line(&[5, 4, 1]);
    assert_eq!(answers(&refused), [0, 0, 2, 0]);
}

#[test]
fn line_feeds() {
    assert_eq!(run(Correct, b""), b"");
    assert_eq!(run(Correct, b"\n"), b"       1      10       0       0\n");
    assert_eq!(run(Correct, b"       0       1       0"), b"       1       0       3       0\n");
    assert_eq!(answers(&("x".repeat(100_000) + "\n" + &line(&[0, 1, 0]))), [10, 0]);
}

#[test]
fn room_for_1024_blocks() {
    let given = answers(&(line(&[0, 1, 0]) + &line(&[1, 0, 0]).repeat(1024)));
    assert_eq!(given.iter().position(|&answer| answer != 0), Some(1024));
    assert_eq!(given[1024], 9);
}

#[test]
fn blocks_of_any_size() {
    let script = line(&[0, 1, 0]) + &line(&[5, 0, 1]) + &line(&[6, 0, 0, 0, 1]) + "\n" + &line(&[8, 2, 0]);
    let whole = run(Correct, script.as_bytes());
    for size in 1..script.len() {
        let mut program = Program::new(Correct);
        let mut out = Vec::new();
        script.as_bytes().chunks(size).for_each(|block| program.feed(block, &mut out));
        program.finish(&mut out);
        assert_eq!(out, whole);
    }
}

#[test]
fn the_last_line_number() {
    let mut program = Program::new(Correct);
    program.skip_lines(MAX_LINES - 1);
    let mut out = Vec::new();
    program.feed(b"\n\n\nx", &mut out);
    program.finish(&mut out);
    assert_eq!(out, b"99999999      10       0       0\n");
}
