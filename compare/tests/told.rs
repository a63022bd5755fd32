//! The numbers that `tell` tells: those of the program, on the scenarios and on generated scripts.

mod common;

use common::scenario_files;
use judge::generate::scripts::script;
use judge::mistake::Correct;
use judge::script::run;
use judge::tell::recount::Recount;
use judge::tell::text::{numbers_told, told};

/// Every generated script and every scenario: the numbers in the words are those of the program.
#[test]
fn the_numbers_told() {
    let stored = scenario_files("txt").into_iter().map(|path| std::fs::read(path).unwrap());
    let generated = (0..60).map(|seed| script(seed).text);
    for script in stored.chain(generated) {
        let text = told(&Recount::of(&script));
        assert!(numbers_told(&text).unwrap() == run(Correct, &script), "{text}");
    }
}

#[test]
fn numbers_that_cannot_be_read() {
    assert_eq!(
        numbers_told("1  x\n   accepted, 3 and 0: y\n   changed: z\n2  x\n   7: y\n\nend").unwrap(),
        b"       1       0       3       0\n       2       7       0       0\n"
    );
    for text in ["1  x\n", "1  x\n   y\n", "x\n   7: y\n", "1  x\n   accepted, 3: y\n"] {
        assert!(numbers_told(text).is_err(), "{text:?}");
    }
}
