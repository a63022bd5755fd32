//! Every script of ../scenarios gives its expected output, and so do the reserves up to the ceiling. The stored second
//! values are held against the stored first ones, without the library.

mod common;

use common::scenario_files;
use judge::memory::CEILING;
use judge::mistake::Correct;
use judge::script::run;
use judge::steps::Steps;
use std::collections::HashSet;
use std::path::Path;

/// A script, the output it must give, and its name.
struct Scenario {
    name: String,
    script: Vec<u8>,
    output: Vec<u8>,
}

fn scenarios() -> Vec<Scenario> {
    let read = |path: &Path| std::fs::read(path).unwrap();
    let all: Vec<Scenario> = scenario_files("txt")
        .into_iter()
        .map(|path| Scenario {
            name: path.display().to_string(),
            script: read(&path),
            output: read(&path.with_extension("out")),
        })
        .collect();
    assert!(all.len() >= 15, "only {} scenarios", all.len());
    all
}

#[test]
fn stored_scenarios() {
    let all = scenarios();
    let wrong = all.iter().filter(|scenario| run(Correct, &scenario.script) != scenario.output);
    let wrong: Vec<&str> = wrong.map(|scenario| scenario.name.as_str()).collect();
    assert!(wrong.is_empty(), "another output: {wrong:?}");
}

/// The number in a line's field, from 0 on.
fn field(line: &[u8], place: usize) -> u32 {
    std::str::from_utf8(&line[8 * place..8 * place + 8]).unwrap().trim().parse().unwrap()
}

/// How many lines of the scenario find their certificate. A certificate is found exactly if an earlier line of its
/// ledger got the same number; a block never is.
fn found(scenario: &Scenario) -> usize {
    let (mut issued, mut count) = (HashSet::new(), 0);
    let is_feed = |byte: &u8| *byte == b'\n';
    for (line, answer) in scenario.script.split(is_feed).zip(scenario.output.split(is_feed)) {
        if answer.is_empty() || field(answer, 1) != 0 {
            continue;
        }
        let (first, second) = (field(answer, 2), field(answer, 3));
        let expected = match field(line, 0) {
            0 => {
                issued.clear();
                0
            }
            1 => 0,
            2..=6 | 10 | 11 => u32::from(!issued.insert(first)),
            _ => continue,
        };
        assert_eq!(second, expected, "{}, line {}", scenario.name, field(answer, 0));
        count += expected as usize;
    }
    count
}

#[test]
fn a_second_value_of_1_is_a_certificate_number_again() {
    let count: usize = scenarios().iter().map(found).sum();
    assert!(count >= 6, "only {count} lines find their certificate");
}

#[test]
fn reserves() {
    let mut input = "       0       1       0\n".to_string();
    let mut expected = "       1       0       3       0\n".to_string();
    let step = Steps::DEFAULT.first();
    for line in 2..=CEILING / step {
        input += "       9       0       0\n";
        expected += &format!("{line:8}{:8}{:8}{:8}\n", 0, step * line, 0);
    }
    assert!(run(Correct, input.as_bytes()) == expected.as_bytes());
}
