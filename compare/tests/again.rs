//! Document 02, #107, on generated scripts: which print what they printed before, and what is issued again after a cut. Kinds
//! and words are literal, as the documents have them.

use judge::comparison::cut_marks::asks_again_after_cut;
use judge::driver::script_text;
use judge::generate::boundary::many_boots;
use judge::generate::cuts::made_again;
use judge::generate::progress::progress;
use judge::generate::scripts::hostile;
use judge::mistake::{Correct, Mistake};
use judge::random::Random;
use judge::script::{run, Program};
use std::collections::HashMap;

/// Random hosts, ledgers in progress, many cuts, and what is made again after them; once where no room is left for it.
fn scripts() -> impl Iterator<Item = Vec<u8>> {
    let sorts = (1..=160).flat_map(|seed| {
        let f = 1 + seed as u32 % 3;
        let random = || Random::new(seed);
        let sorts = [hostile(random(), f), progress(random(), f, &[], 200, true), many_boots(random(), f)];
        sorts.into_iter().chain([made_again(random(), f, false)])
    });
    sorts.chain([made_again(Random::new(1), 1, true)]).map(|lines| script_text(&lines))
}

/// "A script that issues nothing twice across a cut prints what it printed before": with certificates equal in seven
/// words; and one that asks for something twice prints something else.
#[test]
fn other_scripts_print_what_they_printed_before() {
    let (mut same, mut other) = (0, 0);
    for text in scripts() {
        let again = asks_again_after_cut(&text);
        assert_eq!(run(Some(Mistake::EqualInSeven), &text) != run(Correct, &text), again);
        same += u32::from(!again);
        other += u32::from(again);
    }
    assert!(same > 400 && other > 100, "{same} scripts print the same, {other} do not");
}

/// "Only an ACC or a REPLY can be issued again across a cut": of the certificates that a script leaves no two are equal,
/// and those that are equal in seven words are of these kinds.
#[test]
fn only_an_acc_or_a_reply_is_issued_again() {
    let mut again = HashMap::from([(4, 0), (6, 0)]);
    let mut issued = 0;
    for text in scripts() {
        let mut program = Program::new(Correct);
        program.feed(&text, &mut Vec::new());
        let memory = program.memory();
        let words = 8 * memory.table.get(1).map_or(0, |&count| count as usize);
        let mut boots: HashMap<&[u32], Vec<u32>> = HashMap::new();
        for record in memory.log[..words].chunks(8) {
            let earlier = boots.entry(&record[..7]).or_default();
            assert!(!earlier.contains(&record[7]), "{record:?} twice");
            if !earlier.is_empty() {
                *again.get_mut(&record[0]).unwrap_or_else(|| panic!("{record:?} again")) += 1;
            }
            earlier.push(record[7]);
        }
        issued += words / 8;
    }
    assert!(issued > 20_000 && again.values().all(|&count| count > 30), "{again:?} of {issued}");
}
