//! Document 02, #108: its limits and orders, worked cases, and its law of a full pass over the history. Numbers and answers
//! are literal, as the document has them.

mod common;

use judge::benchmark::waiting_words::Words;
use judge::comparison::checkers::Library;
use judge::comparison::waitings::history_difference;
use judge::driver::Driver;
use judge::entries::{Entry, Waiting};
use judge::generate::waiting::history;
use judge::layout;
use judge::mistake::{Correct, Mistake};
use judge::random::Random;
use judge::waiting::{ask, enter, match_entry, open, withdraw, Claim};

type Given = (u32, u32, u32);

/// A ledger and what waits beside it.
struct Yard {
    ledger: Driver<Correct>,
    waiting: Waiting,
}

fn told(answer: Result<(u32, u32), u32>) -> Given {
    match answer {
        Ok((first, second)) => (0, first, second),
        Err(answer) => (answer, 0, 0),
    }
}

const ACCEPTED: Given = (0, 0, 0);

impl Yard {
    /// Opened with the slice.
    fn new(f: u32) -> Yard {
        let mut yard = Yard { ledger: Driver::open(Correct, f, 64, 16), waiting: Waiting::default() };
        assert_eq!(yard.open(f, &[]), (0, 2 * f + 1, 0));
        yard
    }

    fn open(&mut self, f: u32, steps: &[u32]) -> Given {
        told(open(Correct, &mut self.ledger.memory(), &mut self.waiting, f, steps))
    }

    fn enter(&mut self, identity: u32, giver: u32, taker: u32, pallets: u32) -> Given {
        let entry = Entry { identity, giver, taker, pallets };
        told(enter(Correct, &self.ledger.memory(), &mut self.waiting, entry))
    }

    fn withdraw(&mut self, identity: u32) -> Given {
        told(withdraw(Correct, &self.ledger.memory(), &mut self.waiting, identity))
    }

    fn match_words(&mut self, replica: u32, identity: u32, place: u32, words: &[u32]) -> Given {
        let claim = Claim { replica, identity, place };
        told(match_entry(Correct, &self.ledger.memory(), &mut self.waiting, words, claim))
    }

    fn match_entry(&mut self, replica: u32, identity: u32, place: u32, list: &[[u32; 4]]) -> Given {
        self.match_words(replica, identity, place, &list.concat())
    }

    fn ask(&mut self, taker: u32) -> Given {
        told(ask(Correct, &self.ledger.memory(), &self.waiting, taker))
    }

    /// Adds blocks on these parents, then replica 0 shows this block.
    fn shows(&mut self, parents: &[u32], block: u32) {
        for &parent in parents {
            assert_eq!(common::given(&mut self.ledger, 1, 0, parent, &[]).0, 0);
        }
        self.ledger.table[11 + 7] = 1;
        self.ledger.table[11 + 8] = block;
    }
}

#[test]
fn a_day() {
    let mut yard = Yard::new(1);
    assert_eq!(yard.ask(1), (0, 0, 0));
    assert_eq!(yard.enter(7, 0, 1, 5), ACCEPTED);
    assert_eq!(yard.enter(3, 2, 1, 10), ACCEPTED);
    assert_eq!(yard.enter(9, 1, 2, 4), ACCEPTED);
    assert_eq!((yard.ask(0), yard.ask(1), yard.ask(2)), ((0, 0, 0), (0, 15, 7), (0, 4, 9)));
    yard.shows(&[0], 1);
    let list = [[1, 0, 1, 5], [1, 2, 1, 10]];
    assert_eq!(yard.match_entry(0, 7, 0, &list), ACCEPTED);
    assert_eq!(yard.ask(1), (0, 10, 3));
    // 7 comes again, after 3; the place that took it out stays used, the other one takes out 3.
    assert_eq!(yard.enter(7, 0, 1, 5), ACCEPTED);
    assert_eq!(yard.ask(1), (0, 15, 3));
    assert_eq!(yard.match_entry(0, 7, 0, &list), (5, 0, 0));
    assert_eq!(yard.match_entry(0, 3, 1, &list), ACCEPTED);
    assert_eq!(yard.ask(1), (0, 5, 7));
    assert_eq!(yard.withdraw(7), ACCEPTED);
    assert_eq!(yard.ask(1), (0, 0, 0));
    assert_eq!(yard.withdraw(7), (13, 0, 0));
    assert_eq!(yard.ask(2), (0, 4, 9));
}

#[test]
fn entries_under_the_rules_for_movements() {
    for (f, last) in [(1, 2), (30, 60)] {
        let mut yard = Yard::new(f);
        assert_eq!(yard.enter(0, 0, 1, 5), (11, 0, 0));
        for (giver, taker) in [(0, 0), (last + 1, 0), (0, last + 1), (u32::MAX, 0), (0, u32::MAX)] {
            assert_eq!(yard.enter(1, giver, taker, 5), (11, 0, 0), "{giver} to {taker}");
        }
        for pallets in [0, 10_001, 1 << 31, u32::MAX] {
            assert_eq!(yard.enter(1, 0, last, pallets), (11, 0, 0), "{pallets}");
        }
        assert_eq!(yard.enter(1, 0, last, 1), ACCEPTED);
        assert_eq!(yard.enter(u32::MAX, last, 0, 10_000), ACCEPTED);
        assert_eq!((yard.ask(last), yard.ask(0)), ((0, 1, 1), (0, 10_000, u32::MAX)));
        assert_eq!((yard.ask(last + 1), yard.ask(u32::MAX)), ((2, 0, 0), (2, 0, 0)));
    }
}

#[test]
fn identities_that_wait_or_do_not() {
    let mut yard = Yard::new(1);
    assert_eq!((yard.withdraw(0), yard.withdraw(4)), ((13, 0, 0), (13, 0, 0)));
    assert_eq!(yard.enter(4, 0, 1, 5), ACCEPTED);
    assert_eq!(yard.enter(4, 1, 2, 6), (13, 0, 0));
    // 11 comes before 13.
    assert_eq!(yard.enter(4, 1, 2, 0), (11, 0, 0));
    assert_eq!(yard.withdraw(4), ACCEPTED);
    assert_eq!(yard.withdraw(4), (13, 0, 0));
    assert_eq!(yard.enter(4, 1, 2, 6), ACCEPTED);
    assert_eq!((yard.ask(1), yard.ask(2)), ((0, 0, 0), (0, 6, 4)));
}

#[test]
fn five_hundred_and_twelve_may_wait() {
    let mut yard = Yard::new(1);
    for identity in 1..=511 {
        assert_eq!(yard.enter(identity, 0, 1, 10_000), ACCEPTED);
    }
    assert_eq!(yard.enter(512, 0, 1, 10_000), ACCEPTED);
    assert_eq!(yard.ask(1), (0, 5_120_000, 1));
    assert_eq!(yard.enter(513, 0, 1, 10_000), (14, 0, 0));
    // 11 and 13 come before 14.
    assert_eq!(yard.enter(512, 0, 1, 10_000), (13, 0, 0));
    assert_eq!(yard.enter(513, 0, 1, 10_001), (11, 0, 0));
    assert_eq!(yard.withdraw(1), ACCEPTED);
    assert_eq!(yard.ask(1), (0, 5_110_000, 2));
    assert_eq!(yard.enter(1, 0, 1, 10_000), ACCEPTED);
    assert_eq!(yard.ask(1), (0, 5_120_000, 2));
    assert_eq!(yard.enter(513, 0, 1, 10_000), (14, 0, 0));
}

#[test]
fn a_movement_of_the_same_giver_taker_and_pallets() {
    let mut yard = Yard::new(1);
    yard.shows(&[0], 1);
    assert_eq!(yard.enter(7, 0, 1, 5), ACCEPTED);
    let list = [[1, 2, 1, 5], [1, 0, 2, 5], [1, 0, 1, 4], [1, 0, 1, 6], [1, 1, 0, 5], [1, 0, 1, 5]];
    for place in 0..5 {
        assert_eq!(yard.match_entry(0, 7, place, &list), (5, 0, 0), "{place}");
    }
    assert_eq!(yard.match_entry(0, 7, 5, &list), ACCEPTED);
}

#[test]
fn the_line_of_the_chosen_boxs_shown_block() {
    // Block 2 on 1, block 3 on 1, block 4 on 2; box 0 shows block 4, box 1 block 0. Box 1 has stored block 4.
    let mut yard = Yard::new(1);
    yard.shows(&[0, 1, 1, 2], 4);
    yard.ledger.table[11 + 9 + 6] = 4;
    let list: Vec<[u32; 4]> = (1..=4).map(|block| [block, 0, 1, 5]).collect();
    for (place, answer) in [(0, 0), (1, 0), (2, 5), (3, 0)] {
        assert_eq!(yard.enter(9, 0, 1, 5), ACCEPTED);
        assert_eq!(yard.match_entry(1, 9, place, &list), (5, 0, 0));
        assert_eq!(yard.match_entry(0, 9, place, &list), (answer, 0, 0), "block {}", place + 1);
        assert_eq!(yard.withdraw(9), (if answer == 0 { 13 } else { 0 }, 0, 0));
    }
}

#[test]
fn a_place_stays_used_whatever_list_is_lent() {
    let mut yard = Yard::new(1);
    yard.shows(&[0], 1);
    for identity in 1..=3 {
        assert_eq!(yard.enter(identity, 0, 1, 5), ACCEPTED);
    }
    let same = [1, 0, 1, 5];
    assert_eq!(yard.match_entry(0, 1, 0, &[same]), ACCEPTED);
    // Another list, with a movement of other words at the place; entry 4 would fit it.
    assert_eq!(yard.enter(4, 2, 1, 8), ACCEPTED);
    assert_eq!(yard.match_entry(0, 4, 0, &[[1, 2, 1, 8], same]), (5, 0, 0));
    // Equal words at another place are another movement.
    assert_eq!(yard.match_entry(0, 2, 1, &[[1, 2, 1, 8], same]), ACCEPTED);
    assert_eq!(yard.match_entry(0, 3, 1, &[same, same, same]), (5, 0, 0));
    assert_eq!(yard.match_entry(0, 3, 2_047, &[same; 2_048]), ACCEPTED);
    assert_eq!(yard.match_entry(0, 4, 2_047, &[[1, 2, 1, 8]; 2_048]), (5, 0, 0));
    assert_eq!(yard.match_entry(0, 4, 2_046, &[[1, 2, 1, 8]; 2_048]), ACCEPTED);
}

#[test]
fn a_refused_match_uses_no_place() {
    let mut yard = Yard::new(1);
    yard.shows(&[0], 1);
    assert_eq!(yard.enter(1, 0, 1, 5), ACCEPTED);
    assert_eq!(yard.match_entry(0, 1, 0, &[[1, 0, 1, 6]]), (5, 0, 0));
    assert_eq!(yard.match_entry(1, 1, 0, &[[1, 0, 1, 5]]), (5, 0, 0));
    assert_eq!(yard.match_entry(0, 2, 0, &[[1, 0, 1, 5]]), (13, 0, 0));
    assert_eq!(yard.match_entry(0, 0, 0, &[[1, 0, 1, 5]]), (13, 0, 0));
    assert_eq!(yard.match_entry(0, 1, 0, &[[1, 0, 1, 5]]), ACCEPTED);
}

#[test]
fn matching_in_the_order_1_2_3_11_13_5() {
    let mut yard = Yard::new(1);
    yard.shows(&[0, 0], 1);
    assert_eq!(yard.enter(1, 0, 1, 5), ACCEPTED);
    // Block 2 is outside the line; the second movement has no pallets.
    let (good, outside, wrong) = ([1, 0, 1, 5], [2, 0, 1, 5], [1, 0, 1, 0]);
    assert_eq!(yard.match_words(3, 9, 5, &[2, 0, 1]), (1, 0, 0));
    assert_eq!(yard.match_entry(3, 9, 5, &[good; 2_049]), (1, 0, 0));
    assert_eq!(yard.match_entry(3, 9, 2, &[outside, wrong]), (2, 0, 0));
    assert_eq!(yard.match_entry(u32::MAX, 9, 2, &[outside, wrong]), (2, 0, 0));
    assert_eq!(yard.match_entry(0, 9, 2, &[outside, wrong]), (3, 0, 0));
    assert_eq!(yard.match_entry(0, 9, u32::MAX, &[outside, wrong]), (3, 0, 0));
    assert_eq!(yard.match_entry(0, 9, 0, &[]), (3, 0, 0));
    assert_eq!(yard.match_entry(0, 9, 0, &[outside, wrong]), (11, 0, 0));
    assert_eq!(yard.match_entry(0, 9, 0, &[outside, good]), (13, 0, 0));
    assert_eq!(yard.match_entry(0, 1, 0, &[outside, good]), (5, 0, 0));
    for wrong in [[0, 0, 1, 5], [3, 0, 1, 5], [1, 3, 1, 5], [1, 0, 3, 5], [1, 1, 1, 5], [1, 0, 1, 10_001]] {
        assert_eq!(yard.match_entry(0, 1, 0, &[good, wrong]), (11, 0, 0), "{wrong:?}");
    }
    assert_eq!(yard.match_entry(0, 1, 1, &[outside, good]), ACCEPTED);
}

#[test]
fn opening_empties_entries_and_places() {
    let mut yard = Yard::new(1);
    yard.shows(&[0], 1);
    assert_eq!(yard.enter(1, 0, 1, 5), ACCEPTED);
    assert_eq!(yard.enter(2, 0, 1, 5), ACCEPTED);
    assert_eq!(yard.match_entry(0, 1, 0, &[[1, 0, 1, 5]]), ACCEPTED);
    // Refused, it leaves all as it is: 2 for f, 12 for steps, 1 for a length of the further slice or of the others.
    for (f, steps, answer) in [(0, &[][..], 2), (31, &[9; 3][..], 2), (1, &[9; 7], 12), (1, &[9; 40], 12), (2, &[], 1)]
    {
        assert_eq!(yard.open(f, steps), (answer, 0, 0));
    }
    for words in [0, 4_218, 4_220] {
        yard.waiting.words = words;
        assert_eq!((yard.open(1, &[]), yard.open(1, &[9]), yard.open(0, &[9])), ((1, 0, 0), (12, 0, 0), (2, 0, 0)));
        assert_eq!((yard.enter(9, 0, 1, 5), yard.withdraw(2), yard.ask(1)), ((1, 0, 0), (1, 0, 0), (1, 0, 0)));
    }
    yard.waiting.words = 4_219;
    assert_eq!(yard.ask(1), (0, 5, 2));
    // A plain opening is not lent the slice, and leaves it.
    assert_eq!(common::given(&mut yard.ledger, 0, 1, 0, &[]), (0, 3, 0));
    assert_eq!(yard.ask(1), (0, 5, 2));
    yard.shows(&[0], 1);
    assert_eq!(yard.match_entry(0, 2, 0, &[[1, 0, 1, 5]]), (5, 0, 0));
    assert_eq!(yard.open(1, &[]), (0, 3, 0));
    assert_eq!(yard.ask(1), ACCEPTED);
    assert_eq!(yard.withdraw(2), (13, 0, 0));
    yard.shows(&[0], 1);
    assert_eq!(yard.enter(2, 0, 1, 5), ACCEPTED);
    assert_eq!(yard.match_entry(0, 2, 0, &[[1, 0, 1, 5]]), ACCEPTED);
}

#[test]
fn a_plain_opening_of_fewer_boxes_may_leave_a_taker_that_is_none() {
    let mut yard = Yard::new(2);
    assert_eq!(yard.enter(1, 0, 4, 5), ACCEPTED);
    assert!(yard.ledger.reopen(1, &[]).is_accepted());
    assert_eq!((yard.ask(0), yard.ask(4), yard.withdraw(1)), ((1, 0, 0), (1, 0, 0), (1, 0, 0)));
    assert!(yard.ledger.reopen(2, &[]).is_accepted());
    assert_eq!(yard.ask(4), (0, 5, 1));
}

#[test]
fn wrong_form_comes_first() {
    let mut yard = Yard::new(1);
    assert_eq!(yard.enter(1, 0, 1, 5), ACCEPTED);
    // Block 0 becomes its own child.
    yard.ledger.blocks[0] = 1;
    assert_eq!((yard.enter(0, 0, 0, 0), yard.withdraw(0), yard.ask(3)), ((1, 0, 0), (1, 0, 0), (1, 0, 0)));
    assert_eq!(yard.match_entry(3, 0, 9, &[]), (1, 0, 0));
    yard.ledger.blocks[0] = 0;
    assert_eq!(yard.ask(1), (0, 5, 1));
}

/// "While these calls and opening alone change the slice, both must equal what a full pass over the history of arrivals and
/// departures since the last opening gives after each step."
#[test]
fn what_is_kept_is_the_pass_over_the_history() {
    for seed in 1..=40 {
        let mut random = Random::new(seed);
        let mut yard = Yard::new(2);
        yard.shows(&[0], 1);
        // Arrivals in order; a departure takes its arrival out.
        let mut history: Vec<[u32; 4]> = Vec::new();
        for place in 0..200 {
            let identity = random.within(1, 12);
            let (giver, apart) = (random.below(5), random.within(1, 4));
            let arrival = [identity, giver, (giver + apart) % 5, random.within(1, 10_000)];
            let at = history.iter().position(|arrival| arrival[0] == identity);
            match (random.below(3), at) {
                (0, _) => {
                    let answer = yard.enter(identity, giver, arrival[2], arrival[3]).0;
                    assert_eq!(answer, if at.is_some() { 13 } else { 0 });
                    history.extend(at.is_none().then_some(arrival));
                }
                (1, Some(at)) => {
                    let [identity, giver, taker, pallets] = history.remove(at);
                    let list = vec![[1, giver, taker, pallets]; place as usize + 1];
                    assert_eq!(yard.match_entry(0, identity, place, &list), ACCEPTED);
                }
                _ => {
                    assert_eq!(yard.withdraw(identity).0, if at.is_some() { 0 } else { 13 });
                    at.map(|at| history.remove(at));
                }
            }
            for taker in 0..5 {
                let mut waiting = history.iter().filter(|arrival| arrival[2] == taker);
                let pallets = waiting.clone().map(|arrival| arrival[3]).sum();
                assert_eq!(yard.ask(taker), (0, pallets, waiting.next().map_or(0, |arrival| arrival[0])));
            }
        }
    }
}

/// Days, full slices and slices made by hand, with each mistake: no step goes past a slice or a number's end.
#[test]
fn any_history_is_answered() {
    let (mut steps, mut by_hand) = (0, 0);
    let all: Vec<Mistake> =
        Mistake::ALL.iter().copied().filter(|mistake| mistake.is_of_waiting() || mistake.is_of_netting()).collect();
    for seed in 1..=20 {
        let history = history(seed);
        assert_eq!(history_difference(&Library(None::<Mistake>), &Library(Correct), &history), None);
        // The benchmark's words beside the library's entries.
        assert_eq!(history_difference(&Words, &Library(Correct), &history), None, "seed {seed}");
        steps += history.acts.len();
        if history.acts.len() < 12 {
            by_hand += 1;
            for &mistake in &all {
                let _ = history_difference(&Library(Some(mistake)), &Library(Correct), &history);
            }
        }
    }
    assert!(steps > 300 && by_hand > 8, "{steps} steps, {by_hand} by hand");
}

/// The archive's words, as the comparison makes them by hand.
#[test]
fn the_further_slice_in_words() {
    let mut yard = Yard::new(1);
    yard.shows(&[0], 1);
    for (identity, giver, taker, pallets) in [(7, 0, 1, 5), (8, 2, 1, 6), (9, 1, 2, 4)] {
        assert_eq!(yard.enter(identity, giver, taker, pallets), ACCEPTED);
    }
    assert_eq!(yard.match_entry(0, 7, 2, &[[1, 0, 1, 5]; 3]), ACCEPTED);
    let mut words = vec![0; 4_219];
    layout::write(&yard.waiting, &mut words);
    assert_eq!(words[..7], [2, 0, 0, 6, 8, 4, 9]);
    assert_eq!(words[123..131], [8, 2, 1, 6, 9, 1, 2, 4]);
    let used: Vec<usize> = (2_171..4_219).filter(|word| words[*word] != 0).collect();
    assert_eq!(used, [2_173]);
    let again = layout::read(&words);
    assert_eq!((again.words, &again.entries, again.kept), (4_219, &yard.waiting.entries, yard.waiting.kept));
    assert_eq!(layout::told(&words).2, [2]);
}
