//! Document 02, #109: there is always a way on. From states reached from an opening, on memories made by hand, and each
//! premise by a case that needs it. Codes, numbers and answers are literal, as the documents have them.

mod common;

use common::{given, refused, Given};
use judge::call::Outcome;
use judge::driver::{Driver, Line};
use judge::form::well_formed;
use judge::generate::memory::sample;
use judge::generate::ways::{any_way, past};
use judge::memory::{Memory, Replica};
use judge::mistake::Correct;
use judge::random::Random;
use judge::way_choice::{choose, least_way};
use judge::way_on::{go_on, numbered_answers, numbered_calls, way_on, Lacking, Way};

type Calls = Vec<(Line, Outcome)>;

fn answers(calls: &Calls) -> Vec<Given> {
    calls.iter().map(|(_, outcome)| (outcome.answer, outcome.first, outcome.second)).collect()
}

fn lines(calls: &Calls) -> Vec<Line> {
    calls.iter().map(|(line, _)| line.clone()).collect()
}

/// A copy with so many free slots of the log and of the blocks.
fn with_room(m: &Memory, slots: u32, blocks: u32) -> Driver<Correct> {
    let mut driver = Driver::on(Correct, m);
    driver.log.resize(8 * (m.issued() + slots) as usize, 7);
    driver.blocks.resize(2 * (m.added() + blocks) as usize, 7);
    driver
}

/// The way in a reached state, with just the room that it needs: 2f+6 calls, all numbers the next ones, none found.
fn goes_on(m: &Memory, way: &Way) {
    let (f, issued, added) = (m.f(), m.issued(), m.added());
    let mut driver = with_room(m, 2 * f + 4, 1);
    assert_eq!(way.lacks(&driver.memory()), None);
    let calls = go_on(&mut driver, way);
    assert_eq!(calls.len() as u32, 2 * f + 6);
    assert_eq!(lines(&calls), numbered_calls(m, way));
    assert_eq!(lines(&calls), way_on(&with_room(m, 2 * f + 4, 1).memory(), way));
    let outcomes: Vec<Outcome> = calls.iter().map(|(_, outcome)| *outcome).collect();
    assert_eq!(outcomes, numbered_answers(m, way));
    let (last, before) = answers(&calls).split_last().map(|(last, before)| (*last, before.to_vec())).unwrap();
    assert_eq!(last, (0, added, way.view));
    assert!(before.iter().all(|&(answer, _, second)| (answer, second) == (0, 0)));
    let numbers: Vec<u32> =
        before.iter().zip(&calls).filter(|(_, (line, _))| line.code != 1).map(|(g, _)| g.1).collect();
    assert!(numbers.iter().copied().eq(issued..issued + 2 * f + 4), "{numbers:?}");
    assert_eq!((driver.issued(), driver.added()), (issued + 2 * f + 4, added + 1));
}

/// With a slot less than 2f+4 the last store finds no room, and the decide not its COMMIT; without a slot for a block, the
/// block does not.
fn needs_room(m: &Memory, way: &Way) {
    let f = m.f() as usize;
    let mut driver = with_room(m, 2 * m.f() + 3, 1);
    assert_eq!(way.lacks(&driver.memory()), Some(Lacking::Slots));
    let given = answers(&go_on(&mut driver, way));
    assert!(given[..2 * f + 4].iter().all(|given| given.0 == 0), "{given:?}");
    assert_eq!((given[2 * f + 4], given[2 * f + 5]), ((9, 0, 0), (5, 0, 0)));
    let last = numbered_calls(m, way).pop().unwrap();
    refused(&mut driver, 3, 7, last.replica, 0, &last.list);
    let mut driver = with_room(m, 2 * m.f() + 4, 0);
    assert_eq!(way.lacks(&driver.memory()), Some(Lacking::BlockSlot));
    assert_eq!(answers(&go_on(&mut driver, way))[f + 2], (9, 0, 0));
}

#[test]
fn from_any_reached_state() {
    let (mut found, mut large) = (0, 0);
    for seed in 1..=3000 {
        let mut past = past(seed);
        let m = past.driver.memory();
        let mut random = Random::new(seed);
        let Ok(least) = choose(&m) else { continue };
        let other = any_way(&mut random, &m, &least);
        for way in [&least, &other] {
            goes_on(&m, way);
        }
        needs_room(&m, &other);
        found += 1;
        large += u32::from(m.f() > 3);
    }
    assert!(
        found > 1500 && large > 100,
        "{found} of 3000 states have a way on, {large} with more than three replicas to fail"
    );
}

/// Views one by one, from the first on.
fn least_by_search(m: &Memory) -> Option<u32> {
    let n = m.replicas();
    let enters = |view: u32, replica: u32| {
        let r = m.replica(replica);
        r.status == 0 && r.min_view < view && view < r.view_limit
    };
    let last = (0..n).map(|replica| m.replica(replica).view_limit).max()?;
    let good = |view: &u32| {
        enters(*view, (view - 1) % n) && (0..n).filter(|&replica| enters(*view, replica)).count() as u32 > m.f()
    };
    (1..last).find(good)
}

#[test]
fn the_least_view_is_chosen() {
    let (mut none, mut some) = (0, 0);
    for seed in 1..=3000 {
        let mut past = past(seed);
        let m = past.driver.memory();
        let least = least_way(&m);
        assert_eq!(least.as_ref().map(|way| way.view), least_by_search(&m), "seed {seed}");
        none += u32::from(least.is_none());
        let Some(way) = least else { continue };
        assert!(way.replicas.is_sorted() && matches!(way.lacks(&m), None | Some(Lacking::Slots | Lacking::BlockSlot)));
        let others: Vec<u32> =
            way.replicas.iter().copied().filter(|&replica| replica != (way.view - 1) % m.replicas()).collect();
        let enters = |r: Replica| r.status == 0 && r.min_view < way.view && way.view < r.view_limit;
        let passed = |replica: &u32| enters(m.replica(*replica)) && !way.replicas.contains(replica);
        assert!(!(0..*others.last().unwrap()).any(|replica| passed(&replica)), "seed {seed}: {way:?}");
        some += 1;
    }
    assert!(none > 100 && some > 1500, "{none} without, {some} with a way");
}

/// A memory of sound form with room, some of its replicas live and between far limits.
fn by_hand(seed: u64) -> Option<Driver<Correct>> {
    let mut random = Random::new(seed);
    let mut sample = sample(seed);
    if !well_formed(Correct, &sample.memory()) {
        return None;
    }
    let m = sample.memory();
    let mut driver = with_room(&m, 2 * m.f() + 4 + random.below(3), 1 + random.below(2));
    for replica in 0..driver.n() {
        if random.once_in(2) {
            let r = Replica { status: 0, view_limit: 1_000_000, ..driver.replica(replica) };
            driver.memory().set_replica(replica, r);
        }
    }
    well_formed(Correct, &driver.memory()).then_some(driver)
}

/// Puts some of the way's NEWVIEWs and its ACC into the log beforehand, so that they are found.
fn issue_some(random: &mut Random, driver: &mut Driver<Correct>, after: &Driver<Correct>) {
    let most = driver.f() + 2;
    driver.log.resize(driver.log.len() + 8 * most as usize, 7);
    let issued = driver.issued();
    for number in (issued..after.issued().min(issued + most)).filter(|_| random.once_in(2)) {
        let (to, from) = (8 * driver.issued() as usize, 8 * number as usize);
        driver.log[to..to + 8].copy_from_slice(&after.log[from..from + 8]);
        driver.table[1] += 1;
    }
}

/// None is refused, though certificates may be found: how many are, and what is left.
fn ends_in_decision(driver: &mut Driver<Correct>, way: &Way) -> (usize, Driver<Correct>) {
    let mut after = Driver::on(Correct, &driver.memory());
    assert_eq!(way.lacks(&after.memory()), None);
    let given = answers(&go_on(&mut after, way));
    assert_eq!(given.len() as u32, 2 * driver.f() + 6);
    assert!(given.iter().all(|given| given.0 == 0), "{given:?}");
    assert_eq!(given.last(), Some(&(0, driver.added(), way.view)));
    (given[..given.len() - 1].iter().filter(|given| given.2 == 1).count(), after)
}

#[test]
fn in_any_memory_of_sound_form() {
    let (mut ways, mut found) = (0, 0);
    for seed in 1..=6000 {
        let Some(mut driver) = by_hand(seed) else { continue };
        let Ok(least) = choose(&driver.memory()) else { continue };
        let mut random = Random::new(seed);
        let way = any_way(&mut random, &driver.memory(), &least);
        let (_, after) = ends_in_decision(&mut driver, &way);
        issue_some(&mut random, &mut driver, &after);
        found += ends_in_decision(&mut driver, &way).0;
        ways += 1;
    }
    assert!(ways > 1000 && found > 1000, "{ways} memories with a way on, {found} certificates found");
}

/// A ledger of f = 1 after these calls, with so many slots of the log and of the blocks.
fn after(calls: &[(u32, u32, u32, &[u32])], slots: usize, blocks: usize) -> Driver<Correct> {
    let mut driver = Driver::open(Correct, 1, slots, blocks);
    for &(code, replica, number, list) in calls {
        driver.call(code, replica, number, list);
    }
    driver
}

fn way(replicas: &[u32], view: u32) -> Way {
    Way { replicas: replicas.to_vec(), view }
}

/// What a way lacks, and the answers of its calls up to the first refusal.
fn stopped(mut driver: Driver<Correct>, way: Way) -> (Option<Lacking>, Vec<Given>) {
    let lacking = way.lacks(&driver.memory());
    let given = answers(&go_on(&mut driver, &way));
    let count = given.iter().position(|given| given.0 != 0).map_or(given.len(), |place| place + 1);
    (lacking, given[..count].to_vec())
}

/// Replica 0 has proposed in view 1, which it leads.
const PROPOSED: &[(u32, u32, u32, &[u32])] =
    &[(5, 0, 1, &[]), (5, 1, 1, &[]), (6, 0, 0, &[0, 1]), (1, 0, 0, &[]), (2, 0, 1, &[2])];

#[test]
fn each_premise_is_needed() {
    let (entered, accumulated, block) = ([(0, 0, 0), (0, 1, 0)], (0, 2, 0), (0, 1, 0));
    let on = |given: Given| [entered.as_slice(), &[accumulated, block, given]].concat();
    let all = [on((0, 3, 0)), vec![(0, 4, 0), (0, 5, 0), (0, 1, 2)]].concat();
    assert_eq!(stopped(after(&[], 6, 2), way(&[0, 1], 2)), (None, all));
    // f replicas; one twice; one that is none; one that is recovering.
    let number = (Some(Lacking::Number), vec![(0, 0, 0), (2, 0, 0)]);
    assert_eq!(stopped(after(&[], 6, 2), way(&[1], 2)), number);
    let twice = (Some(Lacking::Different(1)), vec![(0, 0, 0), (0, 0, 1), (5, 0, 0)]);
    assert_eq!(stopped(after(&[], 6, 2), way(&[1, 1], 2)), twice);
    assert_eq!(stopped(after(&[], 6, 2), way(&[3, 1], 2)), (Some(Lacking::Live(3)), vec![(2, 0, 0)]));
    let recovering = (Some(Lacking::Live(0)), vec![(4, 0, 0)]);
    assert_eq!(stopped(after(&[(8, 0, 0, &[])], 6, 2), way(&[0, 1], 2)), recovering);
    // In the lowest view itself all is found, but the flag is raised; at the limit; without the leader, which has not entered.
    let raised = vec![(0, 0, 1), (0, 1, 1), (0, 2, 1), (0, 2, 0), (7, 0, 0)];
    assert_eq!(stopped(after(PROPOSED, 10, 3), way(&[0, 1], 1)), (Some(Lacking::AboveLowest(0)), raised));
    assert_eq!(stopped(after(&[], 6, 2), way(&[0, 1], 64)), (Some(Lacking::BelowLimit(0)), vec![(8, 0, 0)]));
    assert_eq!(stopped(after(&[], 6, 2), way(&[0, 2], 2)), (Some(Lacking::Leader), on((7, 0, 0))));
    // Five slots of the log, not six; no slot for a block.
    let full = [on((0, 3, 0)), vec![(0, 4, 0), (9, 0, 0)]].concat();
    assert_eq!(stopped(after(&[], 5, 2), way(&[0, 1], 2)), (Some(Lacking::Slots), full));
    let no_block = [entered.as_slice(), &[accumulated, (9, 0, 0)]].concat();
    assert_eq!(stopped(after(&[], 6, 1), way(&[0, 1], 2)), (Some(Lacking::BlockSlot), no_block));
}

/// Document 01's script as document 02 has it, with the recovery of its edges: then replica 0 reserves, and view 65 is there.
#[test]
fn after_the_worked_script() {
    let worked: &[(u32, u32, u32, &[u32])] = &[(4, 0, 3, &[]), (8, 1, 0, &[]), (4, 2, 3, &[]), (7, 0, 0, &[4, 5])];
    let recovery: &[(u32, u32, u32, &[u32])] = &[(10, 1, 0, &[]), (11, 0, 6, &[]), (11, 2, 6, &[])];
    let mut driver = after(&[PROPOSED, worked, recovery].concat(), 64, 8);
    assert_eq!(given(&mut driver, 12, 1, 0, &[7, 8]), (0, 64, 1));
    assert_eq!(given(&mut driver, 9, 0, 0, &[]), (0, 128, 0));
    let chosen = choose(&driver.memory());
    assert_eq!(chosen, Ok(way(&[0, 1], 65)));
    let calls = go_on(&mut driver, &way(&[0, 1], 65));
    let expected: &[(Line, Given)] = &[
        (Line::new(5, 0, 65, &[]), (0, 9, 0)),
        (Line::new(5, 1, 65, &[]), (0, 10, 0)),
        (Line::new(6, 1, 0, &[9, 10]), (0, 11, 0)),
        (Line::new(1, 0, 1, &[]), (0, 2, 0)),
        (Line::new(2, 1, 2, &[11]), (0, 12, 0)),
        (Line::new(4, 0, 12, &[]), (0, 13, 0)),
        (Line::new(4, 1, 12, &[]), (0, 14, 0)),
        (Line::new(7, 1, 0, &[13, 14]), (0, 2, 65)),
    ];
    assert!(lines(&calls).into_iter().zip(answers(&calls)).eq(expected.iter().cloned()), "{calls:?}");
}

/// f = 2, steps of document 01. Replica 3 was cut and is back; it has proposed block 1 in view 64, which replica 0 alone has
/// stored; views 65 and 66 are left; replica 1 is recovering, and replica 2 at its limit. Replica 3 leads view 69.
#[test]
fn after_a_past_of_unfinished_views() {
    let mut driver = Driver::open(Correct, 2, 64, 8);
    let calls: &[(u32, u32, u32, &[u32], Given)] = &[
        (8, 3, 0, &[], (0, 1, 64)),
        (10, 3, 0, &[], (0, 0, 0)),
        (11, 0, 0, &[], (0, 1, 0)),
        (11, 1, 0, &[], (0, 2, 0)),
        (11, 2, 0, &[], (0, 3, 0)),
        (12, 3, 0, &[1, 2, 3], (0, 64, 0)),
        (9, 0, 0, &[], (0, 128, 0)),
        (9, 4, 0, &[], (0, 128, 0)),
        (5, 3, 64, &[], (0, 4, 0)),
        (5, 0, 64, &[], (0, 5, 0)),
        (5, 4, 64, &[], (0, 6, 0)),
        (6, 3, 0, &[4, 5, 6], (0, 7, 0)),
        (1, 0, 0, &[], (0, 1, 0)),
        (2, 3, 1, &[7], (0, 8, 0)),
        (4, 0, 8, &[], (0, 9, 0)),
        (5, 0, 66, &[], (0, 10, 0)),
        (5, 4, 66, &[], (0, 11, 0)),
        (8, 1, 0, &[], (0, 1, 64)),
    ];
    for &(code, replica, number, list, expected) in calls {
        assert_eq!(given(&mut driver, code, replica, number, list), expected, "code {code} of {replica}");
    }
    let chosen = choose(&driver.memory());
    assert_eq!(chosen, Ok(way(&[0, 3, 4], 69)));
    let made = go_on(&mut driver, &way(&[0, 3, 4], 69));
    let views = [Line::new(5, 0, 69, &[]), Line::new(5, 3, 69, &[]), Line::new(5, 4, 69, &[])];
    let between = [Line::new(6, 3, 0, &[12, 13, 14]), Line::new(1, 0, 1, &[]), Line::new(2, 3, 2, &[15])];
    let stores = [Line::new(4, 0, 16, &[]), Line::new(4, 3, 16, &[]), Line::new(4, 4, 16, &[])];
    let decide = [Line::new(7, 3, 0, &[17, 18, 19])];
    assert_eq!(lines(&made), [views.as_slice(), &between, &stores, &decide].concat());
    let issued = [(0, 12, 0), (0, 13, 0), (0, 14, 0), (0, 15, 0), (0, 2, 0), (0, 16, 0), (0, 17, 0), (0, 18, 0)];
    assert_eq!(answers(&made), [issued.as_slice(), &[(0, 19, 0), (0, 2, 69)]].concat());
}
