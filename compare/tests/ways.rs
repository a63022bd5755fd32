//! Where there is no way on (document 02, #109), what is missing and what helps; and the run over pasts: it finds every
//! mistake that wedges, and nothing without one.

use judge::call::{REBOOT, RECOVER, REPLY_TO, REQUEST, RESERVE};
use judge::certificate::{Certificate, REPLY};
use judge::comparison::checkers::Library;
use judge::comparison::ways::{gone, way_trouble, WEDGING};
use judge::driver::Driver;
use judge::generate::ways::past;
use judge::memory::{LIVE, RECOVERING, RETIRED};
use judge::mistake::{Correct, Mistake};
use judge::random::Random;
use judge::way_choice::{choose, WhyNot};
use judge::way_on::Way;

/// A ledger of f = 1 whose replicas have these statuses, lowest views and limits.
fn ledger(replicas: [(u32, u32, u32); 3]) -> Driver<Correct> {
    let mut driver = Driver::open(Correct, 1, 64, 8);
    for ((status, min_view, view_limit), number) in replicas.into_iter().zip(0..) {
        let mut r = driver.replica(number);
        (r.status, r.min_view, r.view_limit) = (status, min_view, view_limit);
        driver.memory().set_replica(number, r);
    }
    driver
}

fn why_not(driver: &mut Driver<Correct>) -> WhyNot {
    choose(&driver.memory()).unwrap_err()
}

#[test]
fn what_is_missing() {
    let mut driver = Driver::open(Correct, 1, 5, 8);
    assert_eq!(why_not(&mut driver), WhyNot::Slots { free: 5, needed: 6 });
    let mut driver = Driver::open(Correct, 1, 6, 1);
    assert_eq!(why_not(&mut driver), WhyNot::BlockSlot);
    let mut driver = ledger([(LIVE, 1, 64), (RECOVERING, 64, 128), (RETIRED, 1, 64)]);
    let (live, back, stuck, retired) = (vec![0], vec![], vec![1], vec![2]);
    assert_eq!(why_not(&mut driver), WhyNot::Live { live, back, stuck, retired });
    let at_limit = (LIVE, 64, 64);
    let mut driver = ledger([at_limit, at_limit, (LIVE, 64, 128)]);
    let WhyNot::Views { reserves: Some(reserves), back } = why_not(&mut driver) else { panic!("no reserves") };
    assert_eq!((reserves.of, back), (vec![(1, 1)], vec![]));
    assert_eq!(reserves.then, Way { replicas: vec![1, 2], view: 65 });
    // At the counter's end: no reserve helps, but a third replica that comes back may.
    let at_end = (LIVE, 999_990, 999_990);
    let mut driver = ledger([at_end, (LIVE, 1, 64), (RECOVERING, 64, 128)]);
    assert_eq!(why_not(&mut driver), WhyNot::Views { reserves: None, back: vec![2] });
    let mut driver = ledger([at_end, at_end, (RETIRED, 1, 64)]);
    assert_eq!(why_not(&mut driver), WhyNot::Views { reserves: None, back: vec![] });
}

/// The view is quickly found where limits are far apart.
#[test]
fn far_limits() {
    let far = |min_view| (LIVE, min_view, 1_000_000);
    let mut driver = ledger([far(999_990), far(1), (RECOVERING, 1, 64)]);
    assert_eq!(choose(&driver.memory()), Ok(Way { replicas: vec![0, 1], view: 999_991 }));
    let mut driver = ledger([far(999_999), far(1), far(5)]);
    assert_eq!(choose(&driver.memory()), Ok(Way { replicas: vec![1, 2], view: 6 }));
}

/// A past, with cuts after it half the time.
fn cut_past(seed: u64) -> Driver<Correct> {
    let (mut driver, mut random) = (past(seed).driver, Random::new(seed));
    let most = driver.f() + 2;
    for _ in 0..random.pick(&[0, most]) {
        let replica = random.below(driver.n());
        driver.call(REBOOT, replica, 0, &[]);
    }
    driver
}

/// Does all that may bring a recovering replica back: every live one replies, where need be after reserves.
fn bring_back(driver: &mut Driver<Correct>, replica: u32) -> Option<()> {
    let r = driver.replica(replica);
    let quorum = driver.f() as usize + 1;
    let req = driver.accepted(REQUEST, replica, 0, &[])?;
    let live: Vec<u32> = (0..driver.n()).filter(|&other| driver.replica(other).status == LIVE).collect();
    for other in live {
        driver.raise_limit(RESERVE, other, r.min_view);
        driver.call(REPLY_TO, other, req, &[]);
    }
    let fits = |c: Certificate| c.kind == REPLY && c.subject == replica && c.subject_boot == r.boot;
    let mut replies = driver.issued_where(fits);
    let signer = |driver: &mut Driver<Correct>, number: &u32| driver.certificate(*number).signer;
    replies.sort_by_key(|number| signer(driver, number));
    replies.dedup_by_key(|number| signer(driver, number));
    let list = replies.get(..quorum)?;
    for &reply in list {
        let of_view = driver.certificate(reply).of_view;
        driver.raise_limit(RESERVE, replica, of_view + 1);
    }
    driver.accepted(RECOVER, replica, 0, list).map(drop)
}

#[test]
fn what_is_said_to_help_helps() {
    let (mut reserved, mut came_back, mut stuck_for_good) = (0, 0, 0);
    for seed in 1..=3000 {
        let mut driver = cut_past(seed);
        let copy = |driver: &mut Driver<Correct>| Driver::on(Correct, &driver.memory());
        let back = match choose(&driver.memory()) {
            Err(WhyNot::Views { reserves: Some(reserves), back }) => {
                let mut later = copy(&mut driver);
                for (replica, times) in reserves.of {
                    (0..times).for_each(|_| assert!(later.accepted(RESERVE, replica, 0, &[]).is_some()));
                }
                assert_eq!(reserves.then.lacks(&later.memory()), None, "seed {seed}");
                assert!(choose(&later.memory()).unwrap().view <= reserves.then.view, "seed {seed}");
                reserved += 1;
                back
            }
            Err(WhyNot::Views { back, .. } | WhyNot::Live { back, .. }) => back,
            _ => continue,
        };
        for replica in
            (0..driver.n()).filter(|&replica| driver.replica(replica).status == RECOVERING).collect::<Vec<_>>()
        {
            let is_back = bring_back(&mut copy(&mut driver), replica).is_some();
            assert_eq!(is_back, back.contains(&replica), "seed {seed}: replica {replica}");
            came_back += u32::from(is_back);
            stuck_for_good += u32::from(!is_back);
        }
    }
    let counts = (reserved, came_back, stuck_for_good);
    assert!(reserved > 100 && came_back > 100 && stuck_for_good > 100, "{counts:?}");
}

/// The first past of so many whose way a mistake spoils.
fn spoiled(mistake: Option<Mistake>, most: u64) -> Option<u64> {
    (1..=most).find(|&seed| {
        let past = past(seed);
        way_trouble(&Library(mistake), &past.text(), past.spare).is_some()
    })
}

#[test]
fn every_mistake_that_wedges_is_found() {
    let missed: Vec<&str> = WEDGING
        .iter()
        .filter(|mistake| spoiled(Some(**mistake), 400).is_none())
        .map(|mistake| mistake.name())
        .collect();
    assert!(missed.is_empty(), "not found: {missed:?}");
}

#[test]
fn nothing_is_found_without_a_mistake() {
    assert_eq!(spoiled(None, 1000), None);
    let gone =
        (1..=400).filter(|&seed| gone(&Library(Correct), &past(seed).text(), past(seed).spare).is_some()).count();
    assert!(gone > 200, "{gone} of 400 pasts have a way on");
}
