//! Makes a memory ready for its call: the certificates it names and its replica's words become acceptable, or nearly.

use super::memory::{any_boot, any_view, Sample};
use crate::call::*;
use crate::certificate::*;
use crate::leader::leader;
use crate::memory::{header, Replica, CEILING, LIVE, RECOVERING};
use crate::random::Random;
use crate::steps::Steps;

pub fn make_ready(random: &mut Random, sample: &mut Sample) {
    let (f, n, issued) = (sample.table[header::F], sample.n(), sample.table[header::ISSUED]);
    if sample.line.replica >= n || issued < f + 1 {
        return;
    }
    let mut places: Vec<u32> = (0..issued).collect();
    random.shuffle(&mut places);
    places.truncate(f as usize + 1);
    match sample.line.code {
        PREPARE_ACC => ready_for_acc(random, sample, places[0]),
        PREPARE_COMMITS | DECIDE => ready_for_commits(random, sample, places),
        STORE => ready_for_store(random, sample, places[0]),
        VIEW => ready_for_view(random, sample),
        ACCUMULATE => ready_for_accumulate(random, sample, places),
        REBOOT | RESERVE => ready_for_step(random, sample),
        REPLY_TO => ready_for_reply(random, sample, places[0]),
        RECOVER => ready_for_recover(random, sample, places),
        _ => {}
    }
}

/// The call's replica.
fn caller(sample: &mut Sample) -> Replica {
    let replica = sample.line.replica;
    sample.memory().replica(replica)
}

fn set_caller(sample: &mut Sample, r: Replica) {
    let replica = sample.line.replica;
    sample.memory().set_replica(replica, r);
}

/// Live in view w with flag 0, the limit a little above; stays of sound form.
fn live_at(random: &mut Random, sample: &mut Sample, w: u32) {
    let mut r = caller(sample);
    r.status = LIVE;
    r.flag = 0;
    r.min_view = w.clamp(1, CEILING);
    r.view_limit = (r.min_view + random.pick(&[0, 1, 1, 2, Steps::DEFAULT.first()])).min(CEILING);
    r.stored_view = random.below(r.min_view.min(8));
    set_caller(sample, r);
}

/// Live and about to prepare in view w; now and then a view off, or with its flag set.
fn proposing_at(random: &mut Random, sample: &mut Sample, w: u32) {
    let near = random.pick(&[w.saturating_sub(1), w + 1]);
    let low = if random.once_in(16) { near } else { w };
    live_at(random, sample, low);
    let mut r = caller(sample);
    r.flag = u32::from(random.once_in(16));
    set_caller(sample, r);
}

/// Different signers in any order; now and then the first of them again, mostly in another boot.
fn signers(random: &mut Random, sample: &Sample, without: Option<u32>) -> Vec<u32> {
    let mut signers: Vec<u32> = (0..sample.n()).filter(|&signer| Some(signer) != without).collect();
    random.shuffle(&mut signers);
    if random.once_in(12) {
        signers[1] = signers[0];
    }
    signers
}

/// Puts a certificate into the log, of the boot that its signer has or of any.
fn put(random: &mut Random, sample: &mut Sample, place: u32, unsigned: Certificate) {
    let (present, any) = (sample.memory().replica(unsigned.signer).boot, any_boot(random));
    let signer_boot = random.pick(&[present, any]);
    sample.set_certificate(place, Certificate { signer_boot, ..unsigned });
}

/// The view's leader; now and then, and for view 0, which has none, the first replica, the last or any.
fn proposer(random: &mut Random, n: u32, view: u32) -> u32 {
    let any = random.below(n);
    match leader(view, n) {
        Some(leader) if !random.once_in(12) => leader,
        _ => random.pick(&[0, n - 1, any]),
    }
}

/// A block on a base, made so where there is one above it.
fn child(random: &mut Random, sample: &mut Sample, base: u32) -> u32 {
    let added = sample.table[header::ADDED];
    if base + 1 >= added {
        return random.below(added);
    }
    let block = random.within(base + 1, added - 1);
    sample.set_parent(block, base);
    block
}

fn ready_for_acc(random: &mut Random, sample: &mut Sample, place: u32) {
    let (view, block) = (any_view(random), random.below(sample.table[header::ADDED]));
    sample.line.replica = proposer(random, sample.n(), view);
    let of_view = any_view(random);
    let acc = Certificate { kind: ACC, signer: sample.line.replica, view, block, of_view, ..Certificate::default() };
    put(random, sample, place, acc);
    sample.line.list = vec![place];
    sample.line.number = child(random, sample, block);
    proposing_at(random, sample, view);
}

fn ready_for_commits(random: &mut Random, sample: &mut Sample, places: Vec<u32>) {
    let (view, block) = (any_view(random), random.below(sample.table[header::ADDED]));
    let signers = signers(random, sample, None);
    for (&place, &signer) in places.iter().zip(&signers) {
        put(random, sample, place, Certificate { kind: COMMIT, signer, view, block, ..Certificate::default() });
    }
    sample.line.list = places;
    if sample.line.code == PREPARE_COMMITS {
        sample.line.replica = proposer(random, sample.n(), view + 1);
        sample.line.number = child(random, sample, block);
        proposing_at(random, sample, view + 1);
    } else {
        let mut r = caller(sample);
        r.decided_view = random.pick(&[0, view, view.saturating_sub(1), (view + 1).min(CEILING)]);
        set_caller(sample, r);
    }
}

fn ready_for_store(random: &mut Random, sample: &mut Sample, place: u32) {
    let (view, block) = (any_view(random), random.below(sample.table[header::ADDED]));
    let signer = proposer(random, sample.n(), view);
    put(random, sample, place, Certificate { kind: PROP, signer, view, block, ..Certificate::default() });
    sample.line.number = place;
    let above = u32::from(random.once_in(8));
    let below = random.pick(&[0, 0, 1, 2]);
    live_at(random, sample, (view + above).saturating_sub(below));
}

fn ready_for_view(random: &mut Random, sample: &mut Sample) {
    let below = random.pick(&[0, 0, 1, 2]);
    let w = sample.line.number;
    live_at(random, sample, w.saturating_sub(below));
    let mut r = caller(sample);
    r.flag = random.below(2);
    set_caller(sample, r);
}

fn ready_for_accumulate(random: &mut Random, sample: &mut Sample, places: Vec<u32>) {
    let view = any_view(random);
    let signers = signers(random, sample, None);
    for (&place, &signer) in places.iter().zip(&signers) {
        let (block, of_view) = (random.below(sample.table[header::ADDED]), random.below(4));
        let promise = Certificate { kind: NEWVIEW, signer, view, block, of_view, ..Certificate::default() };
        put(random, sample, place, promise);
    }
    sample.line.list = places;
    let mut r = caller(sample);
    r.status = LIVE;
    set_caller(sample, r);
}

/// Now and then the limit grows to just the ceiling, or to one past it.
fn ready_for_step(random: &mut Random, sample: &mut Sample) {
    if !random.once_in(3) {
        return;
    }
    let mut r = caller(sample);
    r.boot = random.below(10);
    let stepped = if sample.line.code == REBOOT { r.boot + 1 } else { r.boot };
    r.status = random.pick(&[LIVE, RECOVERING]);
    r.view_limit = CEILING - sample.memory().steps().of_boot(stepped) + random.below(2);
    r.min_view = r.min_view.min(r.view_limit);
    r.stored_view = r.stored_view.min(r.min_view - 1);
    set_caller(sample, r);
}

fn ready_for_reply(random: &mut Random, sample: &mut Sample, place: u32) {
    let view = any_view(random);
    let signer = signers(random, sample, Some(sample.line.replica))[0];
    let subject_boot = random.below(4);
    let subject = if random.once_in(4) { random.below(sample.n()) } else { signer };
    put(
        random,
        sample,
        place,
        Certificate { kind: REQ, signer, view, subject, subject_boot, ..Certificate::default() },
    );
    sample.line.number = place;
    let mut r = caller(sample);
    r.status = LIVE;
    r.flag = random.below(2);
    r.min_view = (view + random.below(3)).saturating_sub(1).clamp(1, CEILING);
    r.view_limit = (r.min_view + random.below(3)).min(CEILING);
    r.stored_view = random.below(r.min_view.min(8));
    set_caller(sample, r);
}

fn ready_for_recover(random: &mut Random, sample: &mut Sample, places: Vec<u32>) {
    let mut r = caller(sample);
    let own = random.once_in(8);
    let signers = signers(random, sample, if own { None } else { Some(sample.line.replica) });
    let around = random.pick(&[0, r.min_view.saturating_sub(2)]);
    for (&place, &signer) in places.iter().zip(&signers) {
        let (block, of_view) = (random.below(sample.table[header::ADDED]), (around + random.below(4)).min(CEILING));
        let (view, subject_boot, subject) = (r.min_view, r.boot, sample.line.replica);
        let reply = Certificate { kind: REPLY, signer, view, block, of_view, subject, subject_boot, signer_boot: 0 };
        put(random, sample, place, reply);
    }
    sample.line.list = places;
    r.status = RECOVERING;
    r.view_limit = (r.min_view + random.below(3)).min(CEILING);
    set_caller(sample, r);
}
