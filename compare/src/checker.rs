//! Block, prepare, store, view and decide.

use crate::block::{block_slots, Block};
use crate::certificate::{Certificate, ACC, COMMIT, FOUND, NEWVIEW, PROP};
use crate::form::well_formed;
use crate::memory::*;
use crate::mistake::{Mistake, Rules};
use crate::refusal::*;

/// What lets a leader propose (document 01: ground): an ACC's number, or a list of matching commits.
#[derive(Clone, Copy, Debug)]
pub enum Justification<'a> {
    Acc(u32),
    Commits(&'a [u32]),
}

pub fn block<R: Rules>(rules: R, m: &mut Memory, parent: u32) -> Answer {
    need(well_formed(rules, m), WRONG_FORM)?;
    need(m.is_added(parent), UNKNOWN_NUMBER)?;
    let number = m.added();
    let kept = usize::from(rules.has(Mistake::NineBlocksEarly));
    let by_words = rules.has(Mistake::BlockRoomByWords);
    let slots = if by_words { m.blocks.len() } else { block_slots(m.blocks) };
    need(number as usize + kept < slots, NO_ROOM)?;
    new_block(rules, m, parent).put(m.blocks, number);
    if !rules.has(Mistake::BlockCountStays) {
        m.table[header::ADDED] += 1;
    }
    Ok((number, if rules.has(Mistake::BlockToldFound) { FOUND } else { 0 }))
}

fn new_block<R: Rules>(rules: R, m: &Memory, parent: u32) -> Block {
    let number = m.added();
    let mut block = Block::on(m.blocks, parent);
    if rules.has(Mistake::BlockHeightParents) {
        block.height = m.height(parent);
    }
    if rules.has(Mistake::BlockHeightNumber) {
        block.height = number;
    }
    if rules.has(Mistake::BlockHeightOnNumber) {
        block.height = parent + 1;
    }
    if rules.has(Mistake::BlockHeightLeft) {
        block.height = m.height(number);
    }
    if rules.has(Mistake::BlockHeightLast) {
        block.height = Block::on(m.blocks, number - 1).height;
    }
    if rules.has(Mistake::BlockWordsSwapped) {
        block = Block { parent: block.height, height: parent };
    }
    block
}

/// The view to propose in and the block to build on, by a justification.
fn justified<R: Rules>(rules: R, m: &Memory, replica: u32, j: Justification) -> Result<(u32, u32), u32> {
    match j {
        Justification::Acc(number) => {
            let acc = m.certificate(number);
            let own = acc.signer == replica || rules.has(Mistake::PrepareOtherAcc);
            let boot = m.replica(replica).boot;
            let unfit = rules.has(Mistake::PrepareEarlierAcc) && acc.signer_boot < boot
                || rules.has(Mistake::PrepareLaterAcc) && acc.signer_boot > boot;
            need(acc.kind == ACC && own && !unfit, WRONG_CERTIFICATE)?;
            Ok((acc.view, acc.block))
        }
        Justification::Commits(list) => {
            let (view, block) = m.commit_quorum(rules, list).ok_or(WRONG_CERTIFICATE)?;
            Ok((view.saturating_add(1), block))
        }
    }
}

pub fn prepare<R: Rules>(rules: R, m: &mut Memory, replica: u32, block: u32, j: Justification) -> Answer {
    need(well_formed(rules, m), WRONG_FORM)?;
    let (list_fits, issued) = match j {
        Justification::Acc(number) => (true, m.is_issued(number)),
        Justification::Commits(list) => (m.is_list_length(rules, list), m.all_issued(list)),
    };
    need(m.is_replica(replica) && list_fits, OUT_OF_RANGE)?;
    need(issued && m.is_added(block), UNKNOWN_NUMBER)?;
    let mut r = m.replica(replica);
    let let_in = rules.has(Mistake::PrepareRecovering) && r.status == RECOVERING;
    need(r.status == LIVE || let_in, WRONG_STATUS)?;
    let (w, base) = justified(rules, m, replica, j)?;
    let any_leader = rules.has(Mistake::PrepareAnyLeader)
        || rules.has(Mistake::LeaderNowhere)
        || rules.has(Mistake::PrepareViewZero) && w == 0;
    let own_view = rules.has(Mistake::CommitsOwnLeader) && matches!(j, Justification::Commits(_));
    let led = if own_view { w - 1 } else { w };
    need(m.leads(rules, replica, led, Mistake::PrepareOldLeader) || any_leader, WRONG_CERTIFICATE)?;
    need(block != 0 || rules.has(Mistake::PrepareBlockZero), WRONG_BLOCK)?;
    let by_height = rules.has(Mistake::PrepareByHeight) && m.height(block) == Block::on(m.blocks, base).height;
    need(m.parent(block) == base || by_height || rules.has(Mistake::PrepareAnyParent), WRONG_BLOCK)?;
    let early = rules.has(Mistake::PrepareAboveMinView) || rules.has(Mistake::PrepareBeforeEntering);
    let entered = r.min_view == w && !rules.has(Mistake::PrepareBeforeEntering);
    need(entered || early && r.min_view < w, WRONG_VIEW)?;
    need(r.flag == 0 || rules.has(Mistake::PrepareIgnoresFlag), WRONG_VIEW)?;
    need(below_limit(w, r, rules.has(Mistake::PrepareLimitInclusive)), COUNTER_LIMIT)?;
    let prop = Certificate { kind: PROP, signer: replica, view: w, block, ..Certificate::default() };
    r.flag = 1;
    m.issue(rules, prop, r)
}

fn below_limit(view: u32, r: Replica, inclusive: bool) -> bool {
    view < r.view_limit || inclusive && view == r.view_limit
}

pub fn store<R: Rules>(rules: R, m: &mut Memory, replica: u32, number: u32) -> Answer {
    need(well_formed(rules, m), WRONG_FORM)?;
    need(m.is_replica(replica), OUT_OF_RANGE)?;
    need(m.is_issued(number), UNKNOWN_NUMBER)?;
    let mut r = m.replica(replica);
    let let_in = rules.has(Mistake::StoreRecovering) && r.status == RECOVERING;
    need(r.status == LIVE || let_in, WRONG_STATUS)?;
    let prop = m.certificate(number);
    let Certificate { kind, signer, view, block, .. } = prop;
    need(kind == PROP, WRONG_CERTIFICATE)?;
    need(!rules.has(Mistake::StorePresentBoot) || m.is_of_present_boot(prop), WRONG_CERTIFICATE)?;
    let any_leader = rules.has(Mistake::StoreAnyLeader)
        || rules.has(Mistake::LeaderNowhere)
        || rules.has(Mistake::StoreViewZero) && view == 0;
    need(m.leads(rules, signer, view, Mistake::StoreOldLeader) || any_leader, WRONG_CERTIFICATE)?;
    need(view >= r.min_view || rules.has(Mistake::StoreBelowMinView), WRONG_VIEW)?;
    need(view > r.min_view || !rules.has(Mistake::StoreAboveMinView), WRONG_VIEW)?;
    need(below_limit(view, r, rules.has(Mistake::StoreLimitInclusive)), COUNTER_LIMIT)?;
    let commit = Certificate { kind: COMMIT, signer: replica, view, block, ..Certificate::default() };
    if !rules.has(Mistake::StoreChangesNothing) {
        r.stored_view = view;
        r.stored_block = block;
        r.min_view = view + 1;
        r.flag = 0;
    }
    m.issue(rules, commit, r)
}

pub fn view<R: Rules>(rules: R, m: &mut Memory, replica: u32, w: u32) -> Answer {
    need(well_formed(rules, m), WRONG_FORM)?;
    let in_range = 1 <= w && (w <= CEILING || rules.has(Mistake::ViewPastCeiling));
    need(m.is_replica(replica) && in_range, OUT_OF_RANGE)?;
    let mut r = m.replica(replica);
    let let_in = rules.has(Mistake::ViewRecovering) && r.status == RECOVERING;
    need(r.status == LIVE || let_in, WRONG_STATUS)?;
    need(w >= r.min_view || rules.has(Mistake::ViewBelowMinView), WRONG_VIEW)?;
    need(below_limit(w, r, rules.has(Mistake::ViewLimitInclusive)), COUNTER_LIMIT)?;
    let newview = Certificate {
        kind: NEWVIEW,
        signer: replica,
        view: w,
        block: r.stored_block,
        of_view: r.stored_view,
        ..Certificate::default()
    };
    if w > r.min_view && !rules.has(Mistake::ViewKeepsFlag) || rules.has(Mistake::ViewClearsFlag) {
        r.flag = 0;
    }
    r.min_view = w;
    m.issue(rules, newview, r)
}

pub fn decide<R: Rules>(rules: R, m: &mut Memory, replica: u32, list: &[u32]) -> Answer {
    need(well_formed(rules, m), WRONG_FORM)?;
    need(m.is_replica(replica) && m.is_list_length(rules, list), OUT_OF_RANGE)?;
    need(m.all_issued(list), UNKNOWN_NUMBER)?;
    let (view, quorum_block) = m.commit_quorum(rules, list).ok_or(WRONG_CERTIFICATE)?;
    let block = if rules.has(Mistake::DecideBlockZero) { 0 } else { quorum_block };
    let mut r = m.replica(replica);
    let equal = rules.has(Mistake::DecideShowsEqual) && view == r.decided_view;
    if view > r.decided_view || equal || rules.has(Mistake::DecideShowsLower) {
        r.decided_view = view;
        r.decided_block = block;
        m.set_replica(replica, r);
    }
    Ok((block, view))
}
