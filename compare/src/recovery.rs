//! Reboot, reserve, request, reply and recover.

use crate::certificate::{Certificate, REPLY, REQ};
use crate::form::well_formed;
use crate::memory::*;
use crate::mistake::{Mistake, Rules};
use crate::quorum::OF_REPLIES;
use crate::refusal::*;

pub fn reboot<R: Rules>(rules: R, m: &mut Memory, replica: u32) -> Answer {
    need(well_formed(rules, m), WRONG_FORM)?;
    need(m.is_replica(replica), OUT_OF_RANGE)?;
    let mut r = m.replica(replica);
    let boot = r.boot.saturating_add(1);
    let stepped = if rules.has(Mistake::RebootOldStep) { r.boot } else { boot };
    let view_limit = r.view_limit.saturating_add(m.step(rules, stepped, Mistake::RebootConstantSteps));
    let strict = u32::from(rules.has(Mistake::RebootRetiresAtLimit));
    if r.status == RETIRED || boot > CEILING || view_limit > CEILING - strict {
        r.status = RETIRED;
    } else {
        r = restarted(rules, r, boot, view_limit);
    }
    m.set_replica(replica, r);
    Ok((r.boot, r.min_view))
}

/// Flag and stored words 0, min_view the old limit; the decided words stay.
fn restarted<R: Rules>(rules: R, old: Replica, boot: u32, view_limit: u32) -> Replica {
    let mut r = old;
    r.status = RECOVERING;
    r.boot = boot;
    r.view_limit = view_limit;
    r.flag = 0;
    if rules.has(Mistake::RestartFromOne) {
        r.min_view = 1;
    } else if !rules.has(Mistake::RestartKeepsMinView) {
        r.min_view = old.view_limit;
    }
    if !rules.has(Mistake::RebootKeepsStored) {
        r.stored_view = 0;
        r.stored_block = 0;
    }
    if rules.has(Mistake::RebootClearsDecided) {
        r.decided_view = 0;
        r.decided_block = 0;
    }
    r
}

pub fn reserve<R: Rules>(rules: R, m: &mut Memory, replica: u32) -> Answer {
    need(well_formed(rules, m), WRONG_FORM)?;
    need(m.is_replica(replica), OUT_OF_RANGE)?;
    let mut r = m.replica(replica);
    need(r.status != RETIRED || rules.has(Mistake::ReserveRetired), WRONG_STATUS)?;
    let stepped = r.boot.saturating_add(u32::from(rules.has(Mistake::ReserveNextStep)));
    let view_limit = r.view_limit.saturating_add(m.step(rules, stepped, Mistake::ReserveConstantSteps));
    need(view_limit <= CEILING - u32::from(rules.has(Mistake::ReserveStrict)), COUNTER_LIMIT)?;
    r.view_limit = view_limit;
    m.set_replica(replica, r);
    Ok((view_limit, 0))
}

pub fn request<R: Rules>(rules: R, m: &mut Memory, replica: u32) -> Answer {
    need(well_formed(rules, m), WRONG_FORM)?;
    need(m.is_replica(replica), OUT_OF_RANGE)?;
    let r = m.replica(replica);
    let let_in = rules.has(Mistake::RequestLive) && r.status == LIVE;
    need(r.status == RECOVERING || let_in, WRONG_STATUS)?;
    let req = Certificate {
        kind: REQ,
        signer: replica,
        view: r.min_view,
        subject: replica,
        subject_boot: if rules.has(Mistake::RequestNoSubjectBoot) { 0 } else { r.boot },
        ..Certificate::default()
    };
    m.issue(rules, req, r)
}

pub fn reply<R: Rules>(rules: R, m: &mut Memory, replica: u32, number: u32) -> Answer {
    need(well_formed(rules, m), WRONG_FORM)?;
    need(m.is_replica(replica), OUT_OF_RANGE)?;
    need(m.is_issued(number), UNKNOWN_NUMBER)?;
    let r = m.replica(replica);
    let let_in = rules.has(Mistake::ReplyRecovering) && r.status == RECOVERING;
    need(r.status == LIVE || let_in, WRONG_STATUS)?;
    let req = m.certificate(number);
    need(req.kind == REQ, WRONG_CERTIFICATE)?;
    need(req.signer != replica || rules.has(Mistake::ReplySelf), WRONG_CERTIFICATE)?;
    need(!rules.has(Mistake::ReplyPresentBoot) || m.is_of_present_boot(req), WRONG_CERTIFICATE)?;
    let equal = !rules.has(Mistake::ReplyLimitStrict) && req.view == r.view_limit;
    need(req.view < r.view_limit || equal || rules.has(Mistake::ReplyNoLimit), COUNTER_LIMIT)?;
    let reply = Certificate {
        kind: REPLY,
        signer: replica,
        view: req.view,
        block: r.stored_block,
        of_view: r.stored_view,
        subject: req.signer,
        subject_boot: match r.boot {
            boot if rules.has(Mistake::ReplyOwnSubjectBoot) => boot,
            _ if rules.has(Mistake::ReplyTakesSignerBoot) => req.signer_boot,
            _ => req.subject_boot,
        },
        ..Certificate::default()
    };
    m.issue(rules, reply, after_reply(rules, r, req.view))
}

/// If min_view is below the request's view it rises to it and the flag is 0; else both stay.
fn after_reply<R: Rules>(rules: R, old: Replica, view: u32) -> Replica {
    let mut r = old;
    let raised = r.min_view < view && !rules.has(Mistake::ReplyKeepsMinView);
    if raised || rules.has(Mistake::ReplyLowersMinView) {
        r.min_view = view;
        r.flag = 0;
    }
    if rules.has(Mistake::ReplyClearsFlag) {
        r.flag = 0;
    }
    r
}

/// A reply that recover may take: of this subject and its boot, of its min_view, not of its own signing.
fn takes<R: Rules>(rules: R, replica: u32, r: Replica, c: Certificate) -> bool {
    let any_boot = rules.has(Mistake::RecoverEarlierBoot) || rules.has(Mistake::RecoverIgnoresBoot);
    let any_view = rules.has(Mistake::RecoverEarlierBoot) || rules.has(Mistake::RecoverIgnoresView);
    let boot = if rules.has(Mistake::RecoverSignerBoot) { c.signer_boot } else { c.subject_boot };
    c.kind == REPLY
        && (c.subject == replica || rules.has(Mistake::RecoverOtherSubject))
        && (boot == r.boot || any_boot)
        && (c.view == r.min_view || any_view)
        && (c.signer != replica || rules.has(Mistake::RecoverTakesOwn))
}

pub fn recover<R: Rules>(rules: R, m: &mut Memory, replica: u32, list: &[u32]) -> Answer {
    need(well_formed(rules, m), WRONG_FORM)?;
    need(m.is_replica(replica) && m.is_list_length(rules, list), OUT_OF_RANGE)?;
    need(m.all_issued(list), UNKNOWN_NUMBER)?;
    let mut r = m.replica(replica);
    need(r.status == RECOVERING, WRONG_STATUS)?;
    need(m.all(list, |c| takes(rules, replica, r, c)), WRONG_CERTIFICATE)?;
    need(m.signers_fit(rules, list, &OF_REPLIES), WRONG_CERTIFICATE)?;
    let heeded = if rules.has(Mistake::RecoverFirstReply) { &list[..1] } else { list };
    let latest = m.greatest(heeded, rules.has(Mistake::RecoverTieLast));
    let raised = latest.of_view.saturating_add(1);
    let min_view = if rules.has(Mistake::RecoverNoRaise) { r.min_view } else { r.min_view.max(raised) };
    need(min_view <= r.view_limit || rules.has(Mistake::RecoverNoLimit), COUNTER_LIMIT)?;
    r.stored_view = latest.of_view;
    r.stored_block = latest.block;
    r.min_view = min_view;
    r.status = LIVE;
    m.set_replica(replica, r);
    Ok((min_view, latest.of_view))
}
