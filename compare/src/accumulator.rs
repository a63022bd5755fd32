//! Accumulate: the latest stored block among f+1 NEWVIEWs of one view.

use crate::certificate::{Certificate, ACC, NEWVIEW};
use crate::form::well_formed;
use crate::memory::{Memory, LIVE, RECOVERING};
use crate::mistake::{Mistake, Rules};
use crate::quorum::OF_PROMISES;
use crate::refusal::*;

pub fn accumulate<R: Rules>(rules: R, m: &mut Memory, replica: u32, list: &[u32]) -> Answer {
    need(well_formed(rules, m), WRONG_FORM)?;
    need(m.is_replica(replica) && m.is_list_length(rules, list), OUT_OF_RANGE)?;
    need(m.all_issued(list), UNKNOWN_NUMBER)?;
    let r = m.replica(replica);
    let let_in = rules.has(Mistake::AccumulateRecovering) && r.status == RECOVERING;
    need(r.status == LIVE || let_in, WRONG_STATUS)?;
    let view = m.certificate(list[0]).view;
    let one_view = |c: Certificate| c.view == view || rules.has(Mistake::AccumulateMixedViews);
    need(m.all(list, |c| c.kind == NEWVIEW && one_view(c)), WRONG_CERTIFICATE)?;
    need(m.signers_fit(rules, list, &OF_PROMISES), WRONG_CERTIFICATE)?;
    let latest = if rules.has(Mistake::AccumulateTakesLast) {
        m.certificate(list[list.len() - 1])
    } else {
        m.greatest(list, rules.has(Mistake::AccumulateTieLast))
    };
    let acc = Certificate {
        kind: ACC,
        signer: replica,
        view,
        block: latest.block,
        of_view: latest.of_view,
        ..Certificate::default()
    };
    m.issue(rules, acc, r)
}
