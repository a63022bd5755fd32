//! The front panel: the height of a replica's decided block, as its record keeps it.

use crate::form::well_formed;
use crate::memory::Memory;
use crate::mistake::{Mistake, Rules};
use crate::refusal::{need, OUT_OF_RANGE, WRONG_FORM};

/// The height, or the refusal of a wrong form or of a replica out of range.
pub fn panel<R: Rules>(rules: R, m: &Memory, replica: u32) -> Result<u32, u32> {
    need(well_formed(rules, m), WRONG_FORM)?;
    need(m.is_replica(replica), OUT_OF_RANGE)?;
    let block = m.replica(replica).decided_block;
    if rules.has(Mistake::PanelBlockNumber) {
        return Ok(block);
    }
    let shown = if rules.has(Mistake::PanelParentsHeight) { m.parent(block) } else { block };
    Ok(m.height(shown))
}
