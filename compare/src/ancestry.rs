//! A block's ancestry (document 01: line), up the parents of the records.

use crate::block::Block;

/// A block is in another's ancestry if it is that block or is in the ancestry of that block's parent.
pub fn is_ancestor(blocks: &[u32], ancestor: u32, block: u32) -> bool {
    ancestor == block || fallen(blocks, block).is_some_and(|parent| is_ancestor(blocks, ancestor, parent))
}

/// The block, its parent, and so on up to block 0.
pub fn ancestors(blocks: &[u32], block: u32) -> impl Iterator<Item = u32> + '_ {
    std::iter::successors(Some(block), |&block| fallen(blocks, block))
}

/// The parent, where it is below the block (as in every memory of sound form).
fn fallen(blocks: &[u32], block: u32) -> Option<u32> {
    Block::at(blocks, block).map(|record| record.parent).filter(|&parent| parent < block)
}
