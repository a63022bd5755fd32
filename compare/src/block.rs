//! A block's record and its place among the blocks (document 01, "Memory"; document 02, #105: the height too).

use crate::memory::{block_word, Memory, BLOCK_WORDS, MAX_BLOCKS};
use crate::mistake::{Mistake, Rules};

/// "Each block record becomes two words, parent and height".
#[derive(Clone, Copy, PartialEq, Eq, Debug, Default)]
pub struct Block {
    pub parent: u32,
    pub height: u32,
}

impl Block {
    /// Block 0, as an opening writes it.
    pub const FIRST: Block = Block { parent: 0, height: 0 };

    pub fn from_words(w: &[u32]) -> Block {
        Block { parent: w[block_word::PARENT], height: w[block_word::HEIGHT] }
    }

    pub fn words(&self) -> [u32; BLOCK_WORDS] {
        let mut w = [0; BLOCK_WORDS];
        w[block_word::PARENT] = self.parent;
        w[block_word::HEIGHT] = self.height;
        w
    }

    /// The record of that number; none past the slice.
    pub fn at(blocks: &[u32], number: u32) -> Option<Block> {
        blocks.chunks_exact(BLOCK_WORDS).nth(number as usize).map(Block::from_words)
    }

    /// Writes the record of that number; nothing past the slice.
    pub fn put(&self, blocks: &mut [u32], number: u32) {
        if let Some(words) = blocks.chunks_exact_mut(BLOCK_WORDS).nth(number as usize) {
            words.copy_from_slice(&self.words());
        }
    }

    /// "Block 0 has height 0 and any other one more than its parent": a new block's record.
    pub fn on(blocks: &[u32], parent: u32) -> Block {
        let below = Block::at(blocks, parent).unwrap_or_default();
        Block { parent, height: below.height.saturating_add(1) }
    }
}

/// How many blocks there is a place for.
pub fn block_slots(blocks: &[u32]) -> usize {
    blocks.len() / BLOCK_WORDS
}

/// One place's own mistakes in testing the blocks' length.
pub struct Tester {
    takes_broken: Mistake,
    takes_long: Mistake,
    counts_words: Mistake,
}

pub const OPENING: Tester = Tester {
    takes_broken: Mistake::OpenBlocksOdd,
    takes_long: Mistake::OpenBlocksLong,
    counts_words: Mistake::OpenBlocksByWords,
};

pub const FORM: Tester = Tester {
    takes_broken: Mistake::FormBlocksOdd,
    takes_long: Mistake::FormBlocksLong,
    counts_words: Mistake::FormBlocksByWords,
};

/// Whole records, at least one and not too many.
pub fn length_fits<R: Rules>(rules: R, blocks: &[u32], tester: &Tester) -> bool {
    let slots = block_slots(blocks);
    let most = if rules.has(tester.counts_words) { MAX_BLOCKS / BLOCK_WORDS } else { MAX_BLOCKS };
    (blocks.len().is_multiple_of(BLOCK_WORDS) || rules.has(tester.takes_broken))
        && slots >= 1
        && (slots <= most || rules.has(tester.takes_long))
}

// Past the slice both words are 0, so that reading is total.
impl Memory<'_> {
    pub fn parent(&self, block: u32) -> u32 {
        Block::at(self.blocks, block).unwrap_or_default().parent
    }

    pub fn height(&self, block: u32) -> u32 {
        Block::at(self.blocks, block).unwrap_or_default().height
    }
}
