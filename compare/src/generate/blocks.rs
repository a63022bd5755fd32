//! Blocks for memories: sound records, records that break the form, mostly by one rule alone, and wrong lengths.

use super::memory::Sample;
use crate::block::{block_slots, Block};
use crate::memory::*;
use crate::random::Random;

/// Mostly a few blocks; now and then a longer chain, or as many as there may be.
pub fn any_added(random: &mut Random) -> u32 {
    match random.below(2048) {
        0 => MAX_BLOCKS as u32 - random.below(2),
        1..=63 => random.within(7, 64),
        _ => random.within(1, 6),
    }
}

/// Sound records of so many blocks, each on the one before, but once in `fork` on any lower one. Words past them stay.
pub fn put_blocks(random: &mut Random, blocks: &mut [u32], added: u32, fork: u32) {
    Block::FIRST.put(blocks, 0);
    for number in 1..added {
        let parent = if random.once_in(fork) { random.below(number) } else { number - 1 };
        Block::on(blocks, parent).put(blocks, number);
    }
}

impl Sample {
    /// The added blocks, as many as have a slot.
    fn added(&self) -> u32 {
        self.table[header::ADDED].min(block_slots(&self.blocks) as u32)
    }

    fn block(&self, number: u32) -> Block {
        Block::at(&self.blocks, number).unwrap_or_default()
    }

    fn set_block(&mut self, number: u32, to: Block) {
        to.put(&mut self.blocks, number);
    }

    fn set_height(&mut self, number: u32, height: u32) {
        self.set_block(number, Block { height, ..self.block(number) });
    }

    /// Gives a block a lower parent, and it and the later ones the heights of their parents: sound records stay sound.
    pub fn set_parent(&mut self, number: u32, parent: u32) {
        self.set_block(number, Block { parent, ..self.block(number) });
        for later in number..self.added() {
            let record = Block::on(&self.blocks, self.block(later).parent);
            self.set_block(later, record);
        }
    }
}

/// Breaks a rule of sound records; where the picked change does not fit these blocks, none.
pub fn damage_blocks(random: &mut Random, sample: &mut Sample) {
    let added = sample.added();
    if added == 0 {
        return;
    }
    let any = random.below(added);
    let number = random.pick(&[any, added - 1]);
    match random.below(12) {
        0 => sample.set_block(0, Block { parent: random.pick(&[1, 2, u32::MAX]), ..Block::FIRST }),
        1 => shift_heights(sample, 0, random.pick(&[1, u32::MAX])),
        2 => shift_heights(sample, any, random.pick(&[1, 2, u32::MAX])),
        3..=5 => damage_height(random, sample, number),
        6 => wrap_height(random, sample),
        7..=8 => raise_parent(random, sample),
        9 => own_parent(random, sample, number),
        10 if number > 0 => {
            // Of the same height or another: the block's own height stays.
            let parent = random.below(number);
            sample.set_block(number, Block { parent, ..sample.block(number) });
        }
        _ => (0..added).for_each(|block| sample.set_height(block, 0)),
    }
}

/// Of the block and its descendants: each stays one above its parent, but for the block itself.
fn shift_heights(sample: &mut Sample, block: u32, by: u32) {
    let mut shifted = vec![false; sample.added() as usize];
    for number in block..sample.added() {
        let Block { parent, height } = sample.block(number);
        shifted[number as usize] = number == block || shifted[parent as usize];
        if shifted[number as usize] {
            sample.set_height(number, height.wrapping_add(by));
        }
    }
}

/// One too small or too large, or right by another rule: the block's number, one above the block before.
fn damage_height(random: &mut Random, sample: &mut Sample, number: u32) {
    let height = sample.block(number).height;
    let before = Block::on(&sample.blocks, number.saturating_sub(1)).height;
    let (less, more) = (height.wrapping_sub(1), height.wrapping_add(1));
    let to = random.pick(&[less, less, more, more, height.wrapping_add(2), number, before, 0, u32::MAX]);
    sample.set_height(number, to);
}

/// The greatest number in a block's height and 0 in its child's.
fn wrap_height(random: &mut Random, sample: &mut Sample) {
    if sample.added() > 1 {
        let child = random.within(1, sample.added() - 1);
        sample.set_height(sample.block(child).parent, u32::MAX);
        sample.set_height(child, 0);
    }
}

/// A block without children gets a parent above it, the last one a parent past the count, and the height for it.
fn raise_parent(random: &mut Random, sample: &mut Sample) {
    let added = sample.added();
    let has_child = |number: u32| (number + 1..added).any(|later| sample.block(later).parent == number);
    let start = random.below(added);
    let Some(number) = (start..added).find(|&number| number > 0 && !has_child(number)) else { return };
    let parent = random.within(number + 1, (added - 1).max(number + 1));
    sample.set_block(number, Block::on(&sample.blocks, parent));
}

/// At height 0, as block 0 is, or at a height of its own.
fn own_parent(random: &mut Random, sample: &mut Sample, number: u32) {
    let height = sample.block(number).height;
    let height = random.pick(&[0, 0, height, height.wrapping_add(1)]);
    sample.set_block(number, Block { parent: number, height });
}

/// Less than a record, part of a record too much or too little, and about as many words as there may be.
pub fn damage_block_lengths(random: &mut Random, sample: &mut Sample) {
    let most = MAX_BLOCK_WORDS as u32;
    let part = random.within(1, BLOCK_WORDS as u32 - 1);
    let length = sample.blocks.len() as u32;
    let length = match random.below(10) {
        0 => 0,
        1 => part,
        2 => length.saturating_sub(part),
        3..=4 => length + part,
        _ => random.within(most - BLOCK_WORDS as u32, most + BLOCK_WORDS as u32),
    };
    sample.blocks.resize(length as usize, 0);
}
