//! What the blocks' records can show that the generators are meant to reach, in scripts and on memories: each way to break
//! their form by itself, their lengths, new blocks beside others, and heights on the panel.

use super::{marks, memory_marks};
use crate::block::{block_slots, Block};
use crate::call::*;
use crate::memory::*;
use crate::mistake::Correct;
use crate::panel::panel;
use crate::refusal::*;
use crate::script::BLOCK_SLOTS;

/// A height of a long chain.
pub const FAR: u32 = 16;

type Mark<T> = (&'static str, fn(&T) -> bool);

/// In words, the code of the accepted call, and a test of the block that it gives.
type ScriptMark = (&'static str, u32, fn(&marks::Named) -> bool);

const SCRIPT_MARKS: &[ScriptMark] = &[
    ("a new block one above the block before", BLOCK, |block| block.height == block.height_before + 1),
    ("a new block as high as the block before", BLOCK, |block| block.height == block.height_before),
    ("a new block lower than the block before", BLOCK, |block| block.height < block.height_before),
    ("a decision at a height that is not the block's number", DECIDE, |block| block.height != block.number),
    ("a decision far up the chain", DECIDE, |block| block.height > FAR),
];

pub fn script_names() -> Vec<String> {
    SCRIPT_MARKS.iter().map(|(mark, _, _)| mark.to_string()).collect()
}

/// In the order of the names.
pub fn script_hits(seen: &marks::Seen) -> Vec<bool> {
    let hit = |(_, code, holds): &ScriptMark| seen.code == *code && seen.named.as_ref().is_some_and(holds);
    SCRIPT_MARKS.iter().map(hit).collect()
}

/// An added block whose record breaks its rule.
struct Wrong {
    number: u32,
    added: u32,
    block: Block,
    /// Its parent's height, where that has a slot.
    below: Option<u32>,
    /// The height of the block before.
    before: u32,
}

impl Wrong {
    /// Its parent is below it.
    fn falls(&self) -> bool {
        self.number > 0 && self.block.parent < self.number
    }

    /// So many above its parent.
    fn is_above_by(&self, steps: u32) -> bool {
        self.number > 0 && self.below.is_some_and(|below| below.checked_add(steps) == Some(self.block.height))
    }
}

/// Wrong form by one block's record alone.
const WRONG: &[Mark<Wrong>] = &[
    ("a height that is the parent's", |wrong| wrong.falls() && wrong.is_above_by(0)),
    ("a height that is two above the parent's", |wrong| wrong.falls() && wrong.is_above_by(2)),
    ("a height of 0", |wrong| wrong.falls() && wrong.block.height == 0),
    ("a height of 4,294,967,295", |wrong| wrong.falls() && wrong.block.height == u32::MAX),
    ("a height that is the block's number", |wrong| wrong.falls() && wrong.block.height == wrong.number),
    ("a height one above the block before", |wrong| {
        wrong.falls() && wrong.block.height == wrong.before.wrapping_add(1)
    }),
    ("the last block's height", |wrong| wrong.falls() && wrong.number + 1 == wrong.added),
    ("an earlier block's height", |wrong| wrong.falls() && wrong.number + 1 < wrong.added),
    ("a height far up the chain", |wrong| wrong.falls() && wrong.below > Some(FAR)),
    ("block 0's height, where there is no other", |wrong| wrong.added == 1 && wrong.block.height > 0),
    ("heights counted from 1", |wrong| wrong.number == 0 && wrong.added > 1 && wrong.block.height == 1),
    ("block 0's parent", |wrong| wrong.number == 0 && wrong.block.parent > 0),
    ("a higher parent, with the height for it", |wrong| {
        wrong.block.parent > wrong.number && wrong.block.parent < wrong.added && wrong.is_above_by(1)
    }),
    ("a parent past the count, with the height for it", |wrong| {
        wrong.block.parent >= wrong.added && wrong.is_above_by(1)
    }),
    ("a second root", |wrong| wrong.number > 0 && wrong.block == Block { parent: wrong.number, height: 0 }),
    ("a block on itself at a height above 0", |wrong| wrong.block.parent == wrong.number && wrong.block.height > 0),
];

/// Wrong form by several blocks' records.
const WRONG_TOGETHER: &[Mark<[Block]>] = &[
    ("a height of 4,294,967,295 and 0 in a child", |blocks| {
        blocks.iter().skip(1).any(|block| block.height == 0 && height_of(blocks, block.parent) == Some(u32::MAX))
    }),
    ("heights counted from 4,294,967,295", |blocks| {
        let counted =
            |block: &Block| height_of(blocks, block.parent).is_some_and(|h| h.wrapping_add(1) == block.height);
        blocks.len() > 1 && blocks[0].height == u32::MAX && blocks[1..].iter().all(counted)
    }),
    ("no heights", |blocks| blocks.len() > 1 && blocks.iter().all(|block| block.height == 0)),
];

fn height_of(blocks: &[Block], number: u32) -> Option<u32> {
    blocks.get(number as usize).map(|block| block.height)
}

/// Lengths of the blocks that are wrong form, at opening too.
const WRONG_LENGTHS: &[Mark<usize>] = &[
    ("no block words", |words| *words == 0),
    ("one block word", |words| *words == 1),
    ("a record and a word", |words| *words == BLOCK_WORDS + 1),
    ("an odd number of block words", |words| !words.is_multiple_of(BLOCK_WORDS) && *words < MAX_BLOCK_WORDS),
    ("8,191 block words", |words| *words == MAX_BLOCK_WORDS - 1),
    ("8,193 block words", |words| *words == MAX_BLOCK_WORDS + 1),
    ("8,194 block words", |words| *words == MAX_BLOCK_WORDS + BLOCK_WORDS),
];

const LENGTHS: &[Mark<usize>] =
    &[("one record", |words| *words == BLOCK_WORDS), ("8,192 block words", |words| *words == MAX_BLOCK_WORDS)];

const MEMORY_MARKS: &[Mark<memory_marks::Seen>] = &[
    ("other heights past the count", |seen| seen.is_sound() && seen.has_other_heights_past()),
    ("two blocks of one height", |seen| seen.is_sound() && seen.has_equal_heights()),
    ("a new block on the last one", |seen| seen.adds(|blocks, new| new.parent as usize + 1 == blocks.len())),
    ("a new block on one lower than the last", |seen| {
        seen.adds(|blocks, new| new.height <= blocks[blocks.len() - 1].height)
    }),
    ("a new block on one as high as the last, not on it", |seen| {
        seen.adds(|blocks, new| {
            (new.parent as usize) < blocks.len() - 1 && new.height == blocks[blocks.len() - 1].height + 1
        })
    }),
    ("a new block of a height that is not its number", |seen| {
        seen.adds(|blocks, new| new.height as usize != blocks.len())
    }),
    ("a new block in the last slot", |seen| {
        seen.adds(|_, _| true) && block_slots(&seen.after.blocks) == seen.after.table[header::ADDED] as usize
    }),
    ("full blocks", |seen| seen.code() == BLOCK && seen.outcome.answer == NO_ROOM),
    ("opening over another height of block 0", |seen| seen.opens_over(|first| first.parent == 0 && first.height > 0)),
    ("opening over another parent of block 0", |seen| seen.opens_over(|first| first.parent > 0)),
    ("opening beside other block words", |seen| {
        seen.opens_over(|_| true) && seen.before.blocks[BLOCK_WORDS..].iter().any(|&word| word > 0)
    }),
    ("prepare: 6 where the height alone fits", |seen| seen.proposes_by_height()),
];

/// Of the decided block that a panel goes by, and the height that it shows.
const PANELS: &[Mark<(u32, u32)>] = &[
    ("block 0", |(block, _)| *block == 0),
    ("a height that is not the block's number", |(block, height)| block != height),
    ("a height far up the chain", |(_, height)| *height > FAR),
    ("a height that yard has no slots for", |(_, height)| *height as usize >= BLOCK_SLOTS),
];

impl memory_marks::Seen {
    /// The answer is one that only sound form gets.
    pub fn is_sound(&self) -> bool {
        self.code() != OPEN && ![WRONG_FORM, UNREADABLE].contains(&self.outcome.answer)
    }

    /// The added blocks before the call; none where they have no slots.
    fn added(&self) -> Option<Vec<Block>> {
        let added = *self.before.table.get(header::ADDED)? as usize;
        let slots = self.before.blocks.chunks_exact(BLOCK_WORDS).map(Block::from_words);
        (added <= block_slots(&self.before.blocks)).then(|| slots.take(added).collect())
    }

    /// The same call, with all blocks on block 0, is not refused for its form.
    fn wrong_by_blocks(&self) -> bool {
        let sound = || {
            let mut mended = self.before.clone();
            Block::FIRST.put(&mut mended.blocks, 0);
            for number in 1..mended.table[header::ADDED] {
                Block::on(&mended.blocks, 0).put(&mut mended.blocks, number);
            }
            mended.run(Correct).answer != WRONG_FORM
        };
        self.code() != OPEN && self.outcome.answer == WRONG_FORM && sound()
    }

    fn wrong_blocks(&self) -> Option<Vec<Block>> {
        self.added().filter(|_| self.wrong_by_blocks())
    }

    /// The one added block that breaks its rule, where the others keep theirs.
    fn wrong_block(&self, blocks: &[Block]) -> Option<Wrong> {
        let wrong = |number: u32| {
            let block = blocks[number as usize];
            let below = Block::at(&self.before.blocks, block.parent).map(|below| below.height);
            let before = blocks[number.saturating_sub(1) as usize].height;
            Wrong { number, added: blocks.len() as u32, block, below, before }
        };
        let fits = |wrong: &Wrong| match wrong.number {
            0 => wrong.block == Block::FIRST,
            _ => wrong.falls() && wrong.is_above_by(1),
        };
        let mut all = (0..blocks.len() as u32).map(wrong).filter(|wrong| !fits(wrong));
        all.next().filter(|_| all.next().is_none())
    }

    fn has_other_heights_past(&self) -> bool {
        let blocks = &self.before.blocks;
        let mut past = self.before.table[header::ADDED]..block_slots(blocks) as u32;
        past.any(|number| {
            Block::at(blocks, number).is_some_and(|block| Block::on(blocks, block.parent).height != block.height)
        })
    }

    fn has_equal_heights(&self) -> bool {
        let mut heights: Vec<u32> = self.added().unwrap_or_default().iter().map(|block| block.height).collect();
        heights.sort();
        heights.windows(2).any(|pair| pair[0] == pair[1])
    }

    /// The blocks before an accepted block, and the new one.
    fn adds(&self, test: fn(&[Block], Block) -> bool) -> bool {
        let adds = self.code() == BLOCK && self.outcome.answer == ACCEPTED;
        adds && Block::at(&self.after.blocks, self.outcome.first)
            .is_some_and(|new| self.added().is_some_and(|blocks| test(&blocks, new)))
    }

    fn opens_over(&self, test: fn(Block) -> bool) -> bool {
        let opens = self.code() == OPEN && self.outcome.answer == ACCEPTED;
        opens && Block::at(&self.before.blocks, 0).is_some_and(test)
    }

    /// Refused for its parent, though it is one above the block that the certificate names.
    fn proposes_by_height(&self) -> bool {
        let refused = [PREPARE_ACC, PREPARE_COMMITS].contains(&self.code()) && self.outcome.answer == WRONG_BLOCK;
        let one_above = || {
            let mut before = self.before.clone();
            let (block, named) = (before.line.number, before.line.list[0]);
            let memory = before.memory();
            memory.height(block) == memory.height(memory.certificate(named).block) + 1
        };
        refused && one_above()
    }

    /// The decided block of the call's replica and the height on its panel, where that shows one.
    fn panel(&self) -> Option<(u32, u32)> {
        let mut before = self.before.clone();
        let replica = before.line.replica;
        let memory = before.memory();
        let height = panel(Correct, &memory, replica).ok()?;
        Some((memory.replica(replica).decided_block, height))
    }

    fn refuses_length(&self, opening: bool, test: fn(&usize) -> bool) -> bool {
        (self.code() == OPEN) == opening && self.outcome.answer == WRONG_FORM && test(&self.before.blocks.len())
    }

    fn takes_length(&self, opening: bool, test: fn(&usize) -> bool) -> bool {
        let taken = if opening { self.code() == OPEN && self.outcome.is_accepted() } else { self.is_sound() };
        taken && test(&self.before.blocks.len())
    }
}

/// Lengths are looked for at opening and in the other calls.
const CALLS: &[(bool, &str)] = &[(true, "opening: "), (false, "")];

pub fn memory_names() -> Vec<String> {
    let wrong = WRONG.iter().map(|(kind, _)| *kind).chain(WRONG_TOGETHER.iter().map(|(kind, _)| *kind));
    let wrong = wrong.map(|kind| format!("1 for {kind}"));
    let refused =
        CALLS.iter().flat_map(|(_, call)| WRONG_LENGTHS.iter().map(move |(kind, _)| format!("{call}1 for {kind}")));
    let taken = CALLS.iter().flat_map(|(_, call)| LENGTHS.iter().map(move |(kind, _)| format!("{call}{kind}")));
    let marks = MEMORY_MARKS.iter().map(|(mark, _)| mark.to_string());
    let panels = PANELS.iter().map(|(mark, _)| format!("panel: {mark}"));
    wrong.chain(refused).chain(taken).chain(marks).chain(panels).collect()
}

/// In the order of the names.
pub fn memory_hits(seen: &memory_marks::Seen) -> Vec<bool> {
    let blocks = seen.wrong_blocks();
    let alone = blocks.as_ref().and_then(|blocks| seen.wrong_block(blocks));
    let wrong = WRONG.iter().map(|(_, holds)| alone.as_ref().is_some_and(holds));
    let together = WRONG_TOGETHER.iter().map(|(_, holds)| blocks.as_ref().is_some_and(|blocks| holds(blocks)));
    let refused = CALLS
        .iter()
        .flat_map(|(opening, _)| WRONG_LENGTHS.iter().map(move |(_, holds)| seen.refuses_length(*opening, *holds)));
    let taken =
        CALLS.iter().flat_map(|(opening, _)| LENGTHS.iter().map(move |(_, holds)| seen.takes_length(*opening, *holds)));
    let marks = MEMORY_MARKS.iter().map(|(_, holds)| holds(seen));
    let shown = seen.panel();
    let panels = PANELS.iter().map(|(_, holds)| shown.as_ref().is_some_and(holds));
    wrong.chain(together).chain(refused).chain(taken).chain(marks).chain(panels).collect()
}
