//! The three lent slices and a replica's words (document 01, "Memory"), the table with the counter's steps (document 02,
//! #104), a certificate's words (#107), where a block has its words (#105) and a movement (#101); the sizes of what waits (#108).

/// Views, boots and the counter never pass this.
pub const CEILING: u32 = 1_000_000;
pub const MAX_F: u32 = 30;
pub const MAX_REPLICAS: u32 = replica_count(MAX_F);
/// Most slots of the certificate log.
pub const MAX_CERTIFICATES: usize = 4096;
pub const MAX_LOG_WORDS: usize = CERTIFICATE_WORDS * MAX_CERTIFICATES;
/// Most slots of the blocks.
pub const MAX_BLOCKS: usize = 4096;
pub const MAX_BLOCK_WORDS: usize = BLOCK_WORDS * MAX_BLOCKS;
pub const HEADER_WORDS: usize = 3;
pub const STEP_WORDS: usize = 8;
pub const REPLICA_WORDS: usize = 9;
pub const CERTIFICATE_WORDS: usize = 8;
pub const BLOCK_WORDS: usize = 2;
pub const MOVEMENT_WORDS: usize = 4;
/// Most movements that may be lent.
pub const MAX_MOVEMENTS: usize = 2048;
/// Most pallets of one movement.
pub const MAX_PALLETS: u32 = 10_000;
/// Most entries that may wait.
pub const MAX_WAITING: usize = 512;
/// Words of the further slice for waiting movements. What they hold is the business of whoever keeps them.
pub const WAITING_WORDS: usize = 4219;

/// The table: its header, "The steps are kept after the header", then each replica's words.
pub const STEPS_START: usize = HEADER_WORDS;
pub const REPLICAS_START: usize = STEPS_START + STEP_WORDS;

/// Where the table has its header's words.
pub mod header {
    pub const F: usize = 0;
    pub const ISSUED: usize = 1;
    pub const ADDED: usize = 2;
}

/// Where a replica has each of its words.
pub mod replica_word {
    pub const STATUS: usize = 0;
    pub const BOOT: usize = 1;
    pub const MIN_VIEW: usize = 2;
    pub const VIEW_LIMIT: usize = 3;
    pub const FLAG: usize = 4;
    pub const STORED_VIEW: usize = 5;
    pub const STORED_BLOCK: usize = 6;
    pub const DECIDED_VIEW: usize = 7;
    pub const DECIDED_BLOCK: usize = 8;
}

/// Where a block has each of its words.
pub mod block_word {
    pub const PARENT: usize = 0;
    pub const HEIGHT: usize = 1;
}

/// Where a movement has each of its words.
pub mod movement_word {
    pub const BLOCK: usize = 0;
    pub const GIVER: usize = 1;
    pub const TAKER: usize = 2;
    pub const PALLETS: usize = 3;
}

pub const LIVE: u32 = 0;
/// Document 01: waiting.
pub const RECOVERING: u32 = 1;
/// Document 01: spent.
pub const RETIRED: u32 = 2;

/// n = 2f + 1 replicas.
pub const fn replica_count(f: u32) -> u32 {
    2 * f + 1
}

/// Words of a table for any `f`: the header's, the steps and n = 2f + 1 replicas'.
pub fn table_length(f: u32) -> u64 {
    REPLICAS_START as u64 + REPLICA_WORDS as u64 * (2 * u64::from(f) + 1)
}

/// Where the table has a replica's words.
pub fn replica_start(replica: u32) -> usize {
    REPLICAS_START + REPLICA_WORDS * replica as usize
}

/// Table, certificate log (document 01: book) and blocks.
pub struct Memory<'a> {
    pub table: &'a mut [u32],
    pub log: &'a mut [u32],
    pub blocks: &'a mut [u32],
}

/// A replica's (document 01: box's) words.
#[derive(Clone, Copy, PartialEq, Eq, Debug)]
pub struct Replica {
    pub status: u32,
    pub boot: u32,
    /// Document 01: low.
    pub min_view: u32,
    /// Document 01: bound.
    pub view_limit: u32,
    pub flag: u32,
    pub stored_view: u32,
    pub stored_block: u32,
    /// Document 01: shown view.
    pub decided_view: u32,
    pub decided_block: u32,
}

impl Replica {
    /// As an opening leaves it.
    pub fn fresh(view_limit: u32) -> Replica {
        Replica {
            status: LIVE,
            boot: 0,
            min_view: 1,
            view_limit,
            flag: 0,
            stored_view: 0,
            stored_block: 0,
            decided_view: 0,
            decided_block: 0,
        }
    }

    pub fn from_words(w: &[u32]) -> Replica {
        Replica {
            status: w[replica_word::STATUS],
            boot: w[replica_word::BOOT],
            min_view: w[replica_word::MIN_VIEW],
            view_limit: w[replica_word::VIEW_LIMIT],
            flag: w[replica_word::FLAG],
            stored_view: w[replica_word::STORED_VIEW],
            stored_block: w[replica_word::STORED_BLOCK],
            decided_view: w[replica_word::DECIDED_VIEW],
            decided_block: w[replica_word::DECIDED_BLOCK],
        }
    }

    pub fn words(&self) -> [u32; REPLICA_WORDS] {
        let mut w = [0; REPLICA_WORDS];
        w[replica_word::STATUS] = self.status;
        w[replica_word::BOOT] = self.boot;
        w[replica_word::MIN_VIEW] = self.min_view;
        w[replica_word::VIEW_LIMIT] = self.view_limit;
        w[replica_word::FLAG] = self.flag;
        w[replica_word::STORED_VIEW] = self.stored_view;
        w[replica_word::STORED_BLOCK] = self.stored_block;
        w[replica_word::DECIDED_VIEW] = self.decided_view;
        w[replica_word::DECIDED_BLOCK] = self.decided_block;
        w
    }
}

impl Memory<'_> {
    pub fn f(&self) -> u32 {
        self.table[header::F]
    }

    pub fn replicas(&self) -> u32 {
        replica_count(self.f())
    }

    pub fn issued(&self) -> u32 {
        self.table[header::ISSUED]
    }

    pub fn added(&self) -> u32 {
        self.table[header::ADDED]
    }

    pub fn is_replica(&self, replica: u32) -> bool {
        replica < self.replicas()
    }

    pub fn is_issued(&self, number: u32) -> bool {
        number < self.issued()
    }

    pub fn is_added(&self, block: u32) -> bool {
        block < self.added()
    }

    pub fn replica(&self, replica: u32) -> Replica {
        let start = replica_start(replica);
        Replica::from_words(&self.table[start..start + REPLICA_WORDS])
    }

    pub fn set_replica(&mut self, replica: u32, to: Replica) {
        let start = replica_start(replica);
        self.table[start..start + REPLICA_WORDS].copy_from_slice(&to.words());
    }
}
