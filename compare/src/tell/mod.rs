//! A script told in words: what each line asks, what is answered and why, the ledger at the end. A second opinion over
//! the library, for people; no part of what is proved.

pub mod columns;
pub mod form;
pub mod given;
pub mod picture;
pub mod reason;
pub mod recount;
pub mod signers;
pub mod summary;
pub mod text;
pub mod unreadable;
pub mod way;
pub mod words;
