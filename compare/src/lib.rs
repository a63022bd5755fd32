//! An independent second implementation of the yard ledger's checker, of the netting of movements, of movements that wait
//! and of the way on, written from document 01 and document 02's #101 to #109 alone.
//!
//! Simple before clever: each call looks for its refusal in the order of document 01's table, changes nothing if it
//! finds one, and otherwise applies the change. Every call is total on any memory.

pub mod accumulator;
pub mod ancestry;
pub mod benchmark;
pub mod block;
pub mod call;
pub mod certificate;
pub mod checker;
pub mod comparison;
pub mod driver;
pub mod entries;
pub mod explore;
pub mod field;
pub mod form;
pub mod generate;
pub mod history;
pub mod host;
pub mod hunt;
pub mod layout;
pub mod leader;
pub mod log;
pub mod memory;
pub mod mistake;
pub mod netting;
pub mod opening;
pub mod options;
pub mod panel;
pub mod quorum;
pub mod random;
pub mod recovery;
pub mod refusal;
pub mod rules;
pub mod script;
pub mod script_file;
pub mod steps;
pub mod tell;
pub mod waiting;
pub mod way_choice;
pub mod way_on;
