//! The hunt for conflicts: an adversary that drives hosts to break demand 3.

pub mod attack;
pub mod cuts;
pub mod lists;
pub mod monitor;
pub mod proposals;
pub mod search;
