//! Seeded generators: scripts, memories with one call each, nettings, histories of waiting movements, and the steps that
//! they open with.

pub mod beforehand;
pub mod blocks;
pub mod boundary;
pub mod chunks;
pub mod cuts;
pub mod damage;
pub mod further;
pub mod matching;
pub mod memory;
pub mod movements;
pub mod netting;
pub mod perturb;
pub mod progress;
pub mod ready;
pub mod scripts;
pub mod steps;
pub mod waiting;
pub mod ways;
