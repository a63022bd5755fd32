//! The comparison of two programs on scripts, of two checkers on memories, nettings and histories of waiting movements, and
//! of a checker with Rust's own formatting on numbers.

pub mod checkers;
pub mod coverage;
pub mod cut_marks;
#[cfg(feature = "firmware")]
pub mod firmware;
#[cfg(feature = "firmware")]
pub mod firmware_waiting;
pub mod height_marks;
pub mod marks;
pub mod memory_marks;
pub mod mistakes;
pub mod netting_marks;
pub mod nettings;
pub mod numbers;
pub mod programs;
pub mod renumber;
pub mod samples;
pub mod shrink;
pub mod shrink_netting;
pub mod shrink_waiting;
pub mod step_marks;
pub mod waiting_marks;
pub mod waitings;
pub mod way_marks;
pub mod ways;
