//! The benchmark's scripts, timing, tables and plot, the form test beside a bare sum and a panel, the search, nettings, and
//! waiting movements.

pub mod fit;
pub mod form_test;
pub mod inputs;
pub mod machine;
pub mod netting;
pub mod plot;
pub mod search;
pub mod tables;
pub mod timing;
pub mod waiting;
pub mod waiting_words;

use crate::comparison::checkers::Checker;

/// What is timed in the benchmark's own process.
type Named<'a> = (&'static str, &'a dyn Checker);
