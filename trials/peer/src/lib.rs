//! A second interpreter of the CRAY X-MP's integer half.
//!
//! It is written by hand from the rules alone, so that another program can be
//! compared with it. The machine is in `machine` (start, step, run, pair run),
//! its instructions in `ops`, the exchange package in `state`, and the case
//! sheet in `sheet`. `cal` has the assembler and its listing. `cases` makes case
//! sheets and texts for `cal` from seeds, `cover` counts what the sheets reach,
//! and `packs` answers many texts in one process. `switch` is for a copy with
//! deliberate errors.

#![forbid(unsafe_code)]

pub mod cal;
pub mod cases;
pub mod codes;
pub mod cover;
pub mod machine;
mod ops;
pub mod packs;
pub mod sheet;
pub mod state;
pub mod switch;

#[cfg(test)]
mod cal_tests;
#[cfg(test)]
mod tests;

pub use machine::{pair_run, run, start, step};
pub use machine::{Answer, Cause, Ended, Outside, PairEnded, Step, Stop};
pub use sheet::{answer, read, report, Sheet};
pub use state::State;
