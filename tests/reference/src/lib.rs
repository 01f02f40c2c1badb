//! A rehearsal bench: a machine whose stores reach memory late, and the two
//! fence-free work-stealing queues that run on it.
//!
//! A schedule file says, entry by entry, which party moves next. [`run`] obeys
//! it, leaves a trace and tells how far memory's tail fell behind, [`lines`]
//! says the same in text, [`alike`] compares what two schedules answer, and
//! [`plain_queue::judge`] holds the answers against a queue that has no late
//! stores at all. Where tasks are the blocks of a design, [`share_sheet`]
//! writes down which party was given which.
//!
//! All of these have the queue with a lock. The queue with compare-and-swap
//! obeys the same files: [`run_cas`], [`lines_cas`], [`plain_queue::judge_cas`].
//!
//! Smaller questions have answers of their own: [`step_of_image`] makes one
//! step on any machine, also one out of range, [`entry_at`] says what stands at
//! a place of two arrays, [`check_entries`] looks for a fault at all of their
//! places, and [`parts`] cuts a file into its arrays.

#![forbid(unsafe_code)]

// The unit tests borrow the dice of the tests outside, which know the crate by
// its name.
#[cfg(test)]
extern crate self as reference;
#[cfg(test)]
#[path = "../tests/common/mod.rs"]
mod common;

mod alike;
mod bench;
mod calls;
mod entry;
mod format;
mod image;
mod lines;
mod machine;
mod outcome;
pub mod plain_queue;
mod refusal;
#[cfg(test)]
mod rehearsals;
mod share_sheet;
mod sizes;
mod trace;

pub use alike::alike;
pub use format::{check_entries, entry_at, parts, read, write, Schedule};
pub use image::{fresh_image, step_of_image, IMAGE_BYTES};
pub use lines::{lines, lines_cas};
pub use outcome::{Summary, Totals};
pub use refusal::Refusal;
pub use share_sheet::share_sheet;
pub use sizes::{needed_margin, Sizes};
pub use trace::{run, run_cas};
