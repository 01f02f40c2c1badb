//! Comparison of two implementations of the rehearsal bench: the one behind
//! the exported functions of a static library and an independent one.
//!
//! `compare` takes files through both queues of both, and machines through single
//! functions of both, and says whether they agree; `bench` takes the same files
//! through both and says how long each needs.

pub mod arrays;
pub mod campaign;
pub mod checks;
pub mod damage;
pub mod designs;
pub mod edges;
pub mod faults;
pub mod ffi;
pub mod generate;
pub mod hidden;
pub mod image;
pub mod lent;
pub mod likeness;
pub mod limits;
pub mod machines;
pub mod operations;
pub mod plain;
pub mod program;
pub mod queue;
pub mod random;
pub mod rehearsals;
pub mod report;
pub mod rooms;
pub mod schedule;
pub mod script;
pub mod sheet_edges;
pub mod sheets;
pub mod sides;
pub mod single;
pub mod spread;
pub mod steps;
pub mod swaps;
pub mod tally;
pub mod writer;
