//! The archive beside a model coded separately from the document: random lists of runs, schedules,
//! searches, traces and generated lists, every answer and every lent buffer compared, and the
//! document's own cases.

mod best;
mod boards;
mod bound;
mod clears;
mod damage;
mod draw;
mod generated;
mod lend;
mod looks;
mod masks;
mod model;
#[path = "../../examples/bench/plain.rs"]
mod plain;
mod rivals;
mod runs;
mod schedules;
mod sessions;
mod tally;
mod traces;
