//! Cuzkelor for Rust: direct-mapped snoopy caches with their bus cycles, the price of rival
//! schedules, the best schedule for a short list of requests, and lists of requests drawn from a
//! seed. Safe functions over the proved archive `libhost.a`.
//!
//! ```
//! use cuzkelor::{price, Block, Board, Entry, Request, RivalTables, Variable, TRACE_SETUP};
//!
//! fn main() -> Result<(), Box<dyn std::error::Error>> {
//!     let mut board = Board::new(TRACE_SETUP)?;
//!     let requests = [Request::write(0, Variable(3), 7), Request::read(1, Variable(3))];
//!     let values = board.run(&requests)?;
//!     println!("{values:?} for {} cycles", board.account().total());
//!
//!     let fetch = |processor| Entry::fetch(processor, Block(0));
//!     let schedule = [fetch(0), Entry::COMPLETE, fetch(1), Entry::COMPLETE];
//!     let cost = price(TRACE_SETUP, &mut RivalTables::sized(TRACE_SETUP), &schedule, &requests)?;
//!     println!("a rival's schedule costs {cost}");
//! #   assert_eq!((values, board.account().total(), cost), (vec![7, 7], 8, 8));
//!     Ok(())
//! }
//! ```
//!
//! A [`Board`] holds what runs change. The functions [`start`], [`run`], [`look`], [`price`] and
//! [`count_trace`] take tables that the host keeps itself, and check them. [`best`] and [`best_in`]
//! search for the cheapest schedule. [`generate`] and [`generate_into`] draw requests from a seed.
//! [`raw`] has the archive's own functions.
//!
//! Threads: the archive has no state, so calls on different boards and tables may go on at once.
//!
//! # Building
//!
//! `tools/build.sh host` writes the archive, for x86-64 Linux, to the project's `target/staticlib`.
//! `CUZKELOR_LIB` names another folder of it.
//!
//! # Panics
//!
//! The archive's version is asked once, before the first call. Every function that calls the archive
//! panics if it is not the version that this crate was built for.

#![deny(missing_docs)]

mod account;
mod archive;
mod best;
mod board;
mod engine;
mod errors;
mod generator;
mod lists;
pub mod raw;
mod refusal;
mod rival;
mod setup;
mod tables;
mod trace;

pub use account::Account;
pub use best::{best, best_in, BestSchedule, SearchTables, ENOUGH_STEPS};
pub use board::Board;
pub use engine::{look, run, start};
pub use errors::{BestError, PriceError, RunError, TraceError};
pub use generator::{generate, generate_into};
pub use lists::{Action, Entry, Operation, Request};
pub use refusal::Refusal;
pub use rival::price;
pub use setup::{Block, Setup, Variable, TRACE_SETUP};
pub use tables::{RivalTables, Tables};
pub use trace::count_trace;
