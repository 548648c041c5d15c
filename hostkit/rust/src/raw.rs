//! What the archive exports, and the numbers that go with it, made from hostkit/cuzkelor.h. The safe
//! functions of this crate are over these.
//!
//! A slice is two arguments, its pointer and its length. A caller owes that each pointer is valid for
//! its length, not null also at length 0, and aligned; that nothing which may be written overlaps
//! anything else that is passed; and that no other thread uses what may be written, or writes what is
//! read, while the call goes on. Every out-parameter is always written.

include!(concat!(env!("OUT_DIR"), "/raw.rs"));
