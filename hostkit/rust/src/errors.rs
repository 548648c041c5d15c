use crate::{Account, Refusal};
use std::error::Error;
use std::fmt;

/// Why a run stopped before its end.
#[derive(Clone, Copy, Debug, PartialEq, Eq)]
#[non_exhaustive]
pub struct RunError {
    /// The condition that was met.
    pub refusal: Refusal,
    /// How many requests were served before.
    pub taken: usize,
    /// The refused request's place in the list; 0 where the whole call is refused.
    pub place: usize,
}

/// Why a schedule has no price.
#[derive(Clone, Copy, Debug, PartialEq, Eq)]
#[non_exhaustive]
pub struct PriceError {
    /// The condition that was met.
    pub refusal: Refusal,
    /// The refused entry's place in the schedule, or the schedule's length where requests are left;
    /// 0 where the whole call is refused.
    pub place: usize,
}

/// Why no schedule was searched for.
#[derive(Clone, Copy, Debug, PartialEq, Eq)]
#[non_exhaustive]
pub struct BestError {
    /// The condition that was met.
    pub refusal: Refusal,
    /// The refused request's place in the list; 0 where the whole call is refused.
    pub place: usize,
}

/// Why a trace was not counted to its end.
#[derive(Clone, Copy, Debug, PartialEq, Eq)]
#[non_exhaustive]
pub struct TraceError {
    /// The condition that was met.
    pub refusal: Refusal,
    /// The refused line's number, from 1; 0 where the whole call is refused.
    pub line: u32,
    /// What was counted before.
    pub account: Account,
}

/// The refusal in words, with where it was met unless the whole call is refused.
fn located(f: &mut fmt::Formatter<'_>, refusal: Refusal, place: impl fmt::Display) -> fmt::Result {
    if refusal.refuses_call() {
        return fmt::Display::fmt(&refusal, f);
    }
    write!(
        f,
        "refused by {} at {place}: {}",
        refusal.number(),
        refusal.text()
    )
}

impl fmt::Display for RunError {
    fn fmt(&self, f: &mut fmt::Formatter<'_>) -> fmt::Result {
        located(f, self.refusal, format_args!("place {}", self.place))
    }
}

impl fmt::Display for PriceError {
    fn fmt(&self, f: &mut fmt::Formatter<'_>) -> fmt::Result {
        located(f, self.refusal, format_args!("place {}", self.place))
    }
}

impl fmt::Display for BestError {
    fn fmt(&self, f: &mut fmt::Formatter<'_>) -> fmt::Result {
        located(f, self.refusal, format_args!("place {}", self.place))
    }
}

impl fmt::Display for TraceError {
    fn fmt(&self, f: &mut fmt::Formatter<'_>) -> fmt::Result {
        located(f, self.refusal, format_args!("line {}", self.line))
    }
}

impl Error for RunError {}
impl Error for PriceError {}
impl Error for BestError {}
impl Error for TraceError {}
