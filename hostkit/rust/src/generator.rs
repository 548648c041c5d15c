use crate::archive::call;
use crate::raw::CUZKELOR_MOST_REQUESTS;
use crate::{Refusal, Request, Setup, Variable};

/// The longest list that is ever lent for a count: one past the limit, since every longer one is
/// answered alike.
const LONGEST: usize = CUZKELOR_MOST_REQUESTS as usize + 1;

/// So many requests drawn from a seed by Marsaglia's xorshift, so that two hosts have the same list.
///
/// Each request uses three draws, of which the seed itself is none: the processor, the variable, and
/// a read or a write with its value. The list depends on the processors, the number of variables,
/// the seed and the count alone, and a longer list begins with the shorter one. A fresh
/// [`Board`](crate::Board) takes it to the end.
///
/// ```
/// use cuzkelor::{generate, Board, Refusal, Request, Variable, TRACE_SETUP};
///
/// let requests = generate(TRACE_SETUP, 2_463_534_242, 3)?;
/// assert_eq!(
///     requests,
///     [
///         Request::read(3, Variable(122)),
///         Request::read(2, Variable(225)),
///         Request::write(2, Variable(61), 746_858_951),
///     ]
/// );
/// Board::new(TRACE_SETUP)?.run(&requests)?;
///
/// assert_eq!(generate(TRACE_SETUP, 0, 3), Err(Refusal::SeedZero));
/// # Ok::<(), Box<dyn std::error::Error>>(())
/// ```
///
/// # Errors
///
/// In this order [`SetupOutOfRange`](Refusal::SetupOutOfRange),
/// [`PriceOutOfRange`](Refusal::PriceOutOfRange), [`SeedZero`](Refusal::SeedZero),
/// [`TooMany`](Refusal::TooMany) of a count over 1,000,000.
///
/// # Panics
///
/// If the archive is of another version.
pub fn generate(setup: Setup, seed: u32, count: usize) -> Result<Vec<Request>, Refusal> {
    let mut requests = vec![Request::read(0, Variable(0)); count.min(LONGEST)];
    generate_into(setup, seed, &mut requests)?;
    Ok(requests)
}

/// As [`generate`], with the requests written to a list, as many as it is long.
///
/// ```
/// use cuzkelor::{generate, generate_into, Request, Variable, TRACE_SETUP};
///
/// let mut requests = [Request::read(0, Variable(0)); 1_000];
/// generate_into(TRACE_SETUP, 1_988, &mut requests)?;
/// assert_eq!(requests[..10], generate(TRACE_SETUP, 1_988, 10)?);
/// # Ok::<(), cuzkelor::Refusal>(())
/// ```
///
/// # Errors
///
/// As [`generate`]: then the list is untouched.
///
/// # Panics
///
/// If the archive is of another version.
pub fn generate_into(setup: Setup, seed: u32, requests: &mut [Request]) -> Result<(), Refusal> {
    let numbers = Request::numbers_mut(requests);
    // SAFETY: one buffer with its length.
    let number = unsafe {
        call!(cuzkelor_generate, setup, as_mut_ptr of [], seed, numbers.as_mut_ptr(), numbers.len())
    };
    Refusal::check(number)
}
