use crate::archive::call;
use crate::{Entry, PriceError, Refusal, Request, RivalTables, Setup};

/// Plays a rival's schedule for the requests from empty caches, and gives its cost: the sum of its
/// entries' cycles. Then the tables show the rival's last copies.
///
/// What a cost says of runs, the first of them on started tables, if the requests are all that they
/// took: the cycles that they added to the account are together at most twice the cost. Their fetch
/// cycles are at most the cost less the write-back price for each write-back in the schedule, and so
/// are their update and write-back cycles together.
///
/// ```
/// use cuzkelor::{price, Block, Entry, Request, RivalTables, Variable, TRACE_SETUP};
///
/// let requests = [Request::write(1, Variable(3), 7)];
/// let schedule = [Entry::fetch(1, Block(0)), Entry::COMPLETE];
/// let mut tables = RivalTables::sized(TRACE_SETUP);
/// assert_eq!(price(TRACE_SETUP, &mut tables, &schedule, &requests), Ok(4));
///
/// let error = price(TRACE_SETUP, &mut tables, &schedule[1..], &requests).unwrap_err();
/// assert_eq!(
///     error.to_string(),
///     "refused by 27 at place 0: a completion of a request whose block is not held"
/// );
/// ```
///
/// # Errors
///
/// In this order [`SetupOutOfRange`](Refusal::SetupOutOfRange),
/// [`PriceOutOfRange`](Refusal::PriceOutOfRange), [`WrongLength`](Refusal::WrongLength) of a table,
/// [`TooMany`](Refusal::TooMany): then no table changes. At each fetch, write-back and drop
/// [`NoSuchProcessor`](Refusal::NoSuchProcessor), [`NoSuchBlock`](Refusal::NoSuchBlock), and
/// [`LineInUse`](Refusal::LineInUse) of a fetch, [`BlockNotHeld`](Refusal::BlockNotHeld) of the
/// others, [`DropOfMarked`](Refusal::DropOfMarked); at each completion
/// [`NoRequestLeft`](Refusal::NoRequestLeft), [`NoSuchProcessor`](Refusal::NoSuchProcessor),
/// [`NoSuchVariable`](Refusal::NoSuchVariable),
/// [`BroadcastWithoutWrite`](Refusal::BroadcastWithoutWrite), and
/// [`CacheNotEmpty`](Refusal::CacheNotEmpty) of a clear,
/// [`CompletionNotHeld`](Refusal::CompletionNotHeld) of the others; at the end
/// [`RequestsLeft`](Refusal::RequestsLeft): then the tables are all 0.
///
/// # Panics
///
/// If the archive is of another version.
pub fn price(
    setup: Setup,
    tables: &mut RivalTables,
    schedule: &[Entry],
    requests: &[Request],
) -> Result<u32, PriceError> {
    let RivalTables {
        blocks,
        held,
        marks,
    } = tables;
    let (entries, requests) = (Entry::numbers(schedule), Request::numbers(requests));
    let (mut place, mut cost) = (0, 0);
    // SAFETY: the tables and the two out-parameters are apart from each other and from the lists, as
    // mutable borrows are, and each buffer goes with its length.
    let number = unsafe {
        call!(
            cuzkelor_price,
            setup,
            as_mut_ptr of [blocks, held, marks],
            entries.as_ptr(),
            entries.len(),
            requests.as_ptr(),
            requests.len(),
            &mut place,
            &mut cost,
        )
    };
    match Refusal::check(number) {
        Ok(()) => Ok(cost),
        Err(refusal) => Err(PriceError { refusal, place }),
    }
}
