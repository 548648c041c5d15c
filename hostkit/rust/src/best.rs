use crate::archive::call;
use crate::raw::{CUZKELOR_ENOUGH_STEPS, CUZKELOR_GROUP_COUNT, CUZKELOR_POSITION_COUNT};
use crate::{BestError, Entry, Refusal, Request, Setup};

/// With so many steps, or more, the schedule that [`best`] finds is always [least](BestSchedule::least).
pub const ENOUGH_STEPS: u32 = CUZKELOR_ENOUGH_STEPS;

/// What [`best_in`] searches with, for one search after another: some 800 kB.
#[derive(Clone, Debug)]
pub struct SearchTables {
    distances: Vec<u32>,
    order: Vec<u32>,
    predecessors: Vec<u32>,
    lowest: Vec<u32>,
    schedule: Vec<Entry>,
}

/// The best schedule found so far for a list of requests.
#[derive(Clone, Debug, PartialEq, Eq)]
#[non_exhaustive]
pub struct BestSchedule {
    /// Its entries, from empty caches.
    pub entries: Vec<Entry>,
    /// What they cost.
    pub cost: u32,
    /// The steps used: all of them, unless the schedule is least.
    pub steps: u32,
    /// Whether the search has shown that no legal schedule is cheaper.
    pub least: bool,
    /// The cost less half of what a fresh [`Board`](crate::Board) spends on the requests, that half
    /// rounded up. No legal schedule costs less than that half.
    pub excess: u32,
}

impl SearchTables {
    /// Tables of the lengths that a search requires.
    #[must_use]
    pub fn new() -> SearchTables {
        let positions = || vec![0; CUZKELOR_POSITION_COUNT as usize];
        SearchTables {
            distances: positions(),
            order: positions(),
            predecessors: positions(),
            lowest: vec![0; CUZKELOR_GROUP_COUNT as usize],
            schedule: vec![Entry::COMPLETE; CUZKELOR_POSITION_COUNT as usize],
        }
    }
}

impl Default for SearchTables {
    fn default() -> SearchTables {
        SearchTables::new()
    }
}

/// Searches for the cheapest schedule for at most 24 requests, on 2 processors and at most 4 blocks,
/// and gives the best one that it found in so many steps.
///
/// A step tries one entry from one position: the copies, the marks and the number of requests
/// completed. With 0 steps the schedule is what the engine itself does, and more steps never give a
/// dearer one. [`ENOUGH_STEPS`] always suffice to say that it is least.
///
/// ```
/// use cuzkelor::{best, Action, Block, Request, Setup, Variable, ENOUGH_STEPS, TRACE_SETUP};
///
/// let setup = Setup { processors: 2, block_count: 4, ..TRACE_SETUP };
/// let write = Request::write(0, Variable(0), 7);
/// let requests = [Request::read(1, Variable(0)), write, write, write, write];
///
/// // The engine fetches twice and updates processor 1's copy four times.
/// let engine = best(setup, &requests, 0)?;
/// assert_eq!((engine.cost, engine.least), (12, false));
///
/// // It is cheaper to drop that copy before the first write.
/// let least = best(setup, &requests, ENOUGH_STEPS)?;
/// assert_eq!((least.cost, least.least, least.excess), (8, true, 2));
/// let dropped = |entry| entry == Action::Drop(1, Block(0));
/// assert!(least.entries.iter().any(|entry| dropped(entry.action())));
///
/// let error = best(TRACE_SETUP, &requests, 0).unwrap_err();
/// assert_eq!(
///     error.to_string(),
///     "refused by 12: a search on other than 2 processors, over 4 blocks or for over 24 requests"
/// );
/// # Ok::<(), cuzkelor::BestError>(())
/// ```
///
/// # Errors
///
/// In this order [`SetupOutOfRange`](Refusal::SetupOutOfRange),
/// [`PriceOutOfRange`](Refusal::PriceOutOfRange), [`NotSearchable`](Refusal::NotSearchable); then for
/// each request [`NoSuchProcessor`](Refusal::NoSuchProcessor),
/// [`NoSuchVariable`](Refusal::NoSuchVariable) unless it is a clear.
///
/// # Panics
///
/// If the archive is of another version.
pub fn best(setup: Setup, requests: &[Request], steps: u32) -> Result<BestSchedule, BestError> {
    best_in(setup, &mut SearchTables::new(), requests, steps)
}

/// As [`best`], with tables that are kept for the next search. What they hold plays no part.
///
/// ```
/// use cuzkelor::{best, best_in, Request, SearchTables, Setup, Variable, TRACE_SETUP};
///
/// let setup = Setup { processors: 2, block_count: 4, ..TRACE_SETUP };
/// let mut tables = SearchTables::new();
/// for variable in 0..16 {
///     let requests = [Request::read(0, Variable(variable)), Request::clear(0)];
///     let found = best_in(setup, &mut tables, &requests, 1_000)?;
///     assert_eq!(found, best(setup, &requests, 1_000)?);
///     assert_eq!((found.cost, found.excess), (4, 2));
/// }
/// # Ok::<(), cuzkelor::BestError>(())
/// ```
///
/// # Errors
///
/// As [`best`].
///
/// # Panics
///
/// If the archive is of another version.
pub fn best_in(
    setup: Setup,
    tables: &mut SearchTables,
    requests: &[Request],
    steps: u32,
) -> Result<BestSchedule, BestError> {
    let SearchTables {
        distances,
        order,
        predecessors,
        lowest,
        schedule,
    } = tables;
    let (requests, entries) = (Request::numbers(requests), Entry::numbers_mut(schedule));
    let (mut place, mut length) = (0, 0);
    let (mut cost, mut used, mut least, mut excess) = (0, 0, 0, 0);
    // SAFETY: the tables, the schedule and the out-parameters are apart from each other and from the
    // requests, as mutable borrows are, and each buffer goes with its length.
    let number = unsafe {
        call!(
            cuzkelor_best,
            setup,
            as_mut_ptr of [],
            requests.as_ptr(),
            requests.len(),
            distances.as_mut_ptr(),
            distances.len(),
            order.as_mut_ptr(),
            order.len(),
            predecessors.as_mut_ptr(),
            predecessors.len(),
            lowest.as_mut_ptr(),
            lowest.len(),
            entries.as_mut_ptr(),
            entries.len(),
            steps,
            &mut place,
            &mut length,
            &mut cost,
            &mut used,
            &mut least,
            &mut excess,
        )
    };
    match Refusal::check(number) {
        Ok(()) => Ok(BestSchedule {
            entries: schedule[..length].to_vec(),
            cost,
            steps: used,
            least: least == 1,
            excess,
        }),
        Err(refusal) => Err(BestError { refusal, place }),
    }
}
