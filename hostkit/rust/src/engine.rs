use crate::archive::call;
use crate::{Account, Block, Refusal, Request, RunError, Setup, Tables};

/// Fills all tables and masks with 0.
///
/// # Errors
///
/// In this order [`SetupOutOfRange`](Refusal::SetupOutOfRange),
/// [`PriceOutOfRange`](Refusal::PriceOutOfRange), [`WrongLength`](Refusal::WrongLength) of a table or
/// of the masks: then nothing changes.
///
/// # Panics
///
/// If the archive is of another version.
pub fn start(setup: Setup, tables: &mut Tables) -> Result<(), Refusal> {
    let Tables {
        blocks,
        counters,
        marks,
        words,
        memory,
        masks,
    } = tables;
    // SAFETY: six buffers that are apart from each other, each with its length.
    let number = unsafe {
        call!(cuzkelor_start, setup, as_mut_ptr of [blocks, counters, marks, words, memory, masks])
    };
    Refusal::check(number)
}

/// The words of a block in a processor's cache: a part of `tables.words`, empty where the block is
/// not held there, where there is no such processor or block, and where the setup or the length of
/// block numbers, counters or words is refused.
///
/// # Panics
///
/// If the archive is of another version.
#[must_use]
pub fn look(setup: Setup, tables: &Tables, processor: u32, block: Block) -> &[u32] {
    let Tables {
        blocks,
        counters,
        words,
        ..
    } = tables;
    // SAFETY: three shared buffers, each with its length; neither call writes.
    let (offset, length) = unsafe {
        (
            call!(cuzkelor_look_offset, setup, as_ptr of [blocks, counters, words], processor, block.0),
            call!(cuzkelor_look_length, setup, as_ptr of [blocks, counters, words], processor, block.0),
        )
    };
    &words[offset..offset + length]
}

/// Serves the requests in turn, to the first refused one, and adds to the account. `values` has one
/// word for each request, which gets the value supplied or written, for a clear 0.
///
/// A write to a block that other caches hold too lowers the smallest of their counters by 1, of equal
/// ones the lowest processor's, and at 0 that line becomes empty. (Up to version 0.3 it was the lowest
/// other holder's, whatever the counters.)
///
/// A clear empties its processor's cache, so that the card can be swapped: from line 0 up, marked
/// blocks are written back and every line becomes empty. No other cache changes.
///
/// Tables and accounts of earlier versions may be used on. Tables from before 0.6 have no masks: they
/// get them by [`fill_masks`](Tables::fill_masks).
///
/// ```
/// use cuzkelor::{run, Account, Request, Tables, Variable, TRACE_SETUP};
///
/// let mut tables = Tables::started(TRACE_SETUP)?;
/// let mut account = Account::default();
/// let requests = [Request::write(0, Variable(3), 7), Request::read(1, Variable(3))];
/// let mut values = [0; 2];
/// run(TRACE_SETUP, &mut tables, &mut account, &requests, &mut values)?;
/// assert_eq!(values, [7, 7]);
/// assert_eq!(account.total(), 8);
///
/// let requests = [Request::write(1, Variable(32), 5), Request::clear(1)];
/// run(TRACE_SETUP, &mut tables, &mut account, &requests, &mut values)?;
/// assert_eq!(values, [5, 0]);
/// assert_eq!((account.write_back, tables.memory[32]), (4, 5));
/// # Ok::<(), Box<dyn std::error::Error>>(())
/// ```
///
/// # Errors
///
/// In this order [`SetupOutOfRange`](Refusal::SetupOutOfRange),
/// [`PriceOutOfRange`](Refusal::PriceOutOfRange), [`WrongLength`](Refusal::WrongLength) of a table, of
/// the masks or of the values, [`UnsoundTables`](Refusal::UnsoundTables), also of a false mask,
/// [`ImpossibleAccount`](Refusal::ImpossibleAccount): then nothing changes. For each request
/// [`NoSuchProcessor`](Refusal::NoSuchProcessor), [`NoSuchVariable`](Refusal::NoSuchVariable) unless
/// it is a clear, [`AccountFull`](Refusal::AccountFull): then everything is as the requests before it
/// left it.
///
/// # Panics
///
/// If the archive is of another version.
pub fn run(
    setup: Setup,
    tables: &mut Tables,
    account: &mut Account,
    requests: &[Request],
    values: &mut [u32],
) -> Result<(), RunError> {
    let Tables {
        blocks,
        counters,
        marks,
        words,
        memory,
        masks,
    } = tables;
    let numbers = Request::numbers(requests);
    let (mut taken, mut place) = (0, 0);
    // SAFETY: the tables, the masks, the account, the values and the two out-parameters are apart
    // from each other and from the list, as mutable borrows are, and each buffer goes with its
    // length.
    let number = unsafe {
        call!(
            cuzkelor_run,
            setup,
            as_mut_ptr of [blocks, counters, marks, words, memory, masks],
            &mut account.requests,
            &mut account.fetch,
            &mut account.write_back,
            &mut account.update,
            numbers.as_ptr(),
            numbers.len(),
            values.as_mut_ptr(),
            values.len(),
            &mut taken,
            &mut place,
        )
    };
    Refusal::check(number).map_err(|refusal| RunError {
        refusal,
        taken,
        place,
    })
}
