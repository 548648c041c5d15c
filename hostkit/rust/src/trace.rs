use crate::archive::check_version;
use crate::{raw, Account, Refusal, Tables, TraceError, TRACE_SETUP};

/// Counts a whole din trace over tables of [`TRACE_SETUP`], which it starts itself. Labels 0 and 2
/// read, 1 writes and 4 clears. What a clear does and who pays for a write is said at
/// [`run`](crate::run): the counts of a trace may differ from those up to version 0.3.
///
/// The archive's trace is lent no masks. They are made anew from the tables that it leaves, so that a
/// run may go on from them.
///
/// ```
/// use cuzkelor::{count_trace, Tables, TRACE_SETUP};
///
/// let mut tables = Tables::sized(TRACE_SETUP);
/// let account = count_trace(b"0 00000000\n0 01000000\n1 00000000\n1 4\n", &mut tables)?;
/// assert_eq!((account.fetch, account.write_back, account.update), (8, 0, 2));
///
/// let error = count_trace(b"0 0\n3 0\n", &mut tables).unwrap_err();
/// assert_eq!(
///     error.to_string(),
///     "refused by 7 at line 2: a trace label is a digit above 2 other than 4"
/// );
/// assert_eq!(error.account.requests, 1);
/// # Ok::<(), Box<dyn std::error::Error>>(())
/// ```
///
/// # Errors
///
/// [`WrongLength`](Refusal::WrongLength) of a table: then nothing changes. For each line
/// [`MalformedLine`](Refusal::MalformedLine), [`UnknownLabel`](Refusal::UnknownLabel),
/// [`NoSuchProcessor`](Refusal::NoSuchProcessor), [`NoSuchVariable`](Refusal::NoSuchVariable),
/// [`AccountFull`](Refusal::AccountFull): then the tables and the error's account are as the lines
/// before it left them.
///
/// # Panics
///
/// If the archive is of another version.
pub fn count_trace(bytes: &[u8], tables: &mut Tables) -> Result<Account, TraceError> {
    let mut account = Account::default();
    let mut line = 0;
    check_version();
    // SAFETY: the tables, the account and the out-parameter are apart from each other and from the
    // bytes, as mutable borrows are, and each buffer goes with its length.
    let number = unsafe {
        raw::cuzkelor_count_trace(
            bytes.as_ptr(),
            bytes.len(),
            tables.blocks.as_mut_ptr(),
            tables.blocks.len(),
            tables.counters.as_mut_ptr(),
            tables.counters.len(),
            tables.marks.as_mut_ptr(),
            tables.marks.len(),
            tables.words.as_mut_ptr(),
            tables.words.len(),
            tables.memory.as_mut_ptr(),
            tables.memory.len(),
            &mut account.requests,
            &mut account.fetch,
            &mut account.write_back,
            &mut account.update,
            &mut line,
        )
    };
    let counted = Refusal::check(number);
    if counted != Err(Refusal::WrongLength) {
        tables.fill_masks(TRACE_SETUP);
    }
    match counted {
        Ok(()) => Ok(account),
        Err(refusal) => Err(TraceError {
            refusal,
            line,
            account,
        }),
    }
}
