use crate::raw::{
    CUZKELOR_CLEAR, CUZKELOR_COMPLETE, CUZKELOR_COMPLETE_BY_BROADCAST, CUZKELOR_DROP,
    CUZKELOR_ENTRY_NUMBERS, CUZKELOR_FETCH, CUZKELOR_READ, CUZKELOR_REQUEST_NUMBERS,
    CUZKELOR_WRITE, CUZKELOR_WRITE_BACK,
};
use crate::{Block, Variable};
use std::{fmt, slice};

/// What one processor asks for: a read of a variable, a write of a variable with its value, or a
/// clear of its cache.
///
/// It is laid out as the archive's four numbers, so that a slice of requests is lent as it lies.
///
/// ```
/// use cuzkelor::{Operation, Request, Variable};
///
/// let request = Request::write(1, Variable(3), 7);
/// assert_eq!(request.processor(), 1);
/// assert_eq!(request.operation(), Operation::Write(Variable(3), 7));
/// assert_eq!(Request::clear(1).variable(), None);
/// ```
#[derive(Clone, Copy, PartialEq, Eq, Hash)]
#[repr(C)]
pub struct Request {
    processor: u32,
    operation: u32,
    variable: Variable,
    value: u32,
}

/// What a request does.
#[derive(Clone, Copy, Debug, PartialEq, Eq, Hash)]
pub enum Operation {
    /// Reads a variable.
    Read(Variable),
    /// Writes a value to a variable.
    Write(Variable, u32),
    /// Empties the processor's cache.
    Clear,
}

/// One entry of a rival's schedule: an action of a processor on a block, or the completion of the
/// next request.
///
/// It is laid out as the archive's three numbers, so that a schedule is lent as it lies.
///
/// ```
/// use cuzkelor::{Action, Block, Entry};
///
/// let schedule = [Entry::fetch(0, Block(2)), Entry::COMPLETE];
/// assert_eq!(schedule[0].action(), Action::Fetch(0, Block(2)));
/// assert_eq!(schedule[1].action(), Action::Complete);
/// ```
#[derive(Clone, Copy, PartialEq, Eq, Hash)]
#[repr(C)]
pub struct Entry {
    kind: u32,
    processor: u32,
    block: Block,
}

/// What an entry does.
#[derive(Clone, Copy, Debug, PartialEq, Eq, Hash)]
pub enum Action {
    /// A processor fetches a block.
    Fetch(u32, Block),
    /// A processor writes a block back.
    WriteBack(u32, Block),
    /// A processor drops a block.
    Drop(u32, Block),
    /// The next request is completed.
    Complete,
    /// The next request, a write, is completed by broadcast.
    CompleteByBroadcast,
}

impl Request {
    /// How many numbers a request is.
    const COUNT: usize = {
        let count = CUZKELOR_REQUEST_NUMBERS as usize;
        assert!(size_of::<Request>() == count * size_of::<u32>());
        count
    };

    /// A processor reads a variable.
    #[must_use]
    pub const fn read(processor: u32, variable: Variable) -> Request {
        Request {
            processor,
            operation: CUZKELOR_READ,
            variable,
            value: 0,
        }
    }

    /// A processor writes a value to a variable.
    #[must_use]
    pub const fn write(processor: u32, variable: Variable, value: u32) -> Request {
        Request {
            processor,
            operation: CUZKELOR_WRITE,
            variable,
            value,
        }
    }

    /// A processor's cache is cleared.
    #[must_use]
    pub const fn clear(processor: u32) -> Request {
        Request {
            processor,
            operation: CUZKELOR_CLEAR,
            variable: Variable(0),
            value: 0,
        }
    }

    /// The processor that asks.
    #[must_use]
    pub const fn processor(self) -> u32 {
        self.processor
    }

    /// The variable that is read or written; a clear names none.
    #[must_use]
    pub const fn variable(self) -> Option<Variable> {
        match self.operation() {
            Operation::Read(variable) | Operation::Write(variable, _) => Some(variable),
            Operation::Clear => None,
        }
    }

    /// What is asked for.
    #[must_use]
    pub const fn operation(self) -> Operation {
        match self.operation {
            CUZKELOR_WRITE => Operation::Write(self.variable, self.value),
            CUZKELOR_CLEAR => Operation::Clear,
            _ => Operation::Read(self.variable),
        }
    }

    /// A list of requests as the archive reads it: processor, operation, variable and value of each
    /// in turn.
    ///
    /// ```
    /// use cuzkelor::{Request, Variable};
    ///
    /// let requests = [Request::read(2, Variable(5)), Request::write(1, Variable(3), 7)];
    /// assert_eq!(Request::numbers(&requests), [2, 0, 5, 0, 1, 1, 3, 7]);
    /// assert_eq!(Request::numbers(&[Request::clear(3)]), [3, 2, 0, 0]);
    /// ```
    #[must_use]
    pub const fn numbers(requests: &[Request]) -> &[u32] {
        // SAFETY: a request is that many numbers and nothing else, in the order of its fields.
        unsafe { slice::from_raw_parts(requests.as_ptr().cast(), Request::COUNT * requests.len()) }
    }

    /// The same to be written.
    pub(crate) fn numbers_mut(requests: &mut [Request]) -> &mut [u32] {
        let length = Request::COUNT * requests.len();
        // SAFETY: as in `numbers`, and any numbers are a request.
        unsafe { slice::from_raw_parts_mut(requests.as_mut_ptr().cast(), length) }
    }
}

impl Entry {
    /// How many numbers an entry is.
    const COUNT: usize = {
        let count = CUZKELOR_ENTRY_NUMBERS as usize;
        assert!(size_of::<Entry>() == count * size_of::<u32>());
        count
    };

    /// Completes the next request.
    pub const COMPLETE: Entry = Entry::of(CUZKELOR_COMPLETE, 0, Block(0));

    /// Completes the next request, a write, by broadcast.
    pub const COMPLETE_BY_BROADCAST: Entry = Entry::of(CUZKELOR_COMPLETE_BY_BROADCAST, 0, Block(0));

    /// A processor fetches a block.
    #[must_use]
    pub const fn fetch(processor: u32, block: Block) -> Entry {
        Entry::of(CUZKELOR_FETCH, processor, block)
    }

    /// A processor writes a block back.
    #[must_use]
    pub const fn write_back(processor: u32, block: Block) -> Entry {
        Entry::of(CUZKELOR_WRITE_BACK, processor, block)
    }

    /// A processor drops a block.
    #[must_use]
    pub const fn drop(processor: u32, block: Block) -> Entry {
        Entry::of(CUZKELOR_DROP, processor, block)
    }

    const fn of(kind: u32, processor: u32, block: Block) -> Entry {
        Entry {
            kind,
            processor,
            block,
        }
    }

    /// What the entry does.
    #[must_use]
    pub const fn action(self) -> Action {
        match self.kind {
            CUZKELOR_FETCH => Action::Fetch(self.processor, self.block),
            CUZKELOR_WRITE_BACK => Action::WriteBack(self.processor, self.block),
            CUZKELOR_DROP => Action::Drop(self.processor, self.block),
            CUZKELOR_COMPLETE => Action::Complete,
            _ => Action::CompleteByBroadcast,
        }
    }

    /// A schedule as the archive reads it: kind, processor and block of each entry in turn.
    ///
    /// ```
    /// use cuzkelor::{Block, Entry};
    ///
    /// let schedule = [Entry::fetch(1, Block(2)), Entry::COMPLETE];
    /// assert_eq!(Entry::numbers(&schedule), [0, 1, 2, 3, 0, 0]);
    /// ```
    #[must_use]
    pub const fn numbers(entries: &[Entry]) -> &[u32] {
        // SAFETY: as in `Request::numbers`.
        unsafe { slice::from_raw_parts(entries.as_ptr().cast(), Entry::COUNT * entries.len()) }
    }

    /// The same to be written.
    pub(crate) fn numbers_mut(entries: &mut [Entry]) -> &mut [u32] {
        let length = Entry::COUNT * entries.len();
        // SAFETY: as in `Request::numbers_mut`.
        unsafe { slice::from_raw_parts_mut(entries.as_mut_ptr().cast(), length) }
    }
}

impl fmt::Debug for Request {
    fn fmt(&self, f: &mut fmt::Formatter<'_>) -> fmt::Result {
        f.debug_struct("Request")
            .field("processor", &self.processor)
            .field("operation", &self.operation())
            .finish()
    }
}

impl fmt::Debug for Entry {
    fn fmt(&self, f: &mut fmt::Formatter<'_>) -> fmt::Result {
        f.debug_tuple("Entry").field(&self.action()).finish()
    }
}
