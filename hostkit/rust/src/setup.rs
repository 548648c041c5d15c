use crate::raw;

/// The board: four sizes and two prices, each from 1 to its most. A size out of range is refused by
/// [`SetupOutOfRange`](crate::Refusal::SetupOutOfRange), a price by
/// [`PriceOutOfRange`](crate::Refusal::PriceOutOfRange).
///
/// The prices may be anything in their ranges, whatever the sizes are; an update costs 1 cycle.
///
/// ```
/// use cuzkelor::{Board, Refusal, Request, Setup, Variable, TRACE_SETUP};
///
/// // A bus that charges the address cycle of a fetch: 5 cycles for four words.
/// let pipelined = Setup { fetch_price: 5, write_back_price: 4, ..TRACE_SETUP };
/// let mut board = Board::new(pipelined)?;
/// board.run(&[Request::write(0, Variable(0), 7), Request::read(0, Variable(32))])?;
/// assert_eq!((board.account().fetch, board.account().write_back), (10, 4));
///
/// let dear = Setup { write_back_price: 6, ..pipelined };
/// assert_eq!(Board::new(dear), Err(Refusal::PriceOutOfRange));
/// # Ok::<(), Box<dyn std::error::Error>>(())
/// ```
#[derive(Clone, Copy, Debug, PartialEq, Eq, Hash)]
pub struct Setup {
    /// Processors, each with a cache: 1 to 8.
    pub processors: u32,
    /// Lines in each cache: 1 to 64.
    pub lines: u32,
    /// Words in a block: 1 to 16.
    pub block_words: u32,
    /// Blocks of main memory: 1 to 256.
    pub block_count: u32,
    /// Cycles of a fetch, which is also a full counter: 1 to 32.
    pub fetch_price: u32,
    /// Cycles of a write-back: 1 to the fetch price.
    pub write_back_price: u32,
}

/// The setup of every trace: 4 processors, 8 lines, 4 words in a block, 64 blocks, both prices 4.
pub const TRACE_SETUP: Setup = Setup {
    processors: raw::CUZKELOR_TRACE_PROCESSORS,
    lines: raw::CUZKELOR_TRACE_LINES,
    block_words: raw::CUZKELOR_TRACE_BLOCK_WORDS,
    block_count: raw::CUZKELOR_TRACE_BLOCK_COUNT,
    fetch_price: raw::CUZKELOR_TRACE_FETCH_PRICE,
    write_back_price: raw::CUZKELOR_TRACE_WRITE_BACK_PRICE,
};

/// A variable's number. No block number can stand for it.
#[derive(Clone, Copy, Debug, PartialEq, Eq, PartialOrd, Ord, Hash)]
#[repr(transparent)]
pub struct Variable(pub u32);

/// A block's number. No variable number can stand for it.
#[derive(Clone, Copy, Debug, PartialEq, Eq, PartialOrd, Ord, Hash)]
#[repr(transparent)]
pub struct Block(pub u32);

impl Setup {
    /// Whether every number is in its range.
    #[must_use]
    pub fn in_range(self) -> bool {
        self.sizes_in_range() && self.prices_in_range()
    }

    /// Whether [`SetupOutOfRange`](crate::Refusal::SetupOutOfRange) does not meet the setup.
    #[must_use]
    pub fn sizes_in_range(self) -> bool {
        (1..=raw::CUZKELOR_MOST_PROCESSORS).contains(&self.processors)
            && (1..=raw::CUZKELOR_MOST_LINES).contains(&self.lines)
            && (1..=raw::CUZKELOR_MOST_BLOCK_WORDS).contains(&self.block_words)
            && (1..=raw::CUZKELOR_MOST_BLOCK_COUNT).contains(&self.block_count)
    }

    /// Whether [`PriceOutOfRange`](crate::Refusal::PriceOutOfRange) does not meet the setup.
    #[must_use]
    pub fn prices_in_range(self) -> bool {
        (1..=raw::CUZKELOR_MOST_FETCH_PRICE).contains(&self.fetch_price)
            && (1..=self.fetch_price).contains(&self.write_back_price)
    }

    /// The lines of all caches: the length of block numbers, counters and marks. 0 where a size is
    /// out of range, so that no length overflows.
    #[must_use]
    pub fn slot_count(self) -> usize {
        self.length([self.processors, self.lines])
    }

    /// The words of all lines. 0 where a size is out of range.
    #[must_use]
    pub fn word_count(self) -> usize {
        self.length([self.processors, self.lines, self.block_words])
    }

    /// The variables: the words of main memory. 0 where a size is out of range.
    #[must_use]
    pub fn variable_count(self) -> usize {
        self.length([self.block_words, self.block_count])
    }

    /// The masks of holders: one for each block. 0 where a size is out of range.
    #[must_use]
    pub fn mask_count(self) -> usize {
        self.length([self.block_count])
    }

    fn length<const COUNT: usize>(self, factors: [u32; COUNT]) -> usize {
        if !self.sizes_in_range() {
            return 0;
        }
        factors.map(|factor| factor as usize).iter().product()
    }

    /// The block in which a variable lies.
    ///
    /// # Panics
    ///
    /// If the setup has no words in a block.
    #[must_use]
    pub fn block_of(self, variable: Variable) -> Block {
        Block(variable.0 / self.block_words)
    }
}
