use crate::{look, run, Account, Block, Refusal, Request, RunError, Setup, Tables};

/// A board that is run on: a setup, its tables and its account.
///
/// The tables are started when the board is made and only runs change them, so that a run on it is
/// never refused for its setup, its tables or its account's cycles.
///
/// ```
/// use cuzkelor::{Block, Board, Refusal, Request, Variable, TRACE_SETUP};
///
/// let mut board = Board::new(TRACE_SETUP)?;
/// board.run(&[Request::write(0, Variable(3), 7)])?;
/// let values = board.run(&[Request::read(1, Variable(3)), Request::read(1, Variable(2))])?;
/// assert_eq!(values, [7, 0]);
/// assert_eq!(board.account().requests, 3);
/// assert_eq!(board.look(1, Block(0)), [0, 0, 0, 7]);
///
/// let error = board.run(&[Request::read(4, Variable(0))]).unwrap_err();
/// assert_eq!(error.refusal, Refusal::NoSuchProcessor);
/// # Ok::<(), Box<dyn std::error::Error>>(())
/// ```
#[derive(Clone, Debug, PartialEq, Eq)]
pub struct Board {
    setup: Setup,
    tables: Tables,
    account: Account,
}

impl Board {
    /// A board with empty caches, main memory all 0 and a fresh account.
    ///
    /// # Errors
    ///
    /// [`SetupOutOfRange`](Refusal::SetupOutOfRange), [`PriceOutOfRange`](Refusal::PriceOutOfRange).
    ///
    /// # Panics
    ///
    /// If the archive is of another version.
    pub fn new(setup: Setup) -> Result<Board, Refusal> {
        Ok(Board {
            setup,
            tables: Tables::started(setup)?,
            account: Account::default(),
        })
    }

    /// The setup.
    #[must_use]
    pub fn setup(&self) -> Setup {
        self.setup
    }

    /// The tables as the runs left them.
    #[must_use]
    pub fn tables(&self) -> &Tables {
        &self.tables
    }

    /// What the runs have taken and spent.
    #[must_use]
    pub fn account(&self) -> Account {
        self.account
    }

    /// Serves the requests in turn, to the first refused one, and gives the value that each supplied
    /// or wrote, for a clear 0.
    ///
    /// # Errors
    ///
    /// For each request [`NoSuchProcessor`](Refusal::NoSuchProcessor),
    /// [`NoSuchVariable`](Refusal::NoSuchVariable), [`AccountFull`](Refusal::AccountFull): then the
    /// board is as the requests before it left it. Their values are had by
    /// [`run_into`](Board::run_into).
    pub fn run(&mut self, requests: &[Request]) -> Result<Vec<u32>, RunError> {
        let mut values = vec![0; requests.len()];
        self.run_into(requests, &mut values)?;
        Ok(values)
    }

    /// As [`run`](Board::run), with the values written to a list of as many words. From a refused
    /// request on it is untouched.
    ///
    /// # Errors
    ///
    /// [`WrongLength`](Refusal::WrongLength) of the values: then nothing changes. Else as
    /// [`run`](Board::run).
    pub fn run_into(&mut self, requests: &[Request], values: &mut [u32]) -> Result<(), RunError> {
        run(
            self.setup,
            &mut self.tables,
            &mut self.account,
            requests,
            values,
        )
    }

    /// The words of a block in a processor's cache; none where it is not held there.
    #[must_use]
    pub fn look(&self, processor: u32, block: Block) -> &[u32] {
        look(self.setup, &self.tables, processor, block)
    }
}
