use crate::{look, start, Block, Refusal, Setup};

/// The engine's tables, processor by processor and line by line, with the masks of holders, block by
/// block. The fields are open: lengths and soundness are checked at each run.
#[derive(Clone, Debug, PartialEq, Eq)]
pub struct Tables {
    /// The block in each line; 0 in an empty one.
    pub blocks: Vec<u32>,
    /// The counter of each line; 0 in an empty one, and only there; at most the fetch price.
    pub counters: Vec<u32>,
    /// The dirty mark of each line: 0 or 1.
    pub marks: Vec<u32>,
    /// The words of each line, block by block.
    pub words: Vec<u32>,
    /// The words of main memory, by variable.
    pub memory: Vec<u32>,
    /// Who holds each block, so that a run need not ask every cache: bit i is set exactly if
    /// processor i does. Only [`start`] and [`run`](crate::run) are lent them; a host need not read
    /// them. Tables from elsewhere get them by [`fill_masks`](Tables::fill_masks).
    pub masks: Vec<u8>,
}

/// The pricer's tables, processor by processor and line by line. It clears them itself.
#[derive(Clone, Debug, PartialEq, Eq)]
pub struct RivalTables {
    /// The block in each line; 0 in an empty one.
    pub blocks: Vec<u32>,
    /// Whether each line holds its block: 0 or 1.
    pub held: Vec<u32>,
    /// The dirty mark of each line: 0 or 1.
    pub marks: Vec<u32>,
}

impl Tables {
    /// Tables of the lengths that a setup requires, all 0; empty where it is out of range.
    #[must_use]
    pub fn sized(setup: Setup) -> Tables {
        let slots = setup.slot_count();
        Tables {
            blocks: vec![0; slots],
            counters: vec![0; slots],
            marks: vec![0; slots],
            words: vec![0; setup.word_count()],
            memory: vec![0; setup.variable_count()],
            masks: vec![0; setup.mask_count()],
        }
    }

    /// Started tables.
    ///
    /// # Errors
    ///
    /// [`SetupOutOfRange`](Refusal::SetupOutOfRange), [`PriceOutOfRange`](Refusal::PriceOutOfRange).
    ///
    /// # Panics
    ///
    /// If the archive is of another version.
    pub fn started(setup: Setup) -> Result<Tables, Refusal> {
        let mut tables = Tables::sized(setup);
        start(setup, &mut tables)?;
        Ok(tables)
    }

    /// Makes the masks anew, as many as there are blocks: for tables that were kept from a version
    /// before 0.6, or that the host itself changed. None where a size is out of range.
    ///
    /// ```
    /// use cuzkelor::{run, Account, Request, Tables, Variable, TRACE_SETUP};
    ///
    /// let mut tables = Tables { masks: Vec::new(), ..Tables::started(TRACE_SETUP)? };
    /// tables.fill_masks(TRACE_SETUP);
    /// let request = Request::read(2, Variable(3));
    /// run(TRACE_SETUP, &mut tables, &mut Account::default(), &[request], &mut [0])?;
    /// assert_eq!(tables.masks[0], 1 << 2);
    /// # Ok::<(), Box<dyn std::error::Error>>(())
    /// ```
    ///
    /// # Panics
    ///
    /// If the archive is of another version.
    pub fn fill_masks(&mut self, setup: Setup) {
        let held = |i, block| !look(setup, self, i, block).is_empty();
        let bit = |i, block| u8::from(held(i, block)) << i;
        let mask = |block| (0..setup.processors).map(|i| bit(i, Block(block))).sum();
        self.masks = match setup.sizes_in_range() {
            true => (0..setup.block_count).map(mask).collect(),
            false => Vec::new(),
        };
    }
}

impl RivalTables {
    /// Tables of the lengths that a setup requires, all 0; empty where it is out of range.
    #[must_use]
    pub fn sized(setup: Setup) -> RivalTables {
        let slots = setup.slot_count();
        RivalTables {
            blocks: vec![0; slots],
            held: vec![0; slots],
            marks: vec![0; slots],
        }
    }
}
