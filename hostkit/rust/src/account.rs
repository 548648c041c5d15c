/// Requests taken, and the cycles of each kind. Each run adds to it; a fresh one is all 0.
#[derive(Clone, Copy, Debug, Default, PartialEq, Eq)]
pub struct Account {
    /// Requests taken.
    pub requests: u32,
    /// Cycles of blocks fetched.
    pub fetch: u32,
    /// Cycles of blocks written back.
    pub write_back: u32,
    /// Cycles of words broadcast.
    pub update: u32,
}

impl Account {
    /// The cycles of all kinds.
    #[must_use]
    pub fn total(self) -> u64 {
        u64::from(self.fetch) + u64::from(self.write_back) + u64::from(self.update)
    }
}
