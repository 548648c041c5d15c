//! The document's rules in another representation: facts by processor and block. No table is flat
//! here but in `facts`, which reads and shows what is lent.

mod din;
mod engine;
mod facts;
mod generator;
mod rival;
mod search;

pub use din::{count, Counted};
pub use engine::{Caches, Ledger, Outcome};
pub use facts::{masks, read, rival_shown, shown, sizes};
pub use generator::{draws, generate};
pub use rival::{price, Move, Rival};
pub use search::least_cost;

/// A setup: N processors, L lines, p words in a block, M blocks, a fetch at f and a write-back at g
/// cycles.
#[derive(Clone, Copy, Debug, PartialEq, Eq)]
pub struct Board {
    pub n: u32,
    pub l: u32,
    pub p: u32,
    pub m: u32,
    pub f: u32,
    pub g: u32,
}

/// Whether each number is from 1 to its most.
fn within(limits: &[(u32, u32)]) -> bool {
    limits
        .iter()
        .all(|&(number, most)| 0 < number && number <= most)
}

impl Board {
    /// The refusal of the setup itself: 1 or 10.
    pub fn refused(self) -> Option<u32> {
        if !within(&[(self.n, 8), (self.l, 64), (self.p, 16), (self.m, 256)]) {
            return Some(1);
        }
        (!within(&[(self.f, 32), (self.g, self.f)])).then_some(10)
    }

    /// The block of a variable, and its offset there.
    pub fn home(self, variable: u32) -> (u32, usize) {
        (variable / self.p, (variable % self.p) as usize)
    }

    /// The block that a request is about; a clear is about none.
    pub fn block_of(self, ask: &Ask) -> Option<u32> {
        ask.variable().map(|variable| self.home(variable).0)
    }

    /// The only line in which a block may stand.
    pub fn line(self, block: u32) -> u32 {
        block % self.l
    }

    /// Whether two blocks contend for a line.
    pub fn collide(self, one: u32, other: u32) -> bool {
        self.line(one) == self.line(other)
    }

    /// The refusal of a request for what came in: 3 or 4.
    pub fn refuses(self, ask: &Ask) -> Option<u32> {
        if ask.processor >= self.n {
            return Some(3);
        }
        let variables = u64::from(self.m) * u64::from(self.p);
        (u64::from(ask.variable()?) >= variables).then_some(4)
    }
}

/// A request.
#[derive(Clone, Copy, Debug, PartialEq, Eq)]
pub struct Ask {
    pub processor: u32,
    pub operation: Operation,
}

/// What a request asks for: a read of a variable, a write of a variable with its value, or a clear of
/// the processor's cache.
#[derive(Clone, Copy, Debug, PartialEq, Eq)]
pub enum Operation {
    Read(u32),
    Write(u32, u32),
    Clear,
}

impl Ask {
    pub fn read(processor: u32, variable: u32) -> Ask {
        let operation = Operation::Read(variable);
        Ask {
            processor,
            operation,
        }
    }

    pub fn write(processor: u32, variable: u32, value: u32) -> Ask {
        let operation = Operation::Write(variable, value);
        Ask {
            processor,
            operation,
        }
    }

    pub fn clear(processor: u32) -> Ask {
        let operation = Operation::Clear;
        Ask {
            processor,
            operation,
        }
    }

    fn variable(&self) -> Option<u32> {
        match self.operation {
            Operation::Read(variable) | Operation::Write(variable, _) => Some(variable),
            Operation::Clear => None,
        }
    }

    pub fn writes(&self) -> bool {
        matches!(self.operation, Operation::Write(..))
    }
}
