//! The engine: what one request does, rule by rule, and a run.

use super::{Ask, Board, Operation};
use std::collections::BTreeMap;

/// One processor's copy of one block.
#[derive(Clone, Debug, PartialEq, Eq)]
pub struct Copy {
    pub counter: u32,
    pub dirty: bool,
    pub words: Vec<u32>,
}

/// Who holds what, by processor and block, and main memory by block.
#[derive(Clone, Debug, PartialEq, Eq)]
pub struct Caches {
    pub board: Board,
    pub copies: BTreeMap<(u32, u32), Copy>,
    pub memory: BTreeMap<u32, Vec<u32>>,
}

/// An account, in numbers that no sum or product here can leave.
#[derive(Clone, Copy, Debug, Default, PartialEq, Eq)]
pub struct Ledger {
    pub requests: u64,
    pub fetch: u64,
    pub write_back: u64,
    pub update: u64,
}

impl Ledger {
    pub fn cycles(self) -> u64 {
        self.fetch + self.write_back + self.update
    }

    /// Condition 21.
    pub fn impossible(self, board: Board) -> bool {
        let most = |cycles: u32| u64::from(cycles) * self.requests;
        self.fetch > most(board.f)
            || self.write_back > most(board.g * board.l)
            || self.update > most(1)
    }
}

/// What a run answers; the refusal is 0 for none.
#[derive(Clone, Copy, Debug, PartialEq, Eq)]
pub struct Outcome {
    pub taken: usize,
    pub refusal: u32,
    pub place: usize,
}

impl Outcome {
    /// A refusal before the first request.
    pub fn at_once(refusal: u32) -> Outcome {
        Outcome {
            taken: 0,
            refusal,
            place: 0,
        }
    }
}

impl Caches {
    pub fn fresh(board: Board) -> Caches {
        let zeros = vec![0; board.p as usize];
        Caches {
            board,
            copies: BTreeMap::new(),
            memory: (0..board.m).map(|block| (block, zeros.clone())).collect(),
        }
    }

    pub fn holders(&self, block: u32) -> impl Iterator<Item = u32> + '_ {
        (0..self.board.n).filter(move |&i| self.copies.contains_key(&(i, block)))
    }

    pub fn blocks_of(&self, i: u32) -> impl Iterator<Item = u32> + '_ {
        self.copies
            .range((i, 0)..=(i, u32::MAX))
            .map(|(&(_, block), _)| block)
    }

    fn save(&mut self, i: u32, block: u32) {
        let copy = self.copies.get_mut(&(i, block)).expect("held");
        copy.dirty = false;
        self.memory.insert(block, copy.words.clone());
    }

    /// Rule 1.
    fn make_room(&mut self, i: u32, block: u32, bill: &mut Ledger) {
        let in_the_way = self
            .blocks_of(i)
            .find(|&other| self.board.collide(other, block));
        if let Some(old) = in_the_way {
            self.evict(i, old, bill);
        }
    }

    fn evict(&mut self, i: u32, block: u32, bill: &mut Ledger) {
        if self.copies[&(i, block)].dirty {
            self.save(i, block);
            bill.write_back += u64::from(self.board.g);
        }
        self.copies.remove(&(i, block));
    }

    fn clear(&mut self, i: u32, bill: &mut Ledger) {
        for block in self.blocks_of(i).collect::<Vec<_>>() {
            self.evict(i, block, bill);
        }
    }

    /// Rule 2.
    fn fetch(&mut self, i: u32, block: u32, bill: &mut Ledger) {
        let owner = self
            .holders(block)
            .find(|&j| self.copies[&(j, block)].dirty);
        if let Some(j) = owner {
            self.save(j, block);
        }
        let copy = Copy {
            counter: self.board.f,
            dirty: false,
            words: self.memory[&block].clone(),
        };
        self.copies.insert((i, block), copy);
        bill.fetch += u64::from(self.board.f);
    }

    /// Rules 4 and 5.
    fn write(&mut self, i: u32, block: u32, offset: usize, value: u32, bill: &mut Ledger) {
        let others: Vec<u32> = self.holders(block).filter(|&j| j != i).collect();
        let weakest = others
            .iter()
            .copied()
            .min_by_key(|&j| (self.copies[&(j, block)].counter, j));
        let own = self.copies.get_mut(&(i, block)).expect("held");
        own.counter = self.board.f;
        own.words[offset] = value;
        let Some(payer) = weakest else {
            own.dirty = true;
            return;
        };
        for j in others {
            self.copies.get_mut(&(j, block)).expect("held").words[offset] = value;
        }
        self.memory.get_mut(&block).expect("in range")[offset] = value;
        bill.update += 1;
        self.pay(payer, block);
    }

    fn pay(&mut self, payer: u32, block: u32) {
        let copy = self.copies.get_mut(&(payer, block)).expect("held");
        copy.counter -= 1;
        if copy.counter == 0 {
            self.copies.remove(&(payer, block));
        }
    }

    /// The block of a variable, now held, and the offset there.
    fn obtain(&mut self, i: u32, variable: u32, bill: &mut Ledger) -> (u32, usize) {
        let (block, offset) = self.board.home(variable);
        if !self.copies.contains_key(&(i, block)) {
            self.make_room(i, block, bill);
            self.fetch(i, block, bill);
        }
        (block, offset)
    }

    /// One request that is not refused: the value supplied or written, for a clear 0, and the cycles.
    pub fn serve(&mut self, ask: &Ask) -> (u32, Ledger) {
        let i = ask.processor;
        let mut bill = Ledger {
            requests: 1,
            ..Ledger::default()
        };
        let value = match ask.operation {
            Operation::Read(variable) => {
                let (block, offset) = self.obtain(i, variable, &mut bill);
                self.copies[&(i, block)].words[offset]
            }
            Operation::Write(variable, value) => {
                let (block, offset) = self.obtain(i, variable, &mut bill);
                self.write(i, block, offset, value, &mut bill);
                value
            }
            Operation::Clear => {
                self.clear(i, &mut bill);
                0
            }
        };
        (value, bill)
    }

    /// A run on sound tables and a possible account: conditions 3, 4 and 22 at each request.
    pub fn run(&mut self, account: &mut Ledger, asks: &[Ask], values: &mut [u32]) -> Outcome {
        for (place, ask) in asks.iter().enumerate() {
            let full = (account.requests >= 1_000_000).then_some(22);
            if let Some(refusal) = self.board.refuses(ask).or(full) {
                return Outcome {
                    taken: place,
                    refusal,
                    place,
                };
            }
            let (value, bill) = self.serve(ask);
            values[place] = value;
            account.requests += bill.requests;
            account.fetch += bill.fetch;
            account.write_back += bill.write_back;
            account.update += bill.update;
        }
        Outcome {
            taken: asks.len(),
            refusal: 0,
            place: 0,
        }
    }
}
