//! Rival schedules: which are legal for a list of requests, and what they cost.

use super::{Ask, Board};
use std::collections::BTreeMap;

/// One entry of a schedule.
#[derive(Clone, Copy, Debug, PartialEq, Eq)]
pub enum Move {
    Fetch(u32, u32),
    WriteBack(u32, u32),
    Drop(u32, u32),
    Complete,
    Broadcast,
}

/// A rival's copies, by processor and block: whether each is marked.
#[derive(Clone, Debug, PartialEq, Eq)]
pub struct Rival {
    pub board: Board,
    pub copies: BTreeMap<(u32, u32), bool>,
}

impl Rival {
    pub fn empty(board: Board) -> Rival {
        Rival {
            board,
            copies: BTreeMap::new(),
        }
    }

    pub fn holds(&self, i: u32, block: u32) -> bool {
        self.copies.contains_key(&(i, block))
    }

    pub fn holders(&self, block: u32) -> Vec<u32> {
        (0..self.board.n)
            .filter(|&i| self.holds(i, block))
            .collect()
    }

    pub fn blocks_of(&self, i: u32) -> Vec<u32> {
        let held = self.copies.keys().filter(|&&(j, _)| j == i);
        held.map(|&(_, block)| block).collect()
    }

    /// The block that stands in the line of another one.
    pub fn in_the_way(&self, i: u32, block: u32) -> Option<u32> {
        let mut held = self.blocks_of(i).into_iter();
        held.find(|&other| self.board.collide(other, block))
    }

    fn named(&self, i: u32, block: u32) -> Result<(), u32> {
        if i >= self.board.n {
            return Err(3);
        }
        if block >= self.board.m {
            return Err(8);
        }
        Ok(())
    }

    fn fetch(&mut self, i: u32, block: u32) -> Result<u64, u32> {
        self.named(i, block)?;
        if self.in_the_way(i, block).is_some() {
            return Err(23);
        }
        for j in self.holders(block) {
            self.copies.insert((j, block), false);
        }
        self.copies.insert((i, block), false);
        Ok(self.board.f.into())
    }

    fn write_back(&mut self, i: u32, block: u32) -> Result<u64, u32> {
        self.named(i, block)?;
        let dirty = self.copies.get_mut(&(i, block)).ok_or(24u32)?;
        *dirty = false;
        Ok(self.board.g.into())
    }

    fn drop(&mut self, i: u32, block: u32) -> Result<u64, u32> {
        self.named(i, block)?;
        let dirty = *self.copies.get(&(i, block)).ok_or(24u32)?;
        if dirty {
            return Err(25);
        }
        self.copies.remove(&(i, block));
        Ok(0)
    }

    fn complete(&mut self, next: Option<&Ask>, broadcast: bool) -> Result<u64, u32> {
        let ask = next.ok_or(26u32)?;
        if let Some(refusal) = self.board.refuses(ask) {
            return Err(refusal);
        }
        if broadcast && !ask.writes() {
            return Err(9);
        }
        let Some(block) = self.board.block_of(ask) else {
            return match self.blocks_of(ask.processor).is_empty() {
                true => Ok(0),
                false => Err(29),
            };
        };
        if !self.holds(ask.processor, block) {
            return Err(27);
        }
        if !ask.writes() {
            return Ok(0);
        }
        if broadcast || self.holders(block).len() > 1 {
            return Ok(1);
        }
        self.copies.insert((ask.processor, block), true);
        Ok(0)
    }

    /// Plays one entry: its cost, or its refusal. A refused entry changes nothing.
    pub fn play(&mut self, entry: Move, next: Option<&Ask>) -> Result<u64, u32> {
        match entry {
            Move::Fetch(i, block) => self.fetch(i, block),
            Move::WriteBack(i, block) => self.write_back(i, block),
            Move::Drop(i, block) => self.drop(i, block),
            Move::Complete => self.complete(next, false),
            Move::Broadcast => self.complete(next, true),
        }
    }
}

impl Move {
    pub fn completes(self) -> bool {
        matches!(self, Move::Complete | Move::Broadcast)
    }

    pub fn writes_back(self) -> bool {
        matches!(self, Move::WriteBack(..))
    }
}

/// The cost of a schedule and the rival's last copies, or the refusal and its place.
pub fn price(board: Board, schedule: &[Move], asks: &[Ask]) -> Result<(u64, Rival), (u32, usize)> {
    let mut rival = Rival::empty(board);
    let mut left = asks.iter();
    let mut cost = 0;
    for (place, &entry) in schedule.iter().enumerate() {
        let next = match entry.completes() {
            true => left.next(),
            false => None,
        };
        cost += rival
            .play(entry, next)
            .map_err(|refusal| (refusal, place))?;
    }
    match left.next() {
        Some(_) => Err((28, schedule.len())),
        None => Ok((cost, rival)),
    }
}
