//! The cheapest schedules on two processors and at most four blocks: an exact search over copies and
//! marks as bits.

use super::{Ask, Board, Operation};
use std::cmp::Reverse;
use std::collections::{BinaryHeap, HashMap};

/// A rival's position: the requests completed, and the blocks that each processor holds and has marked,
/// a bit for each.
#[derive(Clone, Copy, Debug, Default, PartialEq, Eq, PartialOrd, Ord, Hash)]
struct Position {
    done: usize,
    held: [u8; 2],
    marked: [u8; 2],
}

impl Position {
    fn holds(self, i: usize, bit: u8) -> bool {
        self.held[i] & bit != 0
    }

    /// Whether a processor has a block in the line of this one.
    fn in_line(self, board: Board, i: usize, block: u32) -> bool {
        (0..board.m).any(|other| self.holds(i, 1 << other) && board.collide(other, block))
    }

    /// After a fetch of a block that is not held: nobody has it marked any more.
    fn fetched(mut self, i: usize, bit: u8) -> Position {
        self.held[i] |= bit;
        self.marked = self.marked.map(|marks| marks & !bit);
        self
    }

    fn written_back(mut self, i: usize, bit: u8) -> Position {
        self.marked[i] &= !bit;
        self
    }

    fn dropped(mut self, i: usize, bit: u8) -> Position {
        self.held[i] &= !bit;
        self
    }

    /// With the next request completed.
    fn completed(mut self) -> Position {
        self.done += 1;
        self
    }

    fn written(mut self, i: usize, bit: u8) -> Position {
        self.marked[i] |= bit;
        self.completed()
    }
}

/// Where fetches, write-backs and drops of one block by one processor lead, with their costs.
fn moves(board: Board, from: Position, i: usize, block: u32) -> Vec<(u32, Position)> {
    let bit = 1 << block;
    if !from.in_line(board, i, block) {
        return vec![(board.f, from.fetched(i, bit))];
    }
    if !from.holds(i, bit) {
        return Vec::new();
    }
    match from.marked[i] & bit {
        0 => vec![(0, from.dropped(i, bit))],
        _ => vec![(board.g, from.written_back(i, bit))],
    }
}

/// Where completing the next request leads, by broadcast or not.
fn completions(board: Board, from: Position, ask: &Ask) -> Vec<(u32, Position)> {
    let i = ask.processor as usize;
    let bit = board.block_of(ask).map_or(0, |block| 1 << block);
    match ask.operation {
        Operation::Clear if from.held[i] != 0 => Vec::new(),
        Operation::Clear => vec![(0, from.completed())],
        _ if !from.holds(i, bit) => Vec::new(),
        Operation::Read(_) => vec![(0, from.completed())],
        Operation::Write(..) if from.holds(1 - i, bit) => vec![(1, from.completed())],
        Operation::Write(..) => vec![(0, from.written(i, bit)), (1, from.completed())],
    }
}

/// Where the legal entries of a position lead. A write-back of an unmarked block, which changes
/// nothing, is left out.
fn reached(board: Board, from: Position, asks: &[Ask]) -> Vec<(u32, Position)> {
    let next = asks.get(from.done);
    let mut reached = next.map_or(Vec::new(), |ask| completions(board, from, ask));
    for i in 0..2 {
        for block in 0..board.m {
            reached.append(&mut moves(board, from, i, block));
        }
    }
    reached
}

/// The least cost of a legal schedule.
pub fn least_cost(board: Board, asks: &[Ask]) -> u32 {
    let mut known = HashMap::from([(Position::default(), 0)]);
    let mut open = BinaryHeap::from([Reverse((0, Position::default()))]);
    while let Some(Reverse((cost, from))) = open.pop() {
        if from.done == asks.len() {
            return cost;
        }
        if cost > known[&from] {
            continue;
        }
        for (step, to) in reached(board, from, asks) {
            let old = known.entry(to).or_insert(u32::MAX);
            if cost + step < *old {
                *old = cost + step;
                open.push(Reverse((cost + step, to)));
            }
        }
    }
    unreachable!("the engine's own actions are legal")
}
