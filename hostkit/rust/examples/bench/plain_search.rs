//! The search for the cheapest schedule in plain Rust, with no proof: the yardstick. The same positions
//! and entries, with a binary heap for the next position, up to the first one with all requests
//! completed.

use crate::plain;
use cuzkelor::{Account, Block, Entry, Setup, Tables};
use std::cmp::Reverse;
use std::collections::BinaryHeap;

const POSITIONS: usize = 32_400;

/// Positions with the same number of requests completed: four blocks in six states each.
const LAYER: usize = 1_296;

const WEIGHTS: [usize; 4] = [1, 6, 36, 216];

/// A block's states: in no cache, in one or the other, in both, marked in one or the other.
const NOWHERE: usize = 0;
const BOTH: usize = 3;

fn alone(i: usize) -> usize {
    1 + i
}

fn marked(i: usize) -> usize {
    4 + i
}

fn held(state: usize, i: usize) -> bool {
    state == alone(i) || state == BOTH || state == marked(i)
}

const WRITE: u32 = 1;
const CLEAR: u32 = 2;

/// What is asked for, once the request is checked.
#[derive(Clone, Copy)]
struct Ask {
    processor: usize,
    operation: u32,
    block: usize,
}

/// A schedule of the least cost.
pub struct Cheapest {
    pub entries: Vec<Entry>,
    pub cost: u32,
    pub excess: u32,
}

/// What is kept from one search to the next.
pub struct Search {
    distances: Vec<u32>,
    /// The position before, and the entry there.
    before: Vec<(u32, Entry)>,
    open: BinaryHeap<Reverse<(u32, u32)>>,
}

impl Search {
    pub fn new() -> Search {
        Search {
            distances: vec![u32::MAX; POSITIONS],
            before: vec![(0, Entry::COMPLETE); POSITIONS],
            open: BinaryHeap::new(),
        }
    }

    #[inline]
    fn reach(&mut self, from: usize, cost: u32, entry: Entry, to: usize) {
        if cost < self.distances[to] {
            self.distances[to] = cost;
            self.before[to] = (from as u32, entry);
            self.open.push(Reverse((cost, to as u32)));
        }
    }

    /// Fetches, write-backs and drops.
    #[inline]
    fn moves(&mut self, setup: Setup, at: usize, cost: u32, states: [usize; 4]) {
        let (m, l) = (setup.block_count as usize, setup.lines as usize);
        for i in 0..2 {
            for block in 0..m {
                let state = states[block];
                let with = |new: usize| at - state * WEIGHTS[block] + new * WEIGHTS[block];
                let (processor, named) = (i as u32, Block(block as u32));
                if !held(state, i) {
                    let in_the_way = |other| held(states[other], i) && other % l == block % l;
                    if !(0..m).any(in_the_way) {
                        let new = if state == NOWHERE { alone(i) } else { BOTH };
                        self.reach(
                            at,
                            cost + setup.fetch_price,
                            Entry::fetch(processor, named),
                            with(new),
                        );
                    }
                    continue;
                }
                let dearer = cost + setup.write_back_price;
                let back = Entry::write_back(processor, named);
                if state == marked(i) {
                    self.reach(at, dearer, back, with(alone(i)));
                    continue;
                }
                self.reach(at, dearer, back, at);
                let new = if state == BOTH { alone(1 - i) } else { NOWHERE };
                self.reach(at, cost, Entry::drop(processor, named), with(new));
            }
        }
    }

    #[inline]
    fn completions(&mut self, at: usize, cost: u32, states: [usize; 4], ask: Ask) {
        let (i, next) = (ask.processor, at + LAYER);
        if ask.operation == CLEAR {
            if !states.iter().any(|&state| held(state, i)) {
                self.reach(at, cost, Entry::COMPLETE, next);
            }
            return;
        }
        let (state, weight) = (states[ask.block], WEIGHTS[ask.block]);
        if !held(state, i) {
            return;
        }
        if ask.operation != WRITE {
            return self.reach(at, cost, Entry::COMPLETE, next);
        }
        match state {
            BOTH => self.reach(at, cost + 1, Entry::COMPLETE, next),
            _ => {
                let marked = next - state * weight + marked(i) * weight;
                self.reach(at, cost, Entry::COMPLETE, marked);
            }
        }
        self.reach(at, cost + 1, Entry::COMPLETE_BY_BROADCAST, next);
    }

    /// The first position that is taken from the heap with all requests completed, and its cost.
    fn goal(&mut self, setup: Setup, asks: &[Ask]) -> (usize, u32) {
        self.distances.fill(u32::MAX);
        self.open.clear();
        self.distances[0] = 0;
        self.open.push(Reverse((0, 0)));
        while let Some(Reverse((cost, at))) = self.open.pop() {
            let at = at as usize;
            if cost > self.distances[at] {
                continue;
            }
            let Some(&ask) = asks.get(at / LAYER) else {
                return (at, cost);
            };
            let states = [at % 6, at / 6 % 6, at / 36 % 6, at / 216 % 6];
            self.completions(at, cost, states, ask);
            self.moves(setup, at, cost, states);
        }
        unreachable!("the engine's own actions are legal")
    }

    fn way_to(&self, goal: usize) -> Vec<Entry> {
        let mut entries = Vec::new();
        let mut at = goal;
        while at != 0 {
            let (before, entry) = self.before[at];
            entries.push(entry);
            at = before as usize;
        }
        entries.reverse();
        entries
    }

    /// A schedule of the least cost for requests of four numbers each, or the refusal number.
    pub fn cheapest(&mut self, setup: Setup, requests: &[u32]) -> Result<Cheapest, u32> {
        let asks = checked(setup, requests)?;
        let (goal, cost) = self.goal(setup, &asks);
        Ok(Cheapest {
            entries: self.way_to(goal),
            cost,
            excess: cost - engine_cycles(setup, requests).div_ceil(2),
        })
    }
}

fn checked(setup: Setup, requests: &[u32]) -> Result<Vec<Ask>, u32> {
    if !setup.sizes_in_range() {
        return Err(1);
    }
    if !setup.prices_in_range() {
        return Err(10);
    }
    if setup.processors != 2 || setup.block_count > 4 || requests.len() > 4 * 24 {
        return Err(12);
    }
    let ask = |request: &[u32]| match *request {
        [processor, ..] if processor >= 2 => Err(3),
        [_, operation, variable, _]
            if operation != CLEAR && variable >= setup.block_count * setup.block_words =>
        {
            Err(4)
        }
        _ => Ok(Ask {
            processor: request[0] as usize,
            operation: request[1],
            block: (request[2] / setup.block_words) as usize,
        }),
    };
    requests.chunks_exact(4).map(ask).collect()
}

/// What the plain engine spends.
fn engine_cycles(setup: Setup, requests: &[u32]) -> u32 {
    let mut account = Account::default();
    let mut values = [0; 24];
    let values = &mut values[..requests.len() / 4];
    plain::run(
        setup,
        &mut Tables::sized(setup),
        &mut account,
        requests,
        values,
    );
    account.fetch + account.write_back + account.update
}
