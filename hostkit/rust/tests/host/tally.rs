//! How often each kind of thing occurred: refusal numbers, 0 for what was not refused, or others.

use crate::model::{Ask, Board, Caches, Operation};
use std::cmp::Ordering;
use std::collections::BTreeMap;
use std::fmt::Debug;

pub struct Tally<Kind = u32>(BTreeMap<Kind, usize>);

impl<Kind> Default for Tally<Kind> {
    fn default() -> Tally<Kind> {
        Tally(BTreeMap::new())
    }
}

impl<Kind: Ord + Copy + Debug> Tally<Kind> {
    pub fn count(&mut self, kind: Kind) {
        *self.0.entry(kind).or_default() += 1;
    }

    /// Prints the counts in one line, and asserts that each kind that can occur did occur, and no
    /// other one.
    pub fn close(&self, name: &str, can_occur: &[Kind]) {
        println!("{name}: counts {:?}", self.0);
        let occurred: Vec<Kind> = self.0.keys().copied().collect();
        assert_eq!(occurred, can_occur, "{name}: what occurred");
    }
}

/// How the prices stand to the words of a block and to one another.
#[derive(Default)]
pub struct Prices(Tally<&'static str>);

impl Prices {
    pub fn count(&mut self, board: Board) {
        self.0.count(match board.f.cmp(&board.p) {
            Ordering::Less => "f below p",
            Ordering::Equal => "f equal to p",
            Ordering::Greater => "f above p",
        });
        self.0.count(match board.g < board.f {
            true => "g below f",
            false => "g equal to f",
        });
    }

    /// Every relation occurred.
    pub fn close(&self, name: &str) {
        let all = [
            "f above p",
            "f below p",
            "f equal to p",
            "g below f",
            "g equal to f",
        ];
        self.0.close(name, &all);
    }
}

/// What the caches held that were cleared.
#[derive(Default)]
pub struct Clears(Tally<&'static str>);

impl Clears {
    /// Counts the clears of a list that empty caches take.
    pub fn count(&mut self, board: Board, asks: &[Ask]) {
        let mut caches = Caches::fresh(board);
        for ask in asks {
            if ask.operation == Operation::Clear {
                self.0.count(held(&caches, ask.processor));
            }
            caches.serve(ask);
        }
    }

    /// Every kind occurred.
    pub fn close(&self, name: &str) {
        let all = [
            "no block",
            "no marked block",
            "one marked block",
            "several marked blocks",
        ];
        self.0.close(name, &all);
    }
}

fn held(caches: &Caches, i: u32) -> &'static str {
    let marked = |&block: &u32| caches.copies[&(i, block)].dirty;
    let counts = (
        caches.blocks_of(i).count(),
        caches.blocks_of(i).filter(marked).count(),
    );
    match counts {
        (0, _) => "no block",
        (_, 0) => "no marked block",
        (_, 1) => "one marked block",
        _ => "several marked blocks",
    }
}
