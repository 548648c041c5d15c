//! Boards that are run list after list, beside the model, and several of them at once.

use crate::draw::Draw;
use crate::lend;
use crate::model::{shown, Ask, Caches, Ledger};
use crate::tally::Tally;
use cuzkelor::{Block, Board, Refusal, Request, Setup, Variable, TRACE_SETUP};
use std::thread;

/// One board with its facts.
struct Pair {
    board: Board,
    caches: Caches,
    ledger: Ledger,
}

impl Pair {
    fn new(draw: &mut Draw) -> Pair {
        let caches = Caches::fresh(draw.board());
        Pair {
            board: Board::new(lend::setup(caches.board)).expect("in range"),
            caches,
            ledger: Ledger::default(),
        }
    }

    /// One list on both; the common refusal, or 0.
    fn run(&mut self, asks: &[Ask]) -> u32 {
        let mut values = vec![0; asks.len()];
        let outcome = self.caches.run(&mut self.ledger, asks, &mut values);
        match self.board.run(&lend::requests(asks)) {
            Ok(supplied) => assert_eq!((supplied, 0), (values, outcome.refusal)),
            Err(error) => {
                assert_eq!(error.refusal.number(), outcome.refusal);
                assert_eq!((error.taken, error.place), (outcome.taken, outcome.place));
            }
        }
        self.compare();
        outcome.refusal
    }

    fn compare(&self) {
        assert_eq!(self.board.tables(), &shown(&self.caches));
        assert_eq!(self.board.account(), lend::account(self.ledger));
        for i in 0..self.caches.board.n {
            for block in 0..self.caches.board.m {
                let copy = self.caches.copies.get(&(i, block));
                let words = copy.map_or(&[][..], |copy| &copy.words);
                assert_eq!(self.board.look(i, Block(block)), words);
            }
        }
    }
}

#[test]
fn list_after_list() {
    let mut draw = Draw::for_test("boards");
    let mut tally = Tally::default();
    for _ in 0..500 {
        let mut pair = Pair::new(&mut draw);
        for _ in 0..draw.below(6) {
            let count = draw.index(50);
            let mut asks = draw.asks(pair.caches.board, count);
            if draw.chance(30) {
                draw.spoil(pair.caches.board, &mut asks);
            }
            tally.count(pair.run(&asks));
        }
    }
    tally.close("boards", &[0, 3, 4]);
}

/// The account of a board fills up: the last list is refused at its second request.
#[test]
fn a_full_account() {
    let mut board = Board::new(TRACE_SETUP).expect("in range");
    let request = Request::read(0, Variable(9));
    board.run(&vec![request; 999_999]).expect("taken");
    let mut values = [5; 3];
    let error = board.run_into(&[request; 3], &mut values).expect_err("22");
    let stopped = (error.refusal, error.taken, error.place);
    assert_eq!(stopped, (Refusal::AccountFull, 1, 1));
    assert_eq!(values, [0, 5, 5]);
    assert_eq!(board.account().requests, 1_000_000);
    assert_eq!(board.account().total(), 4);
}

#[test]
fn values_of_another_length() {
    let mut board = Board::new(TRACE_SETUP).expect("in range");
    let before = board.clone();
    let request = Request::write(0, Variable(9), 1);
    let error = board.run_into(&[request; 2], &mut [5; 3]).expect_err("2");
    let stopped = (error.refusal, error.taken, error.place);
    assert_eq!(stopped, (Refusal::WrongLength, 0, 0));
    assert_eq!(board, before);
}

#[test]
fn a_setup_out_of_range() {
    let setup = Setup {
        lines: 65,
        ..TRACE_SETUP
    };
    assert_eq!(Board::new(setup), Err(Refusal::SetupOutOfRange));
    let setup = Setup {
        write_back_price: 5,
        ..TRACE_SETUP
    };
    assert_eq!(Board::new(setup), Err(Refusal::PriceOutOfRange));
}

/// A board after some random lists.
fn after_lists(seed: u32) -> Board {
    let mut draw = Draw::for_test(&format!("thread {seed}"));
    let mut pair = Pair::new(&mut draw);
    for _ in 0..20 {
        let asks = draw.asks(pair.caches.board, 50);
        pair.run(&asks);
    }
    pair.board
}

#[test]
fn several_at_once() {
    let threads: Vec<_> = (0..8)
        .map(|seed| thread::spawn(move || after_lists(seed)))
        .collect();
    for (seed, thread) in (0..).zip(threads) {
        assert_eq!(thread.join().expect("no panic"), after_lists(seed));
    }
}
