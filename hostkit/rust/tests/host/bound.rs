//! The claim against the cheapest schedules there are, found by search on tiny setups.

use crate::draw::Draw;
use crate::lend;
use crate::model::{Ask, Board, Caches, Ledger, Move, Rival};
use crate::rivals::{accepted_cost, engine_moves, Closeness};
use crate::tally::{Clears, Prices};
use cuzkelor::{best, ENOUGH_STEPS};
use std::collections::{BTreeMap, BTreeSet};

/// A rival's position: its copies, and the requests completed.
type Position = (BTreeMap<(u32, u32), bool>, usize);

/// The least cost known of each position, and the entry and position that it comes from.
type Best = BTreeMap<Position, (u64, Option<(Move, Position)>)>;

fn entries(board: Board) -> Vec<Move> {
    let mut entries = vec![Move::Complete, Move::Broadcast];
    for i in 0..board.n {
        for block in 0..board.m {
            entries.push(Move::Fetch(i, block));
            entries.push(Move::WriteBack(i, block));
            entries.push(Move::Drop(i, block));
        }
    }
    entries
}

/// What of an entry's cost a search counts.
type Counted = fn(Move, u64) -> u64;

fn all(_: Move, cost: u64) -> u64 {
    cost
}

fn fetch_and_update(entry: Move, cost: u64) -> u64 {
    match entry.writes_back() {
        true => 0,
        false => cost,
    }
}

/// The positions that one legal entry reaches, with their costs.
fn reached(
    board: Board,
    counted: Counted,
    from: &Position,
    asks: &[Ask],
) -> Vec<(u64, Move, Position)> {
    let (copies, done) = from;
    let mut reached = Vec::new();
    for entry in entries(board) {
        let mut rival = Rival {
            board,
            copies: copies.clone(),
        };
        if let Ok(cost) = rival.play(entry, asks.get(*done)) {
            let done = done + usize::from(entry.completes());
            reached.push((counted(entry, cost), entry, (rival.copies, done)));
        }
    }
    reached
}

/// A schedule whose counted cost is least: positions are closed in the order of that cost.
fn cheapest(board: Board, counted: Counted, asks: &[Ask]) -> Vec<Move> {
    let start: Position = (BTreeMap::new(), 0);
    let mut open: BTreeSet<(u64, Position)> = [(0, start.clone())].into();
    let mut best: Best = [(start, (0, None))].into();
    let end = loop {
        let (cost, position) = open
            .pop_first()
            .expect("the engine's own actions are legal");
        if position.1 == asks.len() {
            break position;
        }
        for (step, entry, next) in reached(board, counted, &position, asks) {
            let known = best.get(&next).map_or(u64::MAX, |found| found.0);
            if cost + step < known {
                open.remove(&(known, next.clone()));
                open.insert((cost + step, next.clone()));
                best.insert(next, (cost + step, Some((entry, position.clone()))));
            }
        }
    };
    way_to(&best, end)
}

fn way_to(best: &Best, end: Position) -> Vec<Move> {
    let mut moves = Vec::new();
    let mut at = &end;
    while let Some((entry, before)) = &best[at].1 {
        moves.push(*entry);
        at = before;
    }
    moves.reverse();
    moves
}

/// What a run from started tables spends.
pub fn bill(board: Board, asks: &[Ask]) -> Ledger {
    let mut bill = Ledger::default();
    Caches::fresh(board).run(&mut bill, asks, &mut vec![0; asks.len()]);
    bill
}

#[test]
fn cheapest_schedules() {
    let mut draw = Draw::for_test("cheapest schedules");
    let (mut closeness, mut prices) = (Closeness::default(), Prices::default());
    let mut clears = Clears::default();
    for _ in 0..600 {
        let f = draw.within(1, 4);
        let board = Board {
            n: draw.within(2, 3),
            l: draw.within(1, 2),
            p: draw.within(1, 3),
            m: draw.within(1, 3),
            f,
            g: draw.within(1, f),
        };
        prices.count(board);
        let count = draw.index(13);
        let asks = match draw.chance(50) {
            true => draw.asks(board, count),
            false => draw.bursts(board, count),
        };
        clears.count(board, &asks);
        let bill = bill(board, &asks);
        let [least, least_but_write_backs] = [all, fetch_and_update].map(|counted: Counted| {
            let moves = cheapest(board, counted, &asks);
            accepted_cost(&mut draw, board, &moves, &asks)
        });
        assert!(
            least.cycles <= bill.cycles(),
            "the engine's own actions are no cheaper"
        );
        assert!(least_but_write_backs.fetch_and_update <= bill.fetch + bill.update);
        if board.n == 2 {
            let (setup, requests) = (lend::setup(board), lend::requests(&asks));
            let found = best(setup, &requests, ENOUGH_STEPS).expect("searchable");
            assert_eq!((u64::from(found.cost), found.least), (least.cycles, true));
        }
        closeness.hold(bill, least);
        closeness.hold(bill, least_but_write_backs);
    }
    closeness.print("cheapest schedules");
    prices.close("cheapest schedules");
    clears.close("cheapest schedules");
}

/// The engine's own actions are a legal schedule at its own bill.
#[test]
fn engine_as_a_rival() {
    let mut draw = Draw::for_test("engine as a rival");
    let mut clears = Clears::default();
    for _ in 0..1_000 {
        let board = draw.board();
        let count = draw.index(120);
        let asks = draw.asks(board, count);
        clears.count(board, &asks);
        let moves = engine_moves(board, &asks);
        let cost = accepted_cost(&mut draw, board, &moves, &asks);
        let bill = bill(board, &asks);
        assert_eq!(cost.cycles, bill.cycles(), "on {board:?} for {asks:?}");
        assert_eq!(cost.fetch_and_update, bill.fetch + bill.update);
    }
    clears.close("engine as a rival");
}
