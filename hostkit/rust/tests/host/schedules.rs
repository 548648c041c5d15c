//! Random schedules, legal and not: the answer, the cost and the three tables compared.

use crate::draw::Draw;
use crate::lend;
use crate::model::{price, rival_shown, sizes, Ask, Board, Move, Rival};
use crate::rivals::any_legal;
use crate::tally::{Prices, Tally};
use cuzkelor::{raw, Entry, Request, RivalTables};
use std::fmt;

/// What the pricer is asked, whatever came in.
struct Question {
    board: Board,
    moves: Vec<Move>,
    asks: Vec<Ask>,
}

/// Its two lists as numbers: the schedule's entries and the requests.
type Numbers = (Vec<u32>, Vec<u32>);

/// An answer with all that a call of the archive writes.
#[derive(Debug, PartialEq)]
struct Told {
    refusal: u32,
    place: usize,
    cost: u32,
    tables: RivalTables,
}

impl fmt::Display for Question {
    fn fmt(&self, f: &mut fmt::Formatter<'_>) -> fmt::Result {
        let some_asks = &self.asks[..self.asks.len().min(100)];
        let some_moves = &self.moves[..self.moves.len().min(300)];
        write!(f, "{:?} {some_asks:?} {some_moves:?}", self.board)
    }
}

impl Question {
    /// The numbers of the records.
    fn numbers(&self) -> Numbers {
        let (schedule, requests) = (lend::schedule(&self.moves), lend::requests(&self.asks));
        let (entries, requests) = (Entry::numbers(&schedule), Request::numbers(&requests));
        (entries.to_vec(), requests.to_vec())
    }

    /// Other numbers with the same meaning.
    fn odd_numbers(&self, draw: &mut Draw) -> Numbers {
        let schedule = lend::odd_schedule(draw, &self.moves);
        (schedule, lend::odd_requests(draw, &self.asks))
    }

    fn refused_at_once(&self, tables: &RivalTables) -> Option<u32> {
        if let Some(refusal) = self.board.refused() {
            return Some(refusal);
        }
        let (lines, _, _) = sizes(self.board);
        let lengths = [tables.blocks.len(), tables.held.len(), tables.marks.len()];
        if lengths != [lines; 3] {
            return Some(2);
        }
        (self.asks.len() > 1_000_000 || self.moves.len() > 4_000_000).then_some(5)
    }

    fn expected(&self, tables: &RivalTables) -> Told {
        let mut told = Told {
            refusal: 0,
            place: 0,
            cost: 0,
            tables: tables.clone(),
        };
        if let Some(refusal) = self.refused_at_once(tables) {
            return Told { refusal, ..told };
        }
        match price(self.board, &self.moves, &self.asks) {
            Ok((cost, rival)) => {
                told.cost = cost.try_into().expect("a cost of 32 bits");
                told.tables = rival_shown(&rival);
            }
            Err((refusal, place)) => {
                (told.refusal, told.place) = (refusal, place);
                told.tables = rival_shown(&Rival::empty(self.board));
            }
        }
        told
    }
}

/// Calls the archive itself, with out-parameters that hold anything before.
fn raw_price(board: Board, tables: RivalTables, numbers: &Numbers) -> Told {
    let (entries, requests) = numbers;
    let mut told = Told {
        refusal: 0,
        place: 0x5555,
        cost: 0xaaaa,
        tables,
    };
    // SAFETY: owned buffers with their lengths, apart from each other.
    told.refusal = unsafe {
        raw::cuzkelor_price(
            board.n,
            board.l,
            board.p,
            board.m,
            board.f,
            board.g,
            told.tables.blocks.as_mut_ptr(),
            told.tables.blocks.len(),
            told.tables.held.as_mut_ptr(),
            told.tables.held.len(),
            told.tables.marks.as_mut_ptr(),
            told.tables.marks.len(),
            entries.as_ptr(),
            entries.len(),
            requests.as_ptr(),
            requests.len(),
            &mut told.place,
            &mut told.cost,
        )
    };
    told
}

/// What the safe function says, in the same words.
fn safe_price(question: &Question, mut tables: RivalTables) -> Told {
    let setup = lend::setup(question.board);
    let (schedule, requests) = (&question.moves, &question.asks);
    let (schedule, requests) = (lend::schedule(schedule), lend::requests(requests));
    let (refusal, place, cost) = match cuzkelor::price(setup, &mut tables, &schedule, &requests) {
        Ok(cost) => (0, 0, cost),
        Err(error) => (error.refusal.number(), error.place, 0),
    };
    Told {
        refusal,
        place,
        cost,
        tables,
    }
}

/// Asks both functions, the archive in these numbers, and compares; the common refusal.
fn compared(question: &Question, tables: RivalTables, numbers: &Numbers) -> u32 {
    let expected = question.expected(&tables);
    let told = raw_price(question.board, tables.clone(), numbers);
    assert_eq!(told, expected, "the archive, to {question}");
    let told = safe_price(question, tables);
    assert_eq!(told, expected, "the safe function, to {question}");
    expected.refusal
}

/// Asks the archive in numbers that are no whole list of entries or of requests, and gives its
/// refusal: nothing changes.
fn refused_cut(draw: &mut Draw, board: Board, tables: RivalTables, numbers: &Numbers) -> u32 {
    let (mut entries, mut requests) = numbers.clone();
    let which = draw.below(3);
    if which != 1 {
        lend::cut_record(draw, &mut entries, 3);
    }
    if which != 0 {
        lend::cut_record(draw, &mut requests, 4);
    }
    let told = raw_price(board, tables.clone(), &(entries, requests));
    let expected = Told {
        refusal: board.refused().unwrap_or(2),
        place: 0,
        cost: 0,
        tables,
    };
    assert_eq!(
        told, expected,
        "numbers that are no whole list on {board:?}"
    );
    told.refusal
}

fn any_entry(draw: &mut Draw, board: Board) -> Move {
    let i = match draw.chance(90) {
        true => draw.below(board.n),
        false => draw.pick(&[board.n, board.n + 1, u32::MAX]),
    };
    let block = match draw.chance(90) {
        true => draw.below(board.m),
        false => draw.pick(&[board.m, board.m + 1, u32::MAX]),
    };
    match draw.below(5) {
        0 => Move::Fetch(i, block),
        1 => Move::WriteBack(i, block),
        2 => Move::Drop(i, block),
        3 => Move::Complete,
        _ => Move::Broadcast,
    }
}

/// Changes one entry, takes one out, puts one in, or cuts the end off.
fn mutate(draw: &mut Draw, board: Board, moves: &mut Vec<Move>) {
    let at = draw.index(moves.len() + 1);
    let entry = any_entry(draw, board);
    match draw.below(5) {
        0 => moves.truncate(at),
        1 if at < moves.len() => moves[at] = entry,
        2 if at < moves.len() => {
            moves.remove(at);
        }
        3 if at < moves.len() && moves[at].completes() => moves[at] = Move::Broadcast,
        _ => moves.insert(at, entry),
    }
}

fn question(draw: &mut Draw) -> Question {
    let board = match draw.chance(50) {
        true => draw.tiny_board(),
        false => draw.board(),
    };
    let count = draw.index(40);
    let mut asks = draw.asks(board, count);
    let mut moves = any_legal(draw, board, &asks);
    if draw.chance(60) {
        for _ in 0..draw.within(1, 3) {
            mutate(draw, board, &mut moves);
        }
    }
    if draw.chance(15) {
        draw.spoil(board, &mut asks);
    }
    if draw.chance(5) {
        moves = (0..draw.below(6)).map(|_| any_entry(draw, board)).collect();
    }
    Question { board, moves, asks }
}

fn disturb_lengths(draw: &mut Draw, tables: &mut RivalTables) {
    let table = match draw.below(3) {
        0 => &mut tables.blocks,
        1 => &mut tables.held,
        _ => &mut tables.marks,
    };
    let length = draw.wrong_length(table.len());
    table.resize(length, 3);
}

#[test]
fn random_schedules() {
    let mut draw = Draw::for_test("random schedules");
    let (mut tally, mut prices) = (Tally::default(), Prices::default());
    for _ in 0..30_000 {
        let mut question = question(&mut draw);
        prices.count(question.board);
        let mut tables = lend::rival_garbage(&mut draw, question.board);
        if draw.chance(3) {
            disturb_lengths(&mut draw, &mut tables);
        }
        if draw.chance(3) {
            question.board = draw.board_out_of_range(question.board);
        }
        let numbers = question.odd_numbers(&mut draw);
        tally.count(match draw.chance(3) {
            true => refused_cut(&mut draw, question.board, tables, &numbers),
            false => compared(&question, tables, &numbers),
        });
    }
    too_many(&mut draw, &mut tally);
    prices.close("random schedules");
    let can_occur = [0, 1, 2, 3, 4, 5, 8, 9, 10, 23, 24, 25, 26, 27, 28, 29];
    tally.close("random schedules", &can_occur);
}

/// Lists over the pricer's limits: 1, 10 and 2, also for numbers that are no whole list, come before
/// 5, and 5 before anything in the lists.
fn too_many(draw: &mut Draw, tally: &mut Tally) {
    for (requests, entries) in [(1_000_001, 0), (0, 4_000_001), (1_000_001, 4_000_001)] {
        let mut question = Question {
            board: draw.board(),
            moves: vec![Move::Drop(9, 999); entries],
            asks: vec![Ask::read(9, 0); requests],
        };
        let numbers = question.numbers();
        let mut tables = lend::rival_garbage(draw, question.board);
        let over = compared(&question, tables.clone(), &numbers);
        let cut = refused_cut(draw, question.board, tables.clone(), &numbers);
        disturb_lengths(draw, &mut tables);
        let wrong_lengths = compared(&question, tables.clone(), &numbers);
        question.board = draw.prices_out_of_range(question.board);
        let prices = compared(&question, tables.clone(), &numbers);
        question.board = draw.sizes_out_of_range(question.board);
        let sizes = compared(&question, tables, &numbers);
        assert_eq!([over, cut, wrong_lengths, prices, sizes], [5, 2, 2, 10, 1]);
        tally.count(over);
    }
}

/// A schedule, the requests, and the cost or the refusal with its place.
type Case = (Vec<Move>, Vec<Ask>, Result<u32, (u32, usize)>);

/// Cases with 2 processors, 2 lines, 3 words in a block, 5 blocks, a fetch at 4 cycles and a
/// write-back at 1.
fn cases() -> Vec<Case> {
    use Move::*;
    let (read, write, clear) = (Ask::read(0, 0), Ask::write(0, 0, 1), Ask::clear(0));
    let served = |rest: &[Move]| [&[Fetch(0, 0), Complete], rest].concat();
    vec![
        (vec![], vec![], Ok(0)),
        (vec![], vec![Ask::read(9, 99)], Err((28, 0))),
        (vec![Fetch(2, 5)], vec![], Err((3, 0))),
        (vec![Fetch(1, 5)], vec![], Err((8, 0))),
        (vec![Drop(2, 5)], vec![], Err((3, 0))),
        (vec![WriteBack(0, 5)], vec![], Err((8, 0))),
        (vec![Fetch(0, 1), Fetch(0, 1)], vec![], Err((23, 1))),
        (vec![Fetch(0, 1), Fetch(0, 3)], vec![], Err((23, 1))),
        (vec![Fetch(0, 1), Fetch(0, 5)], vec![], Err((8, 1))),
        (vec![Fetch(0, 1), Fetch(1, 3)], vec![], Ok(8)),
        (vec![Fetch(0, 1), Drop(0, 3)], vec![], Err((24, 1))),
        (vec![WriteBack(0, 0)], vec![], Err((24, 0))),
        (vec![Fetch(0, 0), WriteBack(0, 0)], vec![], Ok(5)),
        (vec![Complete], vec![], Err((26, 0))),
        (vec![Broadcast], vec![Ask::read(2, 15)], Err((3, 0))),
        (vec![Broadcast], vec![Ask::read(1, 15)], Err((4, 0))),
        (vec![Broadcast], vec![read], Err((9, 0))),
        (vec![Complete], vec![read], Err((27, 0))),
        (vec![Fetch(1, 0), Complete], vec![read], Err((27, 1))),
        (served(&[]), vec![read, read], Err((28, 2))),
        (served(&[Drop(0, 0)]), vec![read], Ok(4)),
        (served(&[Drop(0, 0)]), vec![write], Err((25, 2))),
        (
            served(&[Broadcast, Drop(0, 0)]),
            vec![write; 2],
            Err((25, 3)),
        ),
        (served(&[Fetch(1, 0), Drop(0, 0)]), vec![write], Ok(8)),
        (served(&[WriteBack(0, 0), Drop(0, 0)]), vec![write], Ok(5)),
        (vec![Fetch(0, 0), Broadcast, Drop(0, 0)], vec![write], Ok(5)),
        (vec![Fetch(0, 0), Fetch(1, 0), Complete], vec![write], Ok(9)),
        (vec![Complete], vec![clear], Ok(0)),
        (vec![Complete; 2], vec![clear], Err((26, 1))),
        (vec![], vec![clear], Err((28, 0))),
        (vec![Complete], vec![Ask::clear(2)], Err((3, 0))),
        (vec![Broadcast], vec![Ask::clear(2)], Err((3, 0))),
        (vec![Broadcast], vec![clear], Err((9, 0))),
        (vec![Fetch(0, 0), Broadcast], vec![clear], Err((9, 1))),
        (served(&[Complete]), vec![read, clear], Err((29, 2))),
        (served(&[Complete]), vec![write, clear], Err((29, 2))),
        (served(&[Drop(0, 0), Complete]), vec![read, clear], Ok(4)),
        (
            served(&[WriteBack(0, 0), Complete]),
            vec![write, clear],
            Err((29, 3)),
        ),
        (
            served(&[WriteBack(0, 0), Drop(0, 0), Complete]),
            vec![write, clear],
            Ok(5),
        ),
        (
            served(&[Complete, Drop(0, 0)]),
            vec![write, Ask::clear(1)],
            Err((25, 3)),
        ),
        (
            served(&[Fetch(0, 3), WriteBack(0, 0), Drop(0, 0), Complete]),
            vec![write, clear],
            Err((29, 5)),
        ),
    ]
}

/// The order of the conditions at one entry, and what is not refused.
#[test]
fn conditions_in_order() {
    let board = Board {
        n: 2,
        l: 2,
        p: 3,
        m: 5,
        f: 4,
        g: 1,
    };
    for (moves, asks, answer) in cases() {
        let question = Question { board, moves, asks };
        let tables = RivalTables::sized(lend::setup(board));
        let told = question.expected(&tables);
        let (refusal, place) = answer.err().unwrap_or((0, 0));
        assert_eq!((told.refusal, told.place), (refusal, place), "{question}");
        assert_eq!(told.cost, answer.unwrap_or(0), "{question}");
        compared(&question, tables, &question.numbers());
    }
}

/// A block in one line of one cache: only a clear of that cache is refused.
#[test]
fn a_cache_with_one_block() {
    let board = Board {
        n: 8,
        l: 64,
        p: 1,
        m: 256,
        f: 2,
        g: 1,
    };
    for (holder, block) in (0..board.n).flat_map(|i| (0..board.m).map(move |block| (i, block))) {
        for i in 0..board.n {
            let question = Question {
                board,
                moves: vec![Move::Fetch(holder, block), Move::Complete],
                asks: vec![Ask::clear(i)],
            };
            let tables = RivalTables::sized(lend::setup(board));
            let refusal = compared(&question, tables, &question.numbers());
            assert_eq!(refusal, if i == holder { 29 } else { 0 }, "{question}");
        }
    }
}
