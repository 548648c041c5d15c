//! Damaged tables and masks. Each kind breaks one fact of soundness and no other, where it finds a
//! line for it; then a run is refused by 20. Harmless changes are no damage, and a run goes on from
//! them.

use crate::draw::Draw;
use crate::lend;
use crate::model::{read, Board};
use crate::runs::{compared, Lent};
use crate::tally::{Prices, Tally};
use cuzkelor::{Account, Tables};
use std::collections::BTreeMap;

/// Changes the tables; false where no line is fit for it.
type Change = fn(&mut Draw, Board, &mut Tables) -> bool;

const DAMAGES: [(&str, Change); 17] = [
    ("counter over f", counter_over_f),
    ("empty line with a block", empty_line_with_a_block),
    ("empty line with a mark", empty_line_with_a_mark),
    ("empty line with a word", empty_line_with_a_word),
    ("counter cleared alone", counter_cleared_alone),
    ("block not below M", block_not_below_m),
    ("block in another line", block_in_another_line),
    ("mark above 1", mark_above_1),
    ("marked, counter below f", marked_counter_below_f),
    ("marked, another holder", marked_another_holder),
    ("copy unlike memory", copy_unlike_memory),
    ("memory unlike a copy", memory_unlike_a_copy),
    ("bit of a holder missing", bit_missing),
    ("bit of another processor", bit_of_another),
    ("bit at or above N", bit_above_n),
    ("bit of a block that none holds", bit_of_an_unheld_block),
    ("bit of another block in the line", bit_of_another_block),
];

const CHANGES: [(&str, Change); 4] = [
    ("word of a marked copy", word_of_a_marked_copy),
    ("memory that no unmarked copy shows", unshown_memory),
    ("counter from 1 to f", counter_from_1_to_f),
    ("a lone copy marked", lone_copy_marked),
];

/// A line that meets a condition.
fn line(draw: &mut Draw, tables: &Tables, fit: impl Fn(usize) -> bool) -> Option<usize> {
    let fits: Vec<usize> = (0..tables.blocks.len()).filter(|&at| fit(at)).collect();
    (!fits.is_empty()).then(|| draw.pick(&fits))
}

fn empty_line(draw: &mut Draw, tables: &Tables) -> Option<usize> {
    line(draw, tables, |at| tables.counters[at] == 0)
}

fn unmarked_line(draw: &mut Draw, tables: &Tables) -> Option<usize> {
    line(draw, tables, |at| {
        tables.counters[at] > 0 && tables.marks[at] == 0
    })
}

fn marked_line(draw: &mut Draw, tables: &Tables) -> Option<usize> {
    line(draw, tables, |at| tables.marks[at] == 1)
}

fn holder_count(tables: &Tables, block: u32) -> usize {
    let held = tables.blocks.iter().zip(&tables.counters);
    held.filter(|&(&other, &counter)| other == block && counter > 0)
        .count()
}

/// A line whose block has one holder, or more.
fn line_by_holders(draw: &mut Draw, tables: &Tables, lone: bool) -> Option<usize> {
    line(draw, tables, |at| {
        tables.counters[at] > 0 && (holder_count(tables, tables.blocks[at]) == 1) == lone
    })
}

/// Makes the masks say again what the lines say, sound or not: which block below M each copy is of,
/// in whatever line it stands or, where that differs, in the block's own line alone.
fn retell(draw: &mut Draw, board: Board, tables: &mut Tables) {
    let own_line_alone = draw.chance(50);
    tables.masks.fill(0);
    for at in 0..tables.blocks.len() {
        let (block, line) = (tables.blocks[at], at as u32 % board.l);
        let elsewhere = own_line_alone && block % board.l != line;
        if tables.counters[at] > 0 && block < board.m && !elsewhere {
            tables.masks[block as usize] |= 1 << (at as u32 / board.l);
        }
    }
}

fn any_word(draw: &mut Draw, board: Board, at: usize) -> usize {
    at * board.p as usize + draw.index(board.p as usize)
}

fn counter_over_f(draw: &mut Draw, board: Board, tables: &mut Tables) -> bool {
    let Some(at) = unmarked_line(draw, tables) else {
        return false;
    };
    tables.counters[at] = draw.pick(&[board.f + 1, u32::MAX]);
    true
}

fn empty_line_with_a_block(draw: &mut Draw, _: Board, tables: &mut Tables) -> bool {
    let Some(at) = empty_line(draw, tables) else {
        return false;
    };
    tables.blocks[at] = draw.pick(&[1, 2, u32::MAX]);
    true
}

fn empty_line_with_a_mark(draw: &mut Draw, _: Board, tables: &mut Tables) -> bool {
    let Some(at) = empty_line(draw, tables) else {
        return false;
    };
    tables.marks[at] = 1;
    true
}

fn empty_line_with_a_word(draw: &mut Draw, board: Board, tables: &mut Tables) -> bool {
    let Some(at) = empty_line(draw, tables) else {
        return false;
    };
    tables.words[any_word(draw, board, at)] = draw.pick(&[1, u32::MAX]);
    true
}

fn counter_cleared_alone(draw: &mut Draw, board: Board, tables: &mut Tables) -> bool {
    let named = |at| tables.counters[at] > 0 && tables.blocks[at] > 0;
    let Some(at) = line(draw, tables, named) else {
        return false;
    };
    tables.counters[at] = 0;
    retell(draw, board, tables);
    true
}

fn block_not_below_m(draw: &mut Draw, board: Board, tables: &mut Tables) -> bool {
    let Some(at) = line_by_holders(draw, tables, true) else {
        return false;
    };
    while tables.blocks[at] < board.m {
        tables.blocks[at] += board.l;
    }
    retell(draw, board, tables);
    true
}

fn block_in_another_line(draw: &mut Draw, board: Board, tables: &mut Tables) -> bool {
    let Some(at) = empty_line(draw, tables) else {
        return false;
    };
    let block = draw.below(board.m);
    if at as u32 % board.l == block % board.l || holder_count(tables, block) > 0 {
        return false;
    }
    let p = board.p as usize;
    tables.blocks[at] = block;
    tables.counters[at] = board.f;
    tables.words[at * p..][..p].copy_from_slice(&tables.memory[block as usize * p..][..p]);
    retell(draw, board, tables);
    true
}

fn mark_above_1(draw: &mut Draw, board: Board, tables: &mut Tables) -> bool {
    let Some(at) = line_by_holders(draw, tables, true) else {
        return false;
    };
    tables.counters[at] = board.f;
    tables.marks[at] = draw.pick(&[2, 3, u32::MAX]);
    true
}

fn marked_counter_below_f(draw: &mut Draw, board: Board, tables: &mut Tables) -> bool {
    let Some(at) = line_by_holders(draw, tables, true) else {
        return false;
    };
    tables.marks[at] = 1;
    tables.counters[at] = board.f - 1;
    board.f > 1
}

fn marked_another_holder(draw: &mut Draw, board: Board, tables: &mut Tables) -> bool {
    let Some(at) = line_by_holders(draw, tables, false) else {
        return false;
    };
    tables.marks[at] = 1;
    tables.counters[at] = board.f;
    true
}

fn copy_unlike_memory(draw: &mut Draw, board: Board, tables: &mut Tables) -> bool {
    let Some(at) = unmarked_line(draw, tables) else {
        return false;
    };
    tables.words[any_word(draw, board, at)] ^= 1 << draw.below(32);
    true
}

fn memory_unlike_a_copy(draw: &mut Draw, board: Board, tables: &mut Tables) -> bool {
    let Some(at) = unmarked_line(draw, tables) else {
        return false;
    };
    let block = tables.blocks[at] as usize;
    tables.memory[any_word(draw, board, block)] ^= 1 << draw.below(32);
    true
}

fn bit_missing(draw: &mut Draw, board: Board, tables: &mut Tables) -> bool {
    let Some(at) = line(draw, tables, |at| tables.counters[at] > 0) else {
        return false;
    };
    tables.masks[tables.blocks[at] as usize] &= !(1 << (at as u32 / board.l));
    true
}

/// A bit of a held block, for a processor below N that does not hold it.
fn bit_of_another(draw: &mut Draw, board: Board, tables: &mut Tables) -> bool {
    let Some(at) = line(draw, tables, |at| tables.counters[at] > 0) else {
        return false;
    };
    let bit = 1 << draw.below(board.n);
    let mask = &mut tables.masks[tables.blocks[at] as usize];
    let other = *mask & bit == 0;
    *mask |= bit;
    other
}

fn bit_above_n(draw: &mut Draw, board: Board, tables: &mut Tables) -> bool {
    if board.n == 8 {
        return false;
    }
    let at = draw.index(tables.masks.len());
    tables.masks[at] |= 1 << draw.within(board.n, 7);
    true
}

fn bit_of_an_unheld_block(draw: &mut Draw, board: Board, tables: &mut Tables) -> bool {
    let block = draw.below(board.m);
    tables.masks[block as usize] |= 1 << draw.below(board.n);
    holder_count(tables, block) == 0
}

/// A holder's bit, at another block of the same line: as if an eviction had not been noted.
fn bit_of_another_block(draw: &mut Draw, board: Board, tables: &mut Tables) -> bool {
    let Some(at) = line(draw, tables, |at| tables.counters[at] > 0) else {
        return false;
    };
    let others = (0..board.m).filter(|&other| {
        let held = tables.blocks[at];
        other != held && board.collide(other, held)
    });
    let others: Vec<u32> = others.collect();
    if others.is_empty() {
        return false;
    }
    let other = draw.pick(&others) as usize;
    tables.masks[other] |= 1 << (at as u32 / board.l);
    true
}

fn word_of_a_marked_copy(draw: &mut Draw, board: Board, tables: &mut Tables) -> bool {
    let Some(at) = marked_line(draw, tables) else {
        return false;
    };
    tables.words[any_word(draw, board, at)] ^= 1 << draw.below(32);
    true
}

fn unshown_memory(draw: &mut Draw, board: Board, tables: &mut Tables) -> bool {
    let block = draw.below(board.m);
    let shown = (0..tables.blocks.len())
        .any(|at| tables.counters[at] > 0 && tables.marks[at] == 0 && tables.blocks[at] == block);
    tables.memory[any_word(draw, board, block as usize)] ^= u32::from(!shown);
    !shown
}

fn counter_from_1_to_f(draw: &mut Draw, board: Board, tables: &mut Tables) -> bool {
    let Some(at) = unmarked_line(draw, tables) else {
        return false;
    };
    tables.counters[at] = draw.within(1, board.f);
    true
}

fn lone_copy_marked(draw: &mut Draw, board: Board, tables: &mut Tables) -> bool {
    let Some(at) = line_by_holders(draw, tables, true) else {
        return false;
    };
    tables.counters[at] = board.f;
    tables.marks[at] = 1;
    true
}

/// Any cell of any table, or any mask, to anything.
fn any_cell(draw: &mut Draw, tables: &mut Tables) {
    if draw.chance(15) {
        let at = draw.index(tables.masks.len());
        tables.masks[at] = draw.pick(&[0, 1, 2, 3, 255]);
        return;
    }
    let table = match draw.below(5) {
        0 => &mut tables.blocks,
        1 => &mut tables.counters,
        2 => &mut tables.marks,
        3 => &mut tables.words,
        _ => &mut tables.memory,
    };
    let at = draw.index(table.len());
    table[at] = match draw.chance(70) {
        true => draw.below(4),
        false => draw.word(),
    };
}

/// What a random run leaves behind.
fn used(draw: &mut Draw, board: Board) -> Lent {
    let mut lent = Lent {
        tables: Tables::started(lend::setup(board)).expect("in range"),
        account: Account::default(),
        values: Vec::new(),
    };
    let count = draw.index(80);
    run_more(draw, board, &mut lent, count);
    lent
}

/// A run of some requests, compared with the model; its refusal.
fn run_more(draw: &mut Draw, board: Board, lent: &mut Lent, count: usize) -> u32 {
    let asks = draw.asks(board, count);
    lent.values = draw.words(count);
    compared(board, lent, &asks).refusal
}

struct Changed {
    tally: Tally,
    by_kind: BTreeMap<&'static str, usize>,
}

impl Changed {
    /// A run on tables that one kind of change was made to.
    fn run(&mut self, draw: &mut Draw, board: Board, lent: &Lent, kind: (&'static str, Change)) {
        let mut lent = lent.clone();
        if !kind.1(draw, board, &mut lent.tables) {
            return;
        }
        let count = draw.index(12);
        let harmless = CHANGES.iter().any(|change| change.0 == kind.0);
        let refusal = run_more(draw, board, &mut lent, count);
        assert_eq!(refusal == 0, harmless, "{} on {board:?}", kind.0);
        self.tally.count(refusal);
        *self.by_kind.entry(kind.0).or_default() += 1;
    }

    fn run_on_any(&mut self, draw: &mut Draw, board: Board, lent: &Lent) {
        let mut lent = lent.clone();
        for _ in 0..draw.within(1, 3) {
            any_cell(draw, &mut lent.tables);
        }
        let sound = read(board, &lent.tables).is_some();
        let refusal = run_more(draw, board, &mut lent, 5);
        assert_eq!(refusal == 0, sound);
        self.tally.count(refusal);
    }
}

#[test]
fn damaged_tables() {
    let mut draw = Draw::for_test("damaged tables");
    let mut changed = Changed {
        tally: Tally::default(),
        by_kind: BTreeMap::new(),
    };
    let mut prices = Prices::default();
    for _ in 0..1_500 {
        let board = draw.board();
        prices.count(board);
        let lent = used(&mut draw, board);
        for kind in DAMAGES.into_iter().chain(CHANGES) {
            changed.run(&mut draw, board, &lent, kind);
        }
        changed.run_on_any(&mut draw, board, &lent);
    }
    prices.close("damaged tables");
    println!("damaged tables: {:?}", changed.by_kind);
    assert_eq!(changed.by_kind.len(), DAMAGES.len() + CHANGES.len());
    assert!(changed.by_kind.values().all(|&count| count >= 100));
    changed.tally.close("damaged tables", &[0, 20]);
}
