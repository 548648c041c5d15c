//! Looks: the part of the lent words, by its place and not only by what stands in it.

use crate::draw::Draw;
use crate::lend;
use crate::model::{read, sizes, Board};
use crate::runs::{compared, Lent};
use crate::tally::Tally;
use cuzkelor::{look, Account, Block, Tables};

/// The place of the part that a look gives; none where it is empty. Soundness plays no part.
fn expected(board: Board, tables: &Tables, processor: u32, block: u32) -> Option<usize> {
    if board.refused().is_some() || processor >= board.n || block >= board.m {
        return None;
    }
    let (lines, words, _) = sizes(board);
    let lengths = [
        tables.blocks.len(),
        tables.counters.len(),
        tables.words.len(),
    ];
    if lengths != [lines, lines, words] {
        return None;
    }
    let line = (processor * board.l + block % board.l) as usize;
    let held = tables.counters[line] != 0 && tables.blocks[line] == block;
    held.then_some(line * board.p as usize)
}

/// What a look gave. Hidden: nothing, for the setup's prices alone.
#[derive(Clone, Copy, Debug, PartialEq, Eq, PartialOrd, Ord)]
enum Seen {
    Empty,
    Hidden,
    Shown,
}

/// Looks through the archive and compares.
fn looked(board: Board, tables: &Tables, processor: u32, block: u32) -> Seen {
    let part = look(lend::setup(board), tables, processor, Block(block));
    let place = expected(board, tables, processor, block);
    let length = place.map_or(0, |_| board.p as usize);
    let whole = tables.words[place.unwrap_or(0)..].as_ptr();
    assert_eq!(part.len(), length, "{block} at {processor} on {board:?}");
    assert_eq!(part.as_ptr(), whole, "where the part begins");
    let cheapest = Board {
        f: 1,
        g: 1,
        ..board
    };
    match expected(cheapest, tables, processor, block) {
        _ if place.is_some() => Seen::Shown,
        Some(_) => Seen::Hidden,
        None => Seen::Empty,
    }
}

/// Looks at some blocks, in range and out of it.
fn look_around(draw: &mut Draw, board: Board, tables: &Tables, tally: &mut Tally<Seen>) {
    for _ in 0..20 {
        let held = draw.index(tables.blocks.len().max(1));
        let block = match draw.below(3) {
            0 => draw.below(300),
            1 => tables.blocks.get(held).copied().unwrap_or(0),
            _ => draw.pick(&[0, board.m.wrapping_sub(1), board.m, u32::MAX]),
        };
        let processor = match draw.chance(80) {
            true => held as u32 / board.l.max(1),
            false => draw.pick(&[0, board.n, board.n.wrapping_add(1), u32::MAX]),
        };
        tally.count(looked(board, tables, processor, block));
    }
}

/// On sound tables every block of every cache is shown just where it is held.
fn look_everywhere(board: Board, tables: &Tables) {
    let caches = read(board, tables).expect("sound");
    for processor in 0..board.n {
        for block in 0..board.m {
            looked(board, tables, processor, block);
            let part = look(lend::setup(board), tables, processor, Block(block));
            let copy = caches.copies.get(&(processor, block));
            assert_eq!(part, copy.map_or(&[][..], |copy| &copy.words));
        }
    }
}

/// Damage that a look may not mind, or lengths that it does mind.
fn disturb(draw: &mut Draw, tables: &mut Tables) {
    match draw.below(4) {
        0 => lend::wrong_length(draw, tables),
        1 => {
            let at = draw.index(tables.blocks.len());
            tables.blocks[at] = draw.below(300);
        }
        2 => {
            let at = draw.index(tables.counters.len());
            tables.counters[at] = draw.pick(&[0, 1, 99, u32::MAX]);
        }
        _ => tables.marks.fill(7),
    }
}

#[test]
fn looks() {
    let mut draw = Draw::for_test("looks");
    let mut tally = Tally::default();
    for _ in 0..1_000 {
        let board = draw.board();
        let mut lent = Lent {
            tables: Tables::started(lend::setup(board)).expect("in range"),
            account: Account::default(),
            values: vec![0; 100],
        };
        let asks = draw.asks(board, 100);
        compared(board, &mut lent, &asks);
        look_everywhere(board, &lent.tables);
        look_around(&mut draw, board, &lent.tables, &mut tally);
        let bad = draw.board_out_of_range(board);
        look_around(&mut draw, bad, &lent.tables, &mut tally);
        disturb(&mut draw, &mut lent.tables);
        look_around(&mut draw, board, &lent.tables, &mut tally);
    }
    tally.close("looks", &[Seen::Empty, Seen::Hidden, Seen::Shown]);
}
