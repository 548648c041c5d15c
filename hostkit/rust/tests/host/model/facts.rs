//! From lent tables to facts, where the tables are sound, and back.

use super::engine::{Caches, Copy};
use super::rival::Rival;
use super::Board;
use cuzkelor::{RivalTables, Tables};
use std::collections::BTreeMap;

/// The lengths of block numbers, words and memory that condition 2 wants; counters and marks are as
/// long as block numbers, and there are as many masks as blocks.
pub fn sizes(board: Board) -> (usize, usize, usize) {
    let [n, l, p, m] = [board.n, board.l, board.p, board.m].map(|number| number as usize);
    (n * l, n * l * p, m * p)
}

/// The copy in one line, or none if it is empty. An error: the line alone is not sound.
fn read_line(board: Board, tables: &Tables, at: usize) -> Result<Option<(u32, Copy)>, ()> {
    let p = board.p as usize;
    let words = tables.words[at * p..][..p].to_vec();
    let (block, counter, mark) = (tables.blocks[at], tables.counters[at], tables.marks[at]);
    if counter == 0 {
        let clear = block == 0 && mark == 0 && words.iter().all(|&word| word == 0);
        return if clear { Ok(None) } else { Err(()) };
    }
    let line = at as u32 % board.l;
    if counter > board.f || mark > 1 || block >= board.m || block % board.l != line {
        return Err(());
    }
    let copy = Copy {
        counter,
        dirty: mark == 1,
        words,
    };
    Ok(Some((block, copy)))
}

/// Whether a copy agrees with the other copies and with memory.
fn agrees(caches: &Caches, block: u32, copy: &Copy) -> bool {
    if copy.dirty {
        copy.counter == caches.board.f && caches.holders(block).count() == 1
    } else {
        copy.words == caches.memory[&block]
    }
}

/// The facts that tables of the right lengths tell; none if they are not sound.
pub fn read(board: Board, tables: &Tables) -> Option<Caches> {
    let by_block = (0..).zip(tables.memory.chunks(board.p as usize));
    let mut caches = Caches {
        board,
        copies: BTreeMap::new(),
        memory: by_block
            .map(|(block, words)| (block, words.to_vec()))
            .collect(),
    };
    for at in 0..tables.blocks.len() {
        if let Some((block, copy)) = read_line(board, tables, at).ok()? {
            caches.copies.insert((at as u32 / board.l, block), copy);
        }
    }
    let mut copies = caches.copies.iter();
    let sound = copies.all(|(&(_, block), copy)| agrees(&caches, block, copy));
    (sound && tables.masks == masks(&caches)).then_some(caches)
}

/// Who holds each block, as bits.
pub fn masks(caches: &Caches) -> Vec<u8> {
    let mut masks = vec![0; caches.board.m as usize];
    for &(i, block) in caches.copies.keys() {
        masks[block as usize] |= 1 << i;
    }
    masks
}

/// The tables that show some facts.
pub fn shown(caches: &Caches) -> Tables {
    let (lines, words, _) = sizes(caches.board);
    let mut tables = Tables {
        blocks: vec![0; lines],
        counters: vec![0; lines],
        marks: vec![0; lines],
        words: vec![0; words],
        memory: caches.memory.values().flatten().copied().collect(),
        masks: masks(caches),
    };
    for (&(i, block), copy) in &caches.copies {
        let at = (i * caches.board.l + block % caches.board.l) as usize;
        tables.blocks[at] = block;
        tables.counters[at] = copy.counter;
        tables.marks[at] = copy.dirty.into();
        tables.words[at * copy.words.len()..][..copy.words.len()].copy_from_slice(&copy.words);
    }
    tables
}

/// The pricer's tables that show a rival's copies.
pub fn rival_shown(rival: &Rival) -> RivalTables {
    let (lines, _, _) = sizes(rival.board);
    let mut tables = RivalTables {
        blocks: vec![0; lines],
        held: vec![0; lines],
        marks: vec![0; lines],
    };
    for (&(i, block), &dirty) in &rival.copies {
        let at = (i * rival.board.l + block % rival.board.l) as usize;
        tables.blocks[at] = block;
        tables.held[at] = 1;
        tables.marks[at] = dirty.into();
    }
    tables
}
