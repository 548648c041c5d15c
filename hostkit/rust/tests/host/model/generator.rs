//! The generator: draws as numbers of 64 bits, shifted by products and quotients.

use super::{Ask, Board};
use std::iter;

/// How many numbers 32 bits make.
const WORDS: u64 = 1 << 32;

fn left(x: u64, power: u64) -> u64 {
    x ^ (x * power % WORDS)
}

fn right(x: u64, power: u64) -> u64 {
    x ^ (x / power)
}

/// The draws that follow a seed, which is none itself.
pub fn draws(seed: u32) -> impl Iterator<Item = u32> {
    let next = |&x: &u64| Some(left(right(left(x, 8_192), 131_072), 32));
    let draws = iter::successors(Some(u64::from(seed)), next).skip(1);
    draws.map(|draw| u32::try_from(draw).expect("a draw of 32 bits"))
}

/// The request of three draws.
fn ask(board: Board, [first, second, third]: [u32; 3]) -> Ask {
    let (processor, variable) = (first % board.n, second % (board.m * board.p));
    match third % 2 {
        0 => Ask::read(processor, variable),
        _ => Ask::write(processor, variable, third),
    }
}

/// So many requests of a seed, or the refusal of the list: 1, 10, 11 or 5.
pub fn generate(board: Board, seed: u32, count: usize) -> Result<Vec<Ask>, u32> {
    if let Some(refusal) = board.refused() {
        return Err(refusal);
    }
    if seed == 0 {
        return Err(11);
    }
    if count > 1_000_000 {
        return Err(5);
    }
    let mut draws = draws(seed);
    let mut three = || [(); 3].map(|()| draws.next().expect("draws do not end"));
    Ok((0..count).map(|_| ask(board, three())).collect())
}
