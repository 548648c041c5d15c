//! Generated lists: the refusal and every number of the list compared, whatever it held before, and
//! what two hosts may rely on.

use crate::draw::Draw;
use crate::lend;
use crate::model::{self, Board, Caches, Ledger};
use crate::tally::Tally;
use cuzkelor::{generate, generate_into, raw, Refusal, Request, Setup, Variable, TRACE_SETUP};

/// Marsaglia's seed, whose first draws are known.
const KNOWN_SEED: u32 = 2_463_534_242;

const KNOWN_DRAWS: [u32; 6] = [
    723_471_715,
    2_497_366_906,
    2_064_144_800,
    2_008_045_182,
    3_532_304_609,
    374_114_282,
];

/// Numbers on either side of a lent list, which no call may change: a whole request.
const MARGIN: usize = 4;

/// The setup of every trace.
fn trace_board() -> Board {
    model::count(b"").caches.board
}

fn any_seed(draw: &mut Draw) -> u32 {
    match draw.chance(40) {
        true => draw.pick(&[1, 2, KNOWN_SEED, 1 << 31, u32::MAX]),
        false => draw.word().max(1),
    }
}

/// Calls the archive itself, with the numbers inside the margins.
fn raw_generate(board: Board, seed: u32, numbers: &mut [u32]) -> u32 {
    let end = numbers.len() - MARGIN;
    let list = &mut numbers[MARGIN..end];
    // SAFETY: one buffer with its length.
    unsafe {
        raw::cuzkelor_generate(
            board.n,
            board.l,
            board.p,
            board.m,
            board.f,
            board.g,
            seed,
            list.as_mut_ptr(),
            list.len(),
        )
    }
}

/// Asks the archive for a list of so many numbers, with anything in it before; compares, and gives
/// the refusal. A refused list is untouched, and so are the margins of any.
fn compared_numbers(draw: &mut Draw, board: Board, seed: u32, length: usize) -> u32 {
    let mut numbers = draw.words(length + 2 * MARGIN);
    let mut after = numbers.clone();
    let expected = match board.refused() {
        None if length % 4 != 0 => Err(2),
        _ => model::generate(board, seed, length / 4),
    };
    if let Ok(asks) = &expected {
        after[MARGIN..MARGIN + length].copy_from_slice(Request::numbers(&lend::requests(asks)));
    }
    let refusal = raw_generate(board, seed, &mut numbers);
    let lent = format!("seed {seed}, {length} numbers, {board:?}");
    assert_eq!(refusal, expected.err().unwrap_or(0), "the answer to {lent}");
    assert!(numbers == after, "the list of {lent}");
    refusal
}

/// Asks the two safe functions for a list of so many requests, likewise.
fn compared_requests(draw: &mut Draw, board: Board, seed: u32, count: usize) -> u32 {
    let any = |_| Request::write(draw.word(), Variable(draw.word()), draw.word());
    let mut list: Vec<Request> = (0..count).map(any).collect();
    let expected = model::generate(board, seed, count).map(|asks| lend::requests(&asks));
    let after = expected.clone().unwrap_or_else(|_| list.clone());
    let setup = lend::setup(board);
    let asked = format!("seed {seed}, {count} requests, {board:?}");
    let answer = generate_into(setup, seed, &mut list).map_err(Refusal::number);
    assert_eq!(answer, expected.clone().map(|_| ()), "to {asked}");
    assert!(list == after, "the lent list of {asked}");
    let made = generate(setup, seed, count).map_err(Refusal::number);
    assert!(made == expected, "the new list of {asked}");
    expected.err().unwrap_or(0)
}

/// Asks all three functions for a list; the common refusal.
fn compared(draw: &mut Draw, board: Board, seed: u32, count: usize) -> u32 {
    let refusal = compared_numbers(draw, board, seed, 4 * count);
    assert_eq!(compared_requests(draw, board, seed, count), refusal);
    refusal
}

#[test]
fn random_lists() {
    let mut draw = Draw::for_test("generated lists");
    let mut tally = Tally::default();
    let mut requests = 0;
    for _ in 0..10_000 {
        let mut board = draw.board();
        if draw.chance(15) {
            board = draw.board_out_of_range(board);
        }
        let seed = match draw.chance(10) {
            true => 0,
            false => any_seed(&mut draw),
        };
        let count = match draw.below(10) {
            0 => 1_000,
            1 => draw.index(1_000),
            _ => draw.pick(&[0, 1, 2, 7]),
        };
        let rest = draw.index(4);
        let refusal = match draw.chance(25) {
            true => compared_numbers(&mut draw, board, seed, 4 * count + rest),
            false => compared(&mut draw, board, seed, count),
        };
        requests += if refusal == 0 { count } else { 0 };
        tally.count(refusal);
    }
    println!("generated lists: {requests} requests");
    tally.close("generated lists", &[0, 1, 2, 10, 11]);
}

/// The smallest board, the largest one and the traces' one, with every seed and count of note.
#[test]
fn seeds_and_counts() {
    let mut draw = Draw::for_test("seeds and counts of generated lists");
    let mut tally = Tally::default();
    let of = |n, l, p, m, f, g| Board { n, l, p, m, f, g };
    let (smallest, largest) = (of(1, 1, 1, 1, 1, 1), of(8, 64, 16, 256, 32, 32));
    for board in [smallest, largest, trace_board()] {
        for seed in [0, 1, KNOWN_SEED, 1 << 31, u32::MAX] {
            for count in [0, 1, 2, 7, 1_000, 1_000_000, 1_000_001] {
                tally.count(compared(&mut draw, board, seed, count));
            }
        }
    }
    tally.close("seeds and counts of generated lists", &[0, 5, 11]);
}

/// A list of any length on its own: 2 unless it is whole.
#[test]
fn whole_lists() {
    let mut draw = Draw::for_test("whole generated lists");
    for length in 0..=40 {
        let refusal = compared_numbers(&mut draw, trace_board(), KNOWN_SEED, length);
        assert_eq!(refusal, if length % 4 == 0 { 0 } else { 2 }, "{length}");
    }
}

/// Every set of the conditions: the first of 1, 10, 2, 11, 5 that is met refuses.
#[test]
fn conditions_in_order() {
    let mut draw = Draw::for_test("conditions of generated lists");
    for causes in 0..32u32 {
        let mut board = draw.board();
        if causes & 1 != 0 {
            board = draw.sizes_out_of_range(board);
        }
        if causes & 2 != 0 {
            board = draw.prices_out_of_range(board);
        }
        let seed = match causes & 8 {
            0 => any_seed(&mut draw),
            _ => 0,
        };
        let count = match causes & 16 {
            0 => 1_000_000,
            _ => 1_000_001,
        };
        let refusal = match causes & 4 {
            0 => compared(&mut draw, board, seed, count),
            _ => {
                let rest = draw.within(1, 3) as usize;
                compared_numbers(&mut draw, board, seed, 4 * count + rest)
            }
        };
        let first = [1, 10, 2, 11, 5, 0][causes.trailing_zeros().min(5) as usize];
        assert_eq!(refusal, first, "causes {causes:b}");
    }
    assert_eq!(raw::CUZKELOR_MOST_REQUESTS, 1_000_000);
}

/// A count that no memory holds is refused like any other over the limit, and without memory.
#[test]
fn counts_beyond_memory() {
    let dear = Setup {
        fetch_price: 33,
        ..TRACE_SETUP
    };
    let nine = Setup {
        processors: 9,
        ..dear
    };
    for count in [1_000_001, 1 << 32, 1 << 60, usize::MAX] {
        let refusal = |setup, seed| generate(setup, seed, count).err();
        assert_eq!(refusal(TRACE_SETUP, 1), Some(Refusal::TooMany));
        assert_eq!(refusal(TRACE_SETUP, 0), Some(Refusal::SeedZero));
        assert_eq!(refusal(dear, 0), Some(Refusal::PriceOutOfRange));
        assert_eq!(refusal(nine, 0), Some(Refusal::SetupOutOfRange));
    }
}

#[test]
fn known_draws() {
    assert!(model::draws(KNOWN_SEED).take(6).eq(KNOWN_DRAWS));
    let list = generate(TRACE_SETUP, KNOWN_SEED, 6).expect("a list");
    let variable = |draw: u32| Variable(draw % 256);
    let [one, two, _, three, four, _] = KNOWN_DRAWS;
    assert_eq!(list[0], Request::read(one % 4, variable(two)));
    assert_eq!(list[1], Request::read(three % 4, variable(four)));
    let known = [
        Request::read(3, Variable(122)),
        Request::read(2, Variable(225)),
        Request::write(2, Variable(61), 746_858_951),
        Request::write(1, Variable(109), 3_149_294_349),
        Request::read(2, Variable(120)),
        Request::read(0, Variable(5)),
    ];
    assert_eq!(list, known);
}

/// Another board with as many processors and variables.
fn alike(draw: &mut Draw, board: Board) -> Board {
    let product = board.m * board.p;
    let fits = |p: &u32| product % p == 0 && product / p <= 256;
    let words: Vec<u32> = (1..=16).filter(fits).collect();
    let p = draw.pick(&words);
    let f = draw.within(1, 32);
    Board {
        n: board.n,
        l: draw.within(1, 64),
        p,
        m: product / p,
        f,
        g: draw.within(1, f),
    }
}

/// Lines, prices and how the variables make blocks play no part, and a longer list begins with the
/// shorter one.
#[test]
fn what_lists_depend_on() {
    let mut draw = Draw::for_test("what generated lists depend on");
    let mut other_blocks = 0;
    for _ in 0..2_000 {
        let board = draw.board();
        let other = alike(&mut draw, board);
        other_blocks += usize::from(other.p != board.p);
        let seed = any_seed(&mut draw);
        let (short, long) = (draw.index(50), draw.within(50, 100) as usize);
        let made = |board, count| generate(lend::setup(board), seed, count).expect("in range");
        let list = made(board, long);
        assert_eq!(made(other, long), list, "{board:?} and {other:?}");
        assert_eq!(made(other, short), list[..short]);
    }
    println!("generated lists: {other_blocks} of 2000 pairs with blocks of other sizes");
    assert!(other_blocks > 100);
}

/// A fresh board takes a generated list to the end.
fn taken_to_the_end(board: Board, seed: u32, count: usize) -> cuzkelor::Board {
    let list = generate(lend::setup(board), seed, count).expect("a list");
    let mut fresh = cuzkelor::Board::new(lend::setup(board)).expect("in range");
    fresh.run(&list).expect("taken to the end");
    assert_eq!(fresh.account().requests as usize, count);
    fresh
}

#[test]
fn runs_of_generated_lists() {
    let mut draw = Draw::for_test("runs of generated lists");
    for _ in 0..1_000 {
        let (board, seed) = (draw.board(), any_seed(&mut draw));
        let count = draw.index(200);
        let fresh = taken_to_the_end(board, seed, count);
        let asks = model::generate(board, seed, count).expect("a list");
        let mut ledger = Ledger::default();
        Caches::fresh(board).run(&mut ledger, &asks, &mut vec![0; count]);
        assert_eq!(fresh.account(), lend::account(ledger), "on {board:?}");
    }
}

/// The longest list fills the account.
#[test]
fn a_run_of_the_longest_list() {
    let mut full = taken_to_the_end(trace_board(), KNOWN_SEED, 1_000_000);
    let error = full.run(&[Request::read(0, Variable(0))]).expect_err("22");
    assert_eq!(error.refusal, Refusal::AccountFull);
    println!(
        "generated lists: 1,000,000 requests run, {:?}",
        full.account()
    );
}
