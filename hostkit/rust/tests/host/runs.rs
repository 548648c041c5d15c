//! Random lists of runs. Each call is compared with what the model says of whatever was lent: the
//! answer, the five tables, the masks, the account and the values.

use crate::draw::Draw;
use crate::lend;
use crate::model::{count, read, shown, sizes, Ask, Board, Caches, Ledger, Operation, Outcome};
use crate::plain;
use crate::rivals::{self, Closeness};
use crate::tally::{Clears, Prices, Tally};
use cuzkelor::{raw, Account, Request, Tables};
use std::collections::BTreeMap;

/// Whether condition 2 meets tables and masks on a setup in range.
pub fn wrong_lengths(board: Board, tables: &Tables) -> bool {
    let (lines, words, memory) = sizes(board);
    let per_line = [&tables.blocks, &tables.counters, &tables.marks];
    per_line.iter().any(|table| table.len() != lines)
        || tables.words.len() != words
        || tables.memory.len() != memory
        || tables.masks.len() != board.m as usize
}

/// What is lent to a run.
#[derive(Clone, Debug, PartialEq)]
pub struct Lent {
    pub tables: Tables,
    pub account: Account,
    pub values: Vec<u32>,
}

/// The facts that a run of a list of numbers starts from, or its refusal at once.
fn begin(board: Board, lent: &Lent, numbers: &[u32]) -> Result<Caches, u32> {
    if let Some(refusal) = board.refused() {
        return Err(refusal);
    }
    if wrong_lengths(board, &lent.tables) || 4 * lent.values.len() != numbers.len() {
        return Err(2);
    }
    let caches = read(board, &lent.tables).ok_or(20u32)?;
    if lend::ledger(lent.account).impossible(board) {
        return Err(21);
    }
    Ok(caches)
}

/// What a run has to answer and to leave behind, whatever came in. The numbers are those of the
/// requests if they are a whole list.
fn expected(board: Board, lent: &Lent, asks: &[Ask], numbers: &[u32]) -> (Outcome, Lent) {
    let mut after = lent.clone();
    let outcome = match begin(board, lent, numbers) {
        Err(refusal) => Outcome::at_once(refusal),
        Ok(mut caches) => {
            let mut ledger = lend::ledger(lent.account);
            let outcome = caches.run(&mut ledger, asks, &mut after.values);
            after.tables = shown(&caches);
            after.account = lend::account(ledger);
            outcome
        }
    };
    (outcome, after)
}

/// Runs through the safe function.
fn safe_run(board: Board, lent: &mut Lent, requests: &[Request]) -> Outcome {
    let answer = cuzkelor::run(
        lend::setup(board),
        &mut lent.tables,
        &mut lent.account,
        requests,
        &mut lent.values,
    );
    match answer {
        Ok(()) => Outcome {
            taken: requests.len(),
            refusal: 0,
            place: 0,
        },
        Err(error) => Outcome {
            taken: error.taken,
            refusal: error.refusal.number(),
            place: error.place,
        },
    }
}

/// Calls the archive itself, with out-parameters that hold anything before, and with masks that may
/// lie anywhere.
pub fn raw_run(board: Board, lent: &mut Lent, masks: &mut [u8], numbers: &[u32]) -> Outcome {
    let (tables, account) = (&mut lent.tables, &mut lent.account);
    let (mut taken, mut place) = (0x5555, 0xaaaa);
    // SAFETY: owned buffers with their lengths, apart from each other.
    let refusal = unsafe {
        raw::cuzkelor_run(
            board.n,
            board.l,
            board.p,
            board.m,
            board.f,
            board.g,
            tables.blocks.as_mut_ptr(),
            tables.blocks.len(),
            tables.counters.as_mut_ptr(),
            tables.counters.len(),
            tables.marks.as_mut_ptr(),
            tables.marks.len(),
            tables.words.as_mut_ptr(),
            tables.words.len(),
            tables.memory.as_mut_ptr(),
            tables.memory.len(),
            masks.as_mut_ptr(),
            masks.len(),
            &mut account.requests,
            &mut account.fetch,
            &mut account.write_back,
            &mut account.update,
            numbers.as_ptr(),
            numbers.len(),
            lent.values.as_mut_ptr(),
            lent.values.len(),
            &mut taken,
            &mut place,
        )
    };
    Outcome {
        taken,
        refusal,
        place,
    }
}

/// Runs the archive on what is lent, compares everything, and gives the common outcome.
pub fn compared(board: Board, lent: &mut Lent, asks: &[Ask]) -> Outcome {
    let requests = lend::requests(asks);
    let (outcome, after) = expected(board, lent, asks, Request::numbers(&requests));
    let answered = safe_run(board, lent, &requests);
    assert_eq!(answered, outcome, "the answer on {board:?} to {asks:?}");
    assert_eq!(*lent, after, "what was lent on {board:?} to {asks:?}");
    outcome
}

/// The same with numbers that name the requests, or that are no whole list of requests.
fn compared_numbers(board: Board, lent: &mut Lent, asks: &[Ask], numbers: &[u32]) -> Outcome {
    let (outcome, after) = expected(board, lent, asks, numbers);
    let mut masks = std::mem::take(&mut lent.tables.masks);
    let answered = raw_run(board, lent, &mut masks, numbers);
    lent.tables.masks = masks;
    assert_eq!(answered, outcome, "the answer on {board:?} to {numbers:?}");
    assert_eq!(*lent, after, "what was lent on {board:?} to {numbers:?}");
    outcome
}

/// The same with requests in either of their forms.
fn compared_either(draw: &mut Draw, board: Board, lent: &mut Lent, asks: &[Ask]) -> Outcome {
    match draw.chance(50) {
        true => compared(board, lent, asks),
        false => compared_numbers(board, lent, asks, &lend::odd_requests(draw, asks)),
    }
}

/// The cycles of an account near a limit of 21, or on it.
fn possible_cycles(draw: &mut Draw, most: u32) -> u32 {
    match draw.below(4) {
        0 => 0,
        1 => most,
        2 => most - most.min(1),
        _ => draw.below(most.max(1)),
    }
}

fn possible_account(draw: &mut Draw, board: Board, requests: u32) -> Account {
    Account {
        requests,
        fetch: possible_cycles(draw, requests.saturating_mul(board.f)),
        write_back: possible_cycles(draw, requests.saturating_mul(board.g * board.l)),
        update: possible_cycles(draw, requests),
    }
}

/// The account that a list of runs starts with: fresh, near 1,000,000 requests, or far above.
fn first_account(draw: &mut Draw, board: Board) -> Account {
    let requests = match draw.below(10) {
        0 => draw.within(999_900, 1_000_005),
        1 => draw.within(999_990, 1_000_000),
        2 => draw.pick(&[1_000_000, 4_000_000, 1 << 31, u32::MAX]),
        3 => draw.below(1_000_000),
        _ => return Account::default(),
    };
    possible_account(draw, board, requests)
}

/// An account that 21 meets, often by 1. Where no 32 bits are over a limit, another one is passed.
pub fn impossible_account(draw: &mut Draw, board: Board) -> Account {
    let requests = match draw.below(4) {
        0 => 0,
        1 => draw.below(1_000_001),
        2 => draw.below(u32::MAX / 32),
        _ => draw.below(u32::MAX),
    };
    let mut account = possible_account(draw, board, requests);
    let over = |most: u64| u32::try_from(most + 1).ok();
    let [over_fetch, over_write_back] =
        [board.f, board.g * board.l].map(|most| over(u64::from(most) * u64::from(requests)));
    match (draw.below(3), over_fetch, over_write_back) {
        (0, Some(cycles), _) => account.fetch = draw.pick(&[cycles, u32::MAX]),
        (1, _, Some(cycles)) => account.write_back = draw.pick(&[cycles, u32::MAX]),
        _ => account.update = draw.pick(&[requests + 1, u32::MAX]),
    }
    account
}

/// Gives a table or the values another length.
fn wrong_length(draw: &mut Draw, lent: &mut Lent) {
    if draw.chance(80) {
        return lend::wrong_length(draw, &mut lent.tables);
    }
    let length = draw.wrong_length(lent.values.len());
    lent.values.resize(length, 0);
}

/// Numbers that are no whole list of requests, with a value for each request in it, or also for the
/// one that is cut.
fn cut_list(draw: &mut Draw, lent: &mut Lent, asks: &[Ask]) -> Vec<u32> {
    let mut numbers = lend::odd_requests(draw, asks);
    lend::cut_record(draw, &mut numbers, 4);
    let requests = numbers.len() / 4 + draw.index(2);
    lent.values.resize(requests, 0);
    numbers
}

fn length_of_run(draw: &mut Draw) -> usize {
    match draw.below(10) {
        0 => 0,
        1 => draw.index(400),
        _ => draw.index(60),
    }
}

/// One list of runs on one setup, from fresh tables.
struct List {
    board: Board,
    tables: Tables,
    account: Account,
    first: Account,
    /// The facts, carried from run to run and never read from the tables.
    caches: Caches,
    ledger: Ledger,
    /// The last value written to each variable.
    current: BTreeMap<u32, u32>,
    taken: Vec<Ask>,
}

impl List {
    fn start(draw: &mut Draw) -> List {
        let board = draw.board();
        let mut tables = lend::garbage(draw, board);
        cuzkelor::start(lend::setup(board), &mut tables).expect("in range");
        let caches = Caches::fresh(board);
        assert_eq!(tables, shown(&caches), "started tables are all 0");
        let account = first_account(draw, board);
        List {
            board,
            tables,
            account,
            first: account,
            caches,
            ledger: lend::ledger(account),
            current: BTreeMap::new(),
            taken: Vec::new(),
        }
    }

    fn lent(&self, draw: &mut Draw, count: usize) -> Lent {
        Lent {
            tables: self.tables.clone(),
            account: self.account,
            values: draw.words(count),
        }
    }

    fn asks(&self, draw: &mut Draw) -> Vec<Ask> {
        let count = length_of_run(draw);
        let mut asks = draw.asks(self.board, count);
        if draw.chance(25) {
            draw.spoil(self.board, &mut asks);
        }
        asks
    }

    /// A run that goes on from the last one.
    fn go_on(&mut self, draw: &mut Draw) -> Outcome {
        let asks = self.asks(draw);
        let mut lent = self.lent(draw, asks.len());
        let outcome = compared_either(draw, self.board, &mut lent, &asks);
        self.last_values(&asks[..outcome.taken], &lent.values);
        let mut values = lent.values.clone();
        let carried = self.caches.run(&mut self.ledger, &asks, &mut values);
        assert_eq!(carried, outcome, "the carried facts give the same outcome");
        assert_eq!(lent.values, values);
        assert_eq!(lent.tables, shown(&self.caches));
        assert_eq!(lend::ledger(lent.account), self.ledger);
        (self.tables, self.account) = (lent.tables, lent.account);
        self.taken.extend(&asks[..outcome.taken]);
        outcome
    }

    /// Each read supplies the last value written, or 0; a clear gives 0.
    fn last_values(&mut self, asks: &[Ask], values: &[u32]) {
        for (ask, &value) in asks.iter().zip(values) {
            let last = match ask.operation {
                Operation::Read(variable) => self.current.get(&variable).copied().unwrap_or(0),
                Operation::Write(variable, written) => {
                    self.current.insert(variable, written);
                    written
                }
                Operation::Clear => 0,
            };
            assert_eq!(value, last, "the last value written, at {ask:?}");
        }
    }

    /// A run that some of 1, 10, 2, 20 and 21 meet: the first of them refuses it, and nothing
    /// changes.
    fn refused(&mut self, draw: &mut Draw) -> Outcome {
        let asks = self.asks(draw);
        let mut lent = self.lent(draw, asks.len());
        let mut board = self.board;
        let mut cut = None;
        let causes: u32 = draw.pick(&[1, 2, 4, 8, 16, 3, 5, 6, 12, 24, 30, 31]);
        if causes & 1 != 0 {
            board = draw.sizes_out_of_range(self.board);
        }
        if causes & 2 != 0 {
            board = draw.prices_out_of_range(board);
        }
        if causes & 4 != 0 {
            match draw.chance(75) {
                true => wrong_length(draw, &mut lent),
                false => cut = Some(cut_list(draw, &mut lent, &asks)),
            }
        }
        if causes & 8 != 0 {
            match draw.chance(50) {
                true => lent.tables.counters.fill(self.board.f + 1),
                false => lent.tables.masks.iter_mut().for_each(|mask| *mask ^= 1),
            }
        }
        if causes & 16 != 0 {
            lent.account = impossible_account(draw, self.board);
        }
        let before = lent.clone();
        let outcome = match cut {
            Some(numbers) => compared_numbers(board, &mut lent, &asks, &numbers),
            None => compared_either(draw, board, &mut lent, &asks),
        };
        let first = [1, 10, 2, 20, 21][causes.trailing_zeros() as usize];
        assert_eq!(outcome, Outcome::at_once(first));
        assert_eq!(lent, before, "nothing changes");
        outcome
    }

    /// What the account grew by.
    fn spent(&self) -> Ledger {
        let (first, last) = (lend::ledger(self.first), lend::ledger(self.account));
        Ledger {
            requests: last.requests - first.requests,
            fetch: last.fetch - first.fetch,
            write_back: last.write_back - first.write_back,
            update: last.update - first.update,
        }
    }

    /// Some legal schedules against what the engine spent: twice the cost, and the two bounds by kind.
    fn bound(&self, draw: &mut Draw, closeness: &mut Closeness) {
        for moves in rivals::some_legal(draw, self.board, &self.taken) {
            let cost = rivals::accepted_cost(draw, self.board, &moves, &self.taken);
            closeness.hold(self.spent(), cost);
        }
    }
}

#[test]
fn lists_of_runs() {
    let mut draw = Draw::for_test("lists of runs");
    let (mut tally, mut closeness) = (Tally::default(), Closeness::default());
    let (mut prices, mut clears) = (Prices::default(), Clears::default());
    let (mut lists, mut requests) = (0, 0);
    while lists < 4_000 {
        let mut list = List::start(&mut draw);
        prices.count(list.board);
        for _ in 0..draw.below(9) {
            let outcome = match draw.chance(75) {
                true => list.go_on(&mut draw),
                false => list.refused(&mut draw),
            };
            tally.count(outcome.refusal);
        }
        list.bound(&mut draw, &mut closeness);
        clears.count(list.board, &list.taken);
        lists += 1;
        requests += list.taken.len();
    }
    println!("lists of runs: {lists} lists, {requests} requests taken");
    closeness.print("lists of runs");
    prices.close("lists of runs");
    clears.close("lists of runs");
    tally.close("lists of runs", &[0, 1, 2, 3, 4, 10, 20, 21, 22]);
}

/// Started tables, an account, and room for so many values.
fn started(board: Board, account: Account, values: usize) -> Lent {
    Lent {
        tables: shown(&Caches::fresh(board)),
        account,
        values: vec![7; values],
    }
}

/// A list of any length on its own: 2 unless it is whole and has as many values.
#[test]
fn whole_lists() {
    let board = count(b"").caches.board;
    for (length, values) in (0..=12).flat_map(|length| [0, 1, 2, 3].map(|values| (length, values)))
    {
        let mut lent = started(board, Account::default(), values);
        let asks = vec![Ask::read(0, 0); length / 4];
        let outcome = compared_numbers(board, &mut lent, &asks, &vec![0; length]);
        let refusal = if length == 4 * values { 0 } else { 2 };
        assert_eq!(
            outcome.refusal, refusal,
            "{length} numbers, {values} values"
        );
    }
}

/// Any operation number but 1 and 2 reads, whatever its value is; of a clear neither the variable nor
/// the value plays a part.
#[test]
fn operation_numbers() {
    let board = count(b"").caches.board;
    let mut lent = started(board, Account::default(), 1);
    let mut value_of = |numbers: [u32; 4], ask: Ask| {
        let outcome = compared_numbers(board, &mut lent, &[ask], &numbers);
        assert_eq!(outcome.taken, 1, "{numbers:?}");
        lent.values[0]
    };
    for (variable, value) in [(0, 0), (5, 6), (255, 1), (256, 1), (u32::MAX, u32::MAX)] {
        assert_eq!(value_of([0, 1, 5, 9], Ask::write(0, 5, 9)), 9);
        for operation in [0, 3, 4, u32::MAX - 1, u32::MAX] {
            let read = value_of([0, operation, 5, value], Ask::read(0, 5));
            assert_eq!(read, 9, "operation {operation}");
        }
        assert_eq!(value_of([0, 2, variable, value], Ask::clear(0)), 0);
    }
}

/// The plain engine of the bench does what the archive does, without masks; also with clears, which no
/// timed list has.
#[test]
fn plain_engine() {
    let mut draw = Draw::for_test("plain engine");
    let mut tally = Tally::default();
    for _ in 0..2_000 {
        let board = draw.board();
        let account = match draw.chance(10) {
            true => impossible_account(&mut draw, board),
            false => first_account(&mut draw, board),
        };
        let count = length_of_run(&mut draw);
        let mut asks = draw.asks(board, count);
        if draw.chance(25) {
            draw.spoil(board, &mut asks);
        }
        let numbers = lend::odd_requests(&mut draw, &asks);
        let mut lent = started(board, account, count);
        let mut same = lent.clone();
        let (taken, refusal, place) = plain::run(
            lend::setup(board),
            &mut same.tables,
            &mut same.account,
            &numbers,
            &mut same.values,
        );
        let outcome = compared_numbers(board, &mut lent, &asks, &numbers);
        let answered = Outcome {
            taken,
            refusal,
            place,
        };
        same.tables.fill_masks(lend::setup(board));
        assert_eq!((answered, same), (outcome, lent), "{board:?}, {asks:?}");
        tally.count(refusal);
    }
    tally.close("plain engine", &[0, 3, 4, 21, 22]);
}

#[test]
fn starting() {
    let mut draw = Draw::for_test("starting");
    let mut tally = Tally::default();
    for _ in 0..4_000 {
        let mut board = draw.board();
        let mut tables = lend::garbage(&mut draw, board);
        if draw.chance(40) {
            lend::wrong_length(&mut draw, &mut tables);
        }
        if draw.chance(30) {
            board = draw.board_out_of_range(board);
        }
        let (refusal, after) = match board.refused() {
            Some(refusal) => (refusal, tables.clone()),
            None if wrong_lengths(board, &tables) => (2, tables.clone()),
            None => (0, shown(&Caches::fresh(board))),
        };
        let answer = cuzkelor::start(lend::setup(board), &mut tables);
        assert_eq!(lend::number(answer.err()), refusal, "on {board:?}");
        assert_eq!(tables, after, "what starting leaves on {board:?}");
        tally.count(refusal);
    }
    tally.close("starting", &[0, 1, 2, 10]);
}
