//! From the model's words to what the archive is lent.

use crate::draw::Draw;
use crate::model::{sizes, Ask, Board, Ledger, Move, Operation};
use cuzkelor::{Account, Block, Entry, Refusal, Request, RivalTables, Setup, Tables, Variable};

/// The refusal number, 0 for none.
pub fn number(refusal: Option<Refusal>) -> u32 {
    refusal.map_or(0, Refusal::number)
}

pub fn setup(board: Board) -> Setup {
    Setup {
        processors: board.n,
        lines: board.l,
        block_words: board.p,
        block_count: board.m,
        fetch_price: board.f,
        write_back_price: board.g,
    }
}

/// Tables of the right lengths that hold anything.
pub fn garbage(draw: &mut Draw, board: Board) -> Tables {
    let (lines, words, memory) = sizes(board);
    Tables {
        blocks: draw.words(lines),
        counters: draw.words(lines),
        marks: draw.words(lines),
        words: draw.words(words),
        memory: draw.words(memory),
        masks: draw.bytes(board.m as usize),
    }
}

pub fn rival_garbage(draw: &mut Draw, board: Board) -> RivalTables {
    let (lines, _, _) = sizes(board);
    RivalTables {
        blocks: draw.words(lines),
        held: draw.words(lines),
        marks: draw.words(lines),
    }
}

/// Gives one table or the masks another length.
pub fn wrong_length(draw: &mut Draw, tables: &mut Tables) {
    match draw.below(6) {
        0 => wrong_mask_length(draw, tables),
        _ => wrong_table_length(draw, tables),
    }
}

pub fn wrong_mask_length(draw: &mut Draw, tables: &mut Tables) {
    let length = draw.wrong_length(tables.masks.len());
    tables.masks.resize(length, 0);
}

pub fn wrong_table_length(draw: &mut Draw, tables: &mut Tables) {
    let table = match draw.below(5) {
        0 => &mut tables.blocks,
        1 => &mut tables.counters,
        2 => &mut tables.marks,
        3 => &mut tables.words,
        _ => &mut tables.memory,
    };
    let length = draw.wrong_length(table.len());
    table.resize(length, 0);
}

pub fn account(ledger: Ledger) -> Account {
    let number = |of: u64| u32::try_from(of).expect("an account of 32 bits");
    Account {
        requests: number(ledger.requests),
        fetch: number(ledger.fetch),
        write_back: number(ledger.write_back),
        update: number(ledger.update),
    }
}

pub fn ledger(account: Account) -> Ledger {
    Ledger {
        requests: account.requests.into(),
        fetch: account.fetch.into(),
        write_back: account.write_back.into(),
        update: account.update.into(),
    }
}

fn request(ask: &Ask) -> Request {
    match ask.operation {
        Operation::Read(variable) => Request::read(ask.processor, Variable(variable)),
        Operation::Write(variable, value) => {
            Request::write(ask.processor, Variable(variable), value)
        }
        Operation::Clear => Request::clear(ask.processor),
    }
}

pub fn requests(asks: &[Ask]) -> Vec<Request> {
    asks.iter().map(request).collect()
}

/// The same requests in other numbers: any operation but 1 and 2 reads, whatever its value is, and a
/// clear has any variable and any value.
pub fn odd_requests(draw: &mut Draw, asks: &[Ask]) -> Vec<u32> {
    let mut numbers = Vec::new();
    for ask in asks {
        let [operation, variable, value] = match ask.operation {
            Operation::Read(variable) => [draw.pick(&[0, 3, 4, u32::MAX]), variable, draw.word()],
            Operation::Write(variable, value) => [1, variable, value],
            Operation::Clear => [2, draw.pick(&[0, 1, u32::MAX]), draw.word()],
        };
        numbers.extend([ask.processor, operation, variable, value]);
    }
    numbers
}

fn entry(entry: &Move) -> Entry {
    match *entry {
        Move::Fetch(i, block) => Entry::fetch(i, Block(block)),
        Move::WriteBack(i, block) => Entry::write_back(i, Block(block)),
        Move::Drop(i, block) => Entry::drop(i, Block(block)),
        Move::Complete => Entry::COMPLETE,
        Move::Broadcast => Entry::COMPLETE_BY_BROADCAST,
    }
}

pub fn schedule(moves: &[Move]) -> Vec<Entry> {
    moves.iter().map(entry).collect()
}

/// The same schedule in other numbers: any kind above 3 completes by broadcast, and a completion
/// names neither processor nor block.
pub fn odd_schedule(draw: &mut Draw, moves: &[Move]) -> Vec<u32> {
    let mut numbers = Vec::new();
    for entry in moves {
        numbers.extend(match *entry {
            Move::Fetch(i, block) => [0, i, block],
            Move::WriteBack(i, block) => [1, i, block],
            Move::Drop(i, block) => [2, i, block],
            Move::Complete => [3, draw.word(), draw.word()],
            Move::Broadcast => [draw.pick(&[4, 5, u32::MAX]), draw.word(), draw.word()],
        });
    }
    numbers
}

/// Makes a list of records no whole number of them: some numbers too many, or too few.
pub fn cut_record(draw: &mut Draw, numbers: &mut Vec<u32>, record: usize) {
    let part = draw.within(1, record as u32 - 1) as usize;
    if numbers.is_empty() || draw.chance(50) {
        numbers.extend(draw.words(part));
    } else {
        numbers.truncate(numbers.len() - part);
    }
}
