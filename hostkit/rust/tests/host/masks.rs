//! The masks of holders: after each request beside the model's own, and false ones and ones of wrong
//! lengths in their place among the refusals.

use crate::draw::Draw;
use crate::lend;
use crate::model::{masks, shown, Ask, Board, Caches, Ledger, Operation, Outcome};
use crate::runs::{compared, impossible_account, raw_run, Lent};
use crate::sessions::{refused, Host};
use crate::tally::Tally;
use cuzkelor::{start, Account, Refusal, Request, Setup, Tables, Variable, TRACE_SETUP};

/// What one request does to who holds what. A missed write can do several things.
fn events(before: &Caches, after: &Caches, ask: &Ask, bill: Ledger) -> Vec<&'static str> {
    let gone = || {
        let keys = before.copies.keys();
        keys.filter(|key| !after.copies.contains_key(key))
    };
    let mut events = Vec::new();
    if ask.operation == Operation::Clear {
        return vec![match gone().count() {
            0 => "clear of no block",
            _ => "clear of blocks",
        }];
    }
    let evicted = gone().any(|&(i, _)| i == ask.processor);
    let emptied = gone().any(|&(i, _)| i != ask.processor);
    if bill.fetch > 0 {
        events.push(match (evicted, bill.write_back > 0) {
            (false, _) => "miss into an empty line",
            (true, false) => "miss with an eviction",
            (true, true) => "miss with a write-back",
        });
    }
    if bill.update > 0 {
        events.push(match emptied {
            false => "broadcast",
            true => "broadcast that empties the payer's line",
        });
    }
    if events.is_empty() {
        events.push("hit");
    }
    events
}

const EVENTS: [&str; 8] = [
    "broadcast",
    "broadcast that empties the payer's line",
    "clear of blocks",
    "clear of no block",
    "hit",
    "miss into an empty line",
    "miss with a write-back",
    "miss with an eviction",
];

/// Each request in a run of its own, so that the masks are seen after each.
#[test]
fn after_each_request() {
    let mut draw = Draw::for_test("masks after each request");
    let mut tally = Tally::default();
    for _ in 0..500 {
        let board = draw.board();
        let mut caches = Caches::fresh(board);
        let mut lent = fresh(board);
        let count = draw.index(80);
        for ask in draw.asks(board, count) {
            let before = caches.clone();
            let (_, bill) = caches.serve(&ask);
            assert_eq!(compared(board, &mut lent, &[ask]).refusal, 0);
            assert_eq!(lent.tables.masks, masks(&caches), "{ask:?} on {board:?}");
            for event in events(&before, &caches, &ask, bill) {
                tally.count(event);
            }
        }
    }
    tally.close("masks after each request", &EVENTS);
}

fn fresh(board: Board) -> Lent {
    Lent {
        tables: Tables::started(lend::setup(board)).expect("in range"),
        account: Account::default(),
        values: vec![0],
    }
}

/// What a random run leaves behind, lent again with room for one value.
fn used(draw: &mut Draw, board: Board) -> Lent {
    let mut lent = fresh(board);
    let count = draw.index(80);
    let asks = draw.asks(board, count);
    lent.values.resize(count, 0);
    compared(board, &mut lent, &asks);
    lent.values.resize(1, 0);
    lent
}

#[test]
fn by_hand() {
    let mut host = Host::fresh(Setup {
        processors: 8,
        ..TRACE_SETUP
    });
    for processor in 0..8 {
        host.read(processor, 0);
        assert_eq!(host.tables.masks[0], 0xff >> (7 - processor), "a miss");
    }
    host.read(7, 32);
    let line_0 = |host: &Host| (host.tables.masks[0], host.tables.masks[8]);
    assert_eq!(line_0(&host), (0x7f, 0x80), "an eviction");
    for left in (0..4).rev() {
        host.write(6, 0, 9);
        let mask = if left > 0 { 0x7f } else { 0x7e };
        assert_eq!(line_0(&host), (mask, 0x80), "0 pays, with {left} left");
    }
    host.clear(3);
    assert_eq!(line_0(&host), (0x76, 0x80), "a clear");
    host.clear(7);
    assert_eq!(line_0(&host), (0x76, 0), "the last holder");
    host.write(7, 32, 5);
    assert_eq!(line_0(&host), (0x76, 0x80), "a write alone");
    host.read(7, 255);
    assert_eq!(host.tables.masks[63], 0x80, "the last block");
    assert_eq!(host.tables.masks[8], 0x80, "which has another line");
    for unheld in [1..8, 9..63] {
        assert!(host.tables.masks[unheld].iter().all(|&mask| mask == 0));
    }
}

/// Every bit turned over, of every mask: each makes a run refused by 20, with requests or without.
#[test]
fn every_bit() {
    let mut draw = Draw::for_test("every bit of masks");
    let mut tally = Tally::default();
    for _ in 0..100 {
        let board = draw.board();
        let lent = used(&mut draw, board);
        let asks = draw.asks(board, 1);
        for (at, bit) in
            (0..lent.tables.masks.len()).flat_map(|at| (0..8).map(move |bit| (at, bit)))
        {
            let mut lent = lent.clone();
            let mask = &mut lent.tables.masks[at];
            tally.count(match *mask >> bit & 1 {
                1 => "missing",
                _ if bit >= board.n => "at or above N",
                _ if *mask == 0 => "extra, at a block that none holds",
                _ => "extra, at a held block",
            });
            *mask ^= 1 << bit;
            let count = draw.index(2);
            lent.values.truncate(count);
            let outcome = compared(board, &mut lent, &asks[..count]);
            assert_eq!(outcome, Outcome::at_once(20), "bit {bit} of {at}");
        }
    }
    let all = [
        "at or above N",
        "extra, at a block that none holds",
        "extra, at a held block",
        "missing",
    ];
    tally.close("every bit of masks", &all);
}

/// Every length up to twice the right one, of masks whose beginning is true.
#[test]
fn every_length() {
    let mut draw = Draw::for_test("lengths of masks");
    for _ in 0..100 {
        let board = draw.board();
        let asks = draw.asks(board, 1);
        let right = board.m as usize;
        let used = used(&mut draw, board);
        for length in 0..=2 * right {
            let refusal = if length == right { 0 } else { 2 };
            let mut lent = used.clone();
            lent.tables.masks.resize(length, 0);
            let mut tables = lent.tables.clone();
            assert_eq!(compared(board, &mut lent, &asks).refusal, refusal);
            let left = match refusal {
                0 => shown(&Caches::fresh(board)),
                _ => tables.clone(),
            };
            let answer = start(lend::setup(board), &mut tables);
            assert_eq!(lend::number(answer.err()), refusal);
            assert_eq!(tables, left, "started with {length} masks of {right}");
        }
    }
}

/// Makes some mask false.
fn spoil(draw: &mut Draw, tables: &mut Tables) {
    let at = draw.index(tables.masks.len());
    tables.masks[at] ^= 1 << draw.below(8);
}

/// Every set of causes of 1, 10, 2, 20, 21 and 3, in which 2 or 20 is met by the masks, by the tables
/// or by both: the first one refuses. But for 3, which comes at the first request, nothing changes.
#[test]
fn in_order() {
    let mut draw = Draw::for_test("masks among the refusals");
    let mut tally = Tally::default();
    for round in 0..40 * 64u32 {
        let causes = round % 64;
        let mut board = draw.board();
        let mut lent = used(&mut draw, board);
        let mut asks = draw.asks(board, 1);
        if causes & 32 != 0 {
            asks[0].processor = board.n;
        }
        if causes & 16 != 0 {
            lent.account = impossible_account(&mut draw, board);
        }
        if causes & 8 != 0 {
            let which = draw.below(3);
            if which != 0 {
                spoil(&mut draw, &mut lent.tables);
            }
            if which != 1 {
                lent.tables.counters.fill(board.f + 1);
            }
        }
        if causes & 4 != 0 {
            let which = draw.below(3);
            if which != 0 {
                lend::wrong_mask_length(&mut draw, &mut lent.tables);
            }
            if which != 1 {
                lend::wrong_table_length(&mut draw, &mut lent.tables);
            }
        }
        if causes & 2 != 0 {
            board = draw.prices_out_of_range(board);
        }
        if causes & 1 != 0 {
            board = draw.sizes_out_of_range(board);
        }
        let before = lent.clone();
        let outcome = compared(board, &mut lent, &asks);
        let first = [1, 10, 2, 20, 21, 3, 0][causes.trailing_zeros().min(6) as usize];
        assert_eq!(outcome.refusal, first, "causes {causes:b}");
        assert!(first == 0 || lent == before, "nothing changes");
        tally.count(first);
    }
    tally.close("masks among the refusals", &[0, 1, 2, 3, 10, 20, 21]);
}

/// The neighbours of 20, each with a single false bit of the trace's setup.
#[test]
fn beside_their_neighbours() {
    let dear = Setup {
        write_back_price: 5,
        ..TRACE_SETUP
    };
    let spent = Account {
        fetch: 1,
        ..Account::default()
    };
    for (setup, masks, account, refusal) in [
        (dear, 63, spent, Refusal::PriceOutOfRange),
        (dear, 64, Account::default(), Refusal::PriceOutOfRange),
        (TRACE_SETUP, 63, spent, Refusal::WrongLength),
        (TRACE_SETUP, 65, spent, Refusal::WrongLength),
        (TRACE_SETUP, 64, spent, Refusal::UnsoundTables),
        (TRACE_SETUP, 64, Account::default(), Refusal::UnsoundTables),
    ] {
        let mut host = Host::fresh(TRACE_SETUP);
        host.setup = setup;
        host.account = account;
        host.tables.masks.resize(masks, 0);
        host.tables.masks[40] = 8;
        let tables = host.tables.clone();
        let (answer, value) = host.try_one(Request::write(4, Variable(0), 5));
        refused(answer, refusal);
        assert_eq!((host.tables, host.account), (tables, account));
        assert_eq!(value, 0xdead);
    }
}

/// Bytes around the lent masks stay, and the masks lie anywhere.
#[test]
fn margins() {
    const MARGIN: usize = 16;
    let mut draw = Draw::for_test("margins of masks");
    for _ in 0..500 {
        let board = draw.board();
        let mut lent = used(&mut draw, board);
        let asks = draw.asks(board, 1);
        let requests = lend::requests(&asks);
        let mut same = lent.clone();
        compared(board, &mut same, &asks);
        let own = std::mem::take(&mut lent.tables.masks);
        let shift = draw.index(8);
        let mut bytes = draw.bytes(MARGIN + own.len() + MARGIN);
        let place = MARGIN - shift..MARGIN - shift + own.len();
        bytes[place.clone()].copy_from_slice(&own);
        let mut after = bytes.clone();
        after[place.clone()].copy_from_slice(&same.tables.masks);
        let outcome = raw_run(
            board,
            &mut lent,
            &mut bytes[place],
            Request::numbers(&requests),
        );
        assert_eq!(outcome.refusal, 0);
        assert_eq!(bytes, after, "on {board:?}");
    }
}

/// `fill_masks` makes what the model has, of masks of any length that say anything.
#[test]
fn made_anew() {
    let mut draw = Draw::for_test("masks made anew");
    for _ in 0..500 {
        let board = draw.board();
        let lent = used(&mut draw, board);
        let mut tables = lent.tables.clone();
        let length = draw.index(300);
        tables.masks = draw.bytes(length);
        tables.fill_masks(lend::setup(board));
        assert_eq!(tables, lent.tables, "on {board:?}");
        let bad = draw.sizes_out_of_range(board);
        tables.fill_masks(lend::setup(bad));
        assert_eq!(tables.masks, []);
    }
}
