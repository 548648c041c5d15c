//! Clears one by one: what is written back, what is left in the other caches, and where clears are
//! refused. The pricer's and the traces' are in `schedules` and `traces`.

use crate::sessions::{priced, refused, Host};
use cuzkelor::{Account, Refusal, Request, Setup, Tables, TRACE_SETUP};

/// Marked blocks in lines 0 and 3, and an unmarked one in line 7 that another cache has too, beside a
/// marked one of its own.
#[test]
fn marked_and_unmarked_blocks() {
    let mut host = Host::fresh(priced(5, 4));
    host.write(1, 0, 7);
    host.write(1, 13, 8);
    host.write(1, 31, 6);
    host.read(2, 31);
    host.write(2, 40, 9);
    let mut after = host.tables.clone();
    assert_eq!(after.marks[8..16], [1, 0, 0, 1, 0, 0, 0, 0]);
    assert_eq!(after.counters[8..16], [5, 0, 0, 5, 0, 0, 0, 5]);
    (after.memory[0], after.memory[13]) = (7, 8);
    for table in [&mut after.blocks, &mut after.counters, &mut after.marks] {
        table[8..16].fill(0);
    }
    after.words[32..64].fill(0);
    assert_eq!(after.masks[..11], [2, 0, 0, 2, 0, 0, 0, 6, 0, 0, 4]);
    after.masks[..11].copy_from_slice(&[0, 0, 0, 0, 0, 0, 0, 4, 0, 0, 4]);
    assert_eq!(host.clear(1), (0, [0, 2 * 4, 0]));
    assert_eq!(host.tables, after);
    assert_eq!(host.clear(1), (0, [0, 0, 0]));
    assert_eq!(host.tables, after, "an empty cache");
    assert_eq!(host.clear(2), (0, [0, 4, 0]));
    assert_eq!(
        (host.tables.counters, host.tables.memory[40]),
        (vec![0; 32], 9)
    );
}

#[test]
fn fresh_tables() {
    let mut host = Host::fresh(TRACE_SETUP);
    assert_eq!(host.clear(3), (0, [0, 0, 0]));
    assert_eq!(host.tables, Tables::sized(TRACE_SETUP));
    let account = Account {
        requests: 1,
        ..Account::default()
    };
    assert_eq!(host.account, account);
}

/// The last other holder is cleared: the next write is alone.
#[test]
fn a_shared_block() {
    let mut host = Host::fresh(TRACE_SETUP);
    host.read(0, 0);
    host.read(1, 0);
    assert_eq!(host.write(1, 0, 5), (5, [0, 0, 1]));
    assert_eq!(host.clear(0), (0, [0, 0, 0]));
    assert_eq!(host.line_0(0), (0, 0));
    assert_eq!(host.line_0(1), (4, 0));
    assert_eq!(host.write(1, 0, 6), (6, [0, 0, 0]));
    assert_eq!(host.line_0(1), (4, 1));
}

#[test]
fn the_last_value_after_a_clear() {
    let mut host = Host::fresh(TRACE_SETUP);
    host.write(0, 3, 7);
    assert_eq!(host.clear(0), (0, [0, 4, 0]));
    assert_eq!(host.read(0, 3), (7, [4, 0, 0]));
    assert_eq!(host.read(1, 3), (7, [4, 0, 0]));
    assert_eq!(host.line_0(0), (4, 0));
}

/// 3 comes before 22, and neither changes anything.
#[test]
fn refused_clears() {
    let mut host = Host::fresh(TRACE_SETUP);
    host.write(3, 0, 7);
    for (requests, processor, refusal) in [
        (1, 4, Refusal::NoSuchProcessor),
        (1_000_000, 4, Refusal::NoSuchProcessor),
        (1_000_000, 3, Refusal::AccountFull),
    ] {
        host.account.requests = requests;
        let (tables, account) = (host.tables.clone(), host.account);
        let (answer, value) = host.try_one(Request::clear(processor));
        refused(answer, refusal);
        assert_eq!(value, 0xdead);
        assert_eq!((&host.tables, host.account), (&tables, account));
    }
}

/// A clear of every line at the highest price, as the account's last request, on the limit of 21.
#[test]
fn the_most_write_back_cycles() {
    let mut host = Host::fresh(Setup {
        processors: 8,
        lines: 64,
        block_words: 16,
        block_count: 256,
        fetch_price: 32,
        write_back_price: 32,
    });
    let variables: Vec<u32> = (0..64).map(|line| 16 * (64 * (line % 4) + line)).collect();
    for &variable in &variables {
        assert_eq!(host.write(7, variable, variable + 1).1, [32, 0, 0]);
    }
    host.account = Account {
        requests: 999_999,
        write_back: 64 * 32 * 999_999,
        ..Account::default()
    };
    assert_eq!(host.clear(7), (0, [0, 64 * 32, 0]));
    assert_eq!(host.account.write_back, 2_048_000_000);
    for variable in variables {
        assert_eq!(host.tables.memory[variable as usize], variable + 1);
    }
    refused(host.try_one(Request::clear(7)).0, Refusal::AccountFull);
}
