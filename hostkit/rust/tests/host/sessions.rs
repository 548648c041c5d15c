//! The document's own cases, S1 to S12, some of them at other prices, who pays, and the printed
//! trace, with nothing but the safe functions.

use cuzkelor::{
    count_trace, generate, look, run, start, Account, Block, Refusal, Request, RunError, Setup,
    Tables, Variable, TRACE_SETUP,
};

/// Tables and account of one host.
pub struct Host {
    pub setup: Setup,
    pub tables: Tables,
    pub account: Account,
}

impl Host {
    pub fn fresh(setup: Setup) -> Host {
        Host {
            setup,
            tables: Tables::started(setup).expect("in range"),
            account: Account::default(),
        }
    }

    /// One request that is taken: its value, and the cycles of fetch, write-back and update.
    pub fn one(&mut self, request: Request) -> (u32, [u32; 3]) {
        let before = self.account;
        let (answer, value) = self.try_one(request);
        assert_eq!(answer, Ok(()));
        assert_eq!(self.account.requests, before.requests + 1);
        let cycles = [
            self.account.fetch - before.fetch,
            self.account.write_back - before.write_back,
            self.account.update - before.update,
        ];
        (value, cycles)
    }

    pub fn try_one(&mut self, request: Request) -> (Result<(), RunError>, u32) {
        let mut values = [0xdead];
        let answer = run(
            self.setup,
            &mut self.tables,
            &mut self.account,
            &[request],
            &mut values,
        );
        (answer, values[0])
    }

    pub fn read(&mut self, processor: u32, variable: u32) -> (u32, [u32; 3]) {
        self.one(Request::read(processor, Variable(variable)))
    }

    pub fn write(&mut self, processor: u32, variable: u32, value: u32) -> (u32, [u32; 3]) {
        self.one(Request::write(processor, Variable(variable), value))
    }

    pub fn clear(&mut self, processor: u32) -> (u32, [u32; 3]) {
        self.one(Request::clear(processor))
    }

    /// Counter and mark of line 0, where block 0 stands.
    pub fn line_0(&self, processor: u32) -> (u32, u32) {
        let at = (processor * self.setup.lines) as usize;
        (self.tables.counters[at], self.tables.marks[at])
    }

    fn words(&self, processor: u32, block: u32) -> &[u32] {
        look(self.setup, &self.tables, processor, Block(block))
    }
}

/// The first request was refused by this.
pub fn refused(answer: Result<(), RunError>, refusal: Refusal) {
    let error = answer.expect_err("a refusal");
    assert_eq!((error.refusal, error.taken, error.place), (refusal, 0, 0));
}

fn after_s1() -> Host {
    let mut host = Host::fresh(TRACE_SETUP);
    assert_eq!(host.read(0, 0), (0, [4, 0, 0]));
    host
}

fn after_s3() -> Host {
    let mut host = after_s1();
    assert_eq!(host.write(0, 0, 7), (7, [0, 0, 0]));
    host
}

fn after_s4() -> Host {
    let mut host = after_s3();
    assert_eq!(host.read(1, 0), (7, [4, 0, 0]));
    host
}

fn after_s5() -> Host {
    let mut host = after_s4();
    for value in 1..=4 {
        let left = host.line_0(1);
        assert_eq!(left, (5 - value, 0));
        assert_eq!(host.write(0, value % 4, value), (value, [0, 0, 1]));
    }
    host
}

#[test]
fn s1_a_read_fetches() {
    let host = after_s1();
    assert_eq!(host.line_0(0), (4, 0));
    assert_eq!(host.words(0, 0), [0; 4]);
}

#[test]
fn s2_the_same_read_again() {
    let mut host = after_s1();
    let before = host.tables.clone();
    assert_eq!(host.read(0, 0), (0, [0, 0, 0]));
    assert_eq!(host.tables, before);
}

#[test]
fn s3_a_lone_write_marks() {
    let host = after_s3();
    assert_eq!(host.line_0(0), (4, 1));
    assert_eq!(host.tables.memory[0], 0);
}

#[test]
fn s4_a_fetch_clears_the_mark() {
    let host = after_s4();
    assert_eq!(host.line_0(0), (4, 0));
    assert_eq!(host.line_0(1), (4, 0));
    assert_eq!(host.tables.memory[0], 7);
}

#[test]
fn s5_four_writes_empty_the_payer() {
    let host = after_s5();
    assert_eq!(host.line_0(0), (4, 0));
    assert_eq!(host.line_0(1), (0, 0));
    assert!(host.words(1, 0).is_empty());
    assert_eq!(host.words(0, 0), [4, 1, 2, 3]);
    assert_eq!(host.tables.memory[..4], [4, 1, 2, 3]);
}

#[test]
fn s6_a_fifth_write_is_alone() {
    let mut host = after_s5();
    assert_eq!(host.write(0, 0, 9), (9, [0, 0, 0]));
    assert_eq!(host.line_0(0), (4, 1));
    assert_eq!(host.tables.memory[0], 4);
}

#[test]
fn s7_a_marked_block_is_written_back() {
    let mut host = after_s3();
    assert_eq!(host.read(0, 32), (0, [4, 4, 0]));
    assert_eq!(host.tables.memory[0], 7);
    assert_eq!(host.tables.blocks[0], 8);
}

#[test]
fn s8_an_unmarked_block_goes_for_nothing() {
    let mut host = after_s1();
    assert_eq!(host.read(0, 32), (0, [4, 0, 0]));
}

#[test]
fn s9_of_equal_counters_the_lowest_pays() {
    let mut host = Host::fresh(TRACE_SETUP);
    for processor in 0..3 {
        host.read(processor, 0);
    }
    assert_eq!(host.write(1, 0, 5), (5, [0, 0, 1]));
    assert_eq!(host.line_0(0), (3, 0));
    assert_eq!(host.line_0(1), (4, 0));
    assert_eq!(host.line_0(2), (4, 0));
}

/// Beside S9: counters 4 and 2.
#[test]
fn the_weakest_other_holder_pays() {
    let mut host = Host::fresh(TRACE_SETUP);
    host.read(0, 0);
    host.read(2, 0);
    host.write(0, 0, 5);
    host.write(0, 0, 6);
    host.read(1, 0);
    assert_eq!((host.line_0(0), host.line_0(2)), ((4, 0), (2, 0)));
    assert_eq!(host.write(1, 0, 7), (7, [0, 0, 1]));
    assert_eq!(host.line_0(0), (4, 0));
    assert_eq!(host.line_0(1), (4, 0));
    assert_eq!(host.line_0(2), (1, 0));
}

/// A write to block 0 by `writer`, where the four caches have these counters of it, 0 for no copy.
fn write_over(counters: [u32; 4], writer: u32) {
    let mut host = Host::fresh(TRACE_SETUP);
    for (at, counter) in host.tables.counters.iter_mut().step_by(8).zip(counters) {
        *at = counter;
    }
    let holders = (0..4).filter(|&i| counters[i] > 0);
    host.tables.masks[0] = holders.map(|i| 1 << i).sum();
    let payer = (0..4)
        .filter(|&i| i != writer && counters[i as usize] > 0)
        .min_by_key(|&i| counters[i as usize]);
    let missed = counters[writer as usize] == 0;
    let cycles = [4 * u32::from(missed), 0, u32::from(payer.is_some())];
    assert_eq!(host.write(writer, 0, 5), (5, cycles));
    for (i, before) in (0..).zip(counters) {
        let after = match i {
            _ if i == writer => (4, u32::from(payer.is_none())),
            _ => (before - u32::from(payer == Some(i)), 0),
        };
        assert_eq!(host.line_0(i), after, "{counters:?}, {writer} writes");
    }
}

#[test]
fn the_payer_of_any_counters() {
    for number in 0..5_u32.pow(4) {
        for writer in 0..4 {
            write_over([125, 25, 5, 1].map(|place| number / place % 5), writer);
        }
    }
}

/// From fresh tables at most one copy of a block has a counter that is not full.
#[test]
fn one_copy_below_full() {
    let setup = Setup {
        processors: 8,
        lines: 2,
        block_words: 2,
        block_count: 5,
        fetch_price: 6,
        write_back_price: 1,
    };
    for (setup, seed) in [(TRACE_SETUP, 7), (setup, 8), (priced(3, 2), 9)] {
        let mut host = Host::fresh(setup);
        for request in generate(setup, seed, 5000).expect("in range") {
            host.one(request);
            let lines = || host.tables.blocks.iter().zip(&host.tables.counters);
            for (block, _) in lines().filter(|(_, &counter)| counter > 0) {
                let below = |counter| (1..setup.fetch_price).contains(counter);
                let copies = lines().filter(|(other, counter)| *other == block && below(counter));
                assert!(copies.count() <= 1, "block {block}, seed {seed}");
            }
        }
    }
}

#[test]
fn s10_one_word_two_holders() {
    let mut host = Host::fresh(Setup {
        block_words: 1,
        fetch_price: 1,
        write_back_price: 1,
        ..TRACE_SETUP
    });
    host.read(0, 0);
    host.read(1, 0);
    assert_eq!(host.write(0, 0, 5), (5, [0, 0, 1]));
    assert_eq!(host.line_0(0), (1, 0));
    assert_eq!(host.line_0(1), (0, 0));
}

#[test]
fn s11_the_empty_list() {
    let mut host = after_s3();
    let (tables, account) = (host.tables.clone(), host.account);
    let answer = run(
        host.setup,
        &mut host.tables,
        &mut host.account,
        &[],
        &mut [],
    );
    assert_eq!(answer, Ok(()));
    assert_eq!((host.tables, host.account), (tables, account));
}

#[test]
fn s12_the_last_request_of_an_account() {
    let mut host = Host::fresh(TRACE_SETUP);
    host.account = Account {
        requests: 999_999,
        fetch: 4 * 999_999,
        write_back: 4 * 999_999,
        update: 999_999,
    };
    assert_eq!(host.read(0, 0), (0, [4, 0, 0]));
    assert_eq!(host.account.requests, 1_000_000);
    let (tables, account) = (host.tables.clone(), host.account);
    let (answer, value) = host.try_one(Request::read(0, Variable(0)));
    refused(answer, Refusal::AccountFull);
    assert_eq!(value, 0xdead);
    assert_eq!((host.tables, host.account), (tables, account));
}

#[test]
fn the_last_variable() {
    let mut host = Host::fresh(TRACE_SETUP);
    assert_eq!(host.read(0, 255), (0, [4, 0, 0]));
    let (answer, _) = host.try_one(Request::read(0, Variable(256)));
    refused(answer, Refusal::NoSuchVariable);
}

#[test]
fn the_last_processor() {
    let of = |processors| Setup {
        processors,
        ..TRACE_SETUP
    };
    assert!(Tables::started(of(8)).is_ok());
    assert_eq!(Tables::started(of(9)), Err(Refusal::SetupOutOfRange));
    let mut tables = Tables::sized(of(8));
    assert_eq!(start(of(9), &mut tables), Err(Refusal::SetupOutOfRange));
}

pub fn priced(fetch_price: u32, write_back_price: u32) -> Setup {
    Setup {
        fetch_price,
        write_back_price,
        ..TRACE_SETUP
    }
}

/// S1 and S3 to S6 at any prices: as many writes as a fetch has cycles empty the payer's line, and
/// the next one is alone.
fn writes_empty_the_payer(setup: Setup) {
    let full = setup.fetch_price;
    let mut host = Host::fresh(setup);
    assert_eq!(host.read(0, 0), (0, [full, 0, 0]));
    assert_eq!(host.write(0, 0, 7), (7, [0, 0, 0]));
    assert_eq!(host.line_0(0), (full, 1));
    assert_eq!(host.read(1, 0), (7, [full, 0, 0]));
    for left in (1..=full).rev() {
        assert_eq!(host.line_0(1), (left, 0));
        assert_eq!(host.write(0, left % 4, left), (left, [0, 0, 1]));
    }
    assert_eq!(host.line_0(1), (0, 0));
    assert_eq!(host.write(0, 0, 9), (9, [0, 0, 0]));
    assert_eq!(host.line_0(0), (full, 1));
}

/// A fetch above, at and below the 4 words of a block.
#[test]
fn counters_follow_the_fetch_price() {
    for fetch_price in [1, 2, 3, 4, 5, 6, 17, 32] {
        writes_empty_the_payer(priced(fetch_price, 1));
        writes_empty_the_payer(priced(fetch_price, fetch_price));
    }
}

/// S7 at other prices, on the pipelined bus of document 003 among them.
#[test]
fn a_write_back_at_its_own_price() {
    for [fetch_price, write_back_price] in [[5, 4], [32, 1], [2, 1], [1, 1]] {
        let mut host = Host::fresh(priced(fetch_price, write_back_price));
        host.write(0, 0, 7);
        let cycles = [fetch_price, write_back_price, 0];
        assert_eq!(host.read(0, 32), (0, cycles));
        assert_eq!(host.tables.memory[0], 7);
    }
}

/// 21 at a fetch of 5 cycles, a write-back of 4 and 8 lines to write back, on each limit and one over
/// it; a limit beyond 32 bits meets nothing.
#[test]
fn an_account_at_its_limits() {
    let most = |requests: u32| Account {
        requests,
        fetch: 5 * requests,
        write_back: 4 * 8 * requests,
        update: requests,
    };
    let run_none = |account: Account| {
        let mut host = Host::fresh(priced(5, 4));
        run(host.setup, &mut host.tables, &mut { account }, &[], &mut [])
    };
    for requests in [1 << 27, 800_000_000] {
        let beyond = Account {
            requests,
            fetch: 5 * requests,
            write_back: u32::MAX,
            update: requests,
        };
        assert_eq!(run_none(beyond), Ok(()));
    }
    for requests in [0, 1, 999_999, 134_217_727] {
        let full = most(requests);
        assert_eq!(run_none(full), Ok(()));
        let [mut fetch, mut write_back, mut update] = [full; 3];
        fetch.fetch += 1;
        write_back.write_back += 1;
        update.update += 1;
        for over in [fetch, write_back, update] {
            refused(run_none(over), Refusal::ImpossibleAccount);
        }
    }
}

#[test]
fn the_last_price() {
    assert!(Tables::started(priced(32, 32)).is_ok());
    for (fetch_price, write_back_price) in [(0, 0), (0, 1), (33, 32), (33, 33), (4, 0), (4, 5)] {
        let setup = priced(fetch_price, write_back_price);
        assert_eq!(Tables::started(setup), Err(Refusal::PriceOutOfRange));
    }
}

#[test]
fn the_printed_trace() {
    let trace = b"0 00000000\n0 01000000\n1 00000000\n1 4\n";
    let account = count_trace(trace, &mut Tables::sized(TRACE_SETUP));
    let printed = Account {
        requests: 4,
        fetch: 8,
        write_back: 0,
        update: 2,
    };
    assert_eq!(account, Ok(printed));
    assert_eq!(printed.total(), 10);
}
