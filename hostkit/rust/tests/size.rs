//! The pricer at its limits of size: accepted there, refused one past them, and linear in time.

use cuzkelor::{price, Block, Entry, Refusal, Request, RivalTables, Setup, Variable};
use std::time::Duration;

mod clock;

const SETUP: Setup = Setup {
    processors: 4,
    lines: 8,
    block_words: 4,
    block_count: 64,
    fetch_price: 32,
    write_back_price: 31,
};

/// The request at a place, spread over processors and blocks; every second one writes.
fn request(place: u32) -> Request {
    let variable = Variable(place.wrapping_mul(7) % 256);
    match place % 2 {
        0 => Request::read(place / 2 % 4, variable),
        _ => Request::write(place / 2 % 4, variable, place),
    }
}

/// Four entries that serve a request and leave the caches empty again, at 32 + 0 + 31 + 0 cycles.
fn round(place: u32) -> [Entry; 4] {
    let request = request(place);
    let variable = request.variable().expect("no clear");
    let (i, block) = (request.processor(), SETUP.block_of(variable));
    [
        Entry::fetch(i, block),
        Entry::COMPLETE,
        Entry::write_back(i, block),
        Entry::drop(i, block),
    ]
}

fn lists(rounds: u32) -> (Vec<Entry>, Vec<Request>) {
    let schedule = (0..rounds).flat_map(round).collect();
    (schedule, (0..rounds).map(request).collect())
}

/// Tables that hold anything before the call.
fn used_tables() -> RivalTables {
    let mut tables = RivalTables::sized(SETUP);
    tables.blocks.fill(11);
    tables.held.fill(12);
    tables.marks.fill(13);
    tables
}

/// Prices a schedule of so many rounds, checks its cost, and gives the least time of five calls.
fn least_time(rounds: u32) -> Duration {
    let (schedule, requests) = lists(rounds);
    let call = |_| {
        let mut tables = used_tables();
        let (answer, time) = clock::timed(|| price(SETUP, &mut tables, &schedule, &requests));
        assert_eq!(answer, Ok(63 * rounds));
        assert_eq!(tables, RivalTables::sized(SETUP));
        time
    };
    (0..5).map(call).min().expect("five calls")
}

#[test]
fn linear_up_to_the_limit() {
    let times = [250_000, 500_000, 1_000_000].map(least_time);
    for (entries, time) in [1, 2, 4].into_iter().zip(times) {
        println!("size: {entries},000,000 entries priced in {time:.1?}");
    }
    assert!(times[2] < 8 * times[0], "time grows with length only");
}

fn refused_by_5(schedule: &[Entry], requests: &[Request]) {
    let mut tables = used_tables();
    let error = price(SETUP, &mut tables, schedule, requests).expect_err("too many");
    assert_eq!((error.refusal, error.place), (Refusal::TooMany, 0));
    assert_eq!(tables, used_tables(), "tables unchanged");
}

#[test]
fn one_past_the_limits() {
    let (mut schedule, mut requests) = lists(1_000_000);
    schedule.push(Entry::fetch(0, Block(0)));
    assert_eq!(schedule.len(), 4_000_001);
    refused_by_5(&schedule, &requests);
    requests.push(request(0));
    assert_eq!(requests.len(), 1_000_001);
    refused_by_5(&[], &requests);
    println!("size: 4,000,001 entries and 1,000,001 requests refused by 5");
}
