//! Requests per second through `run`, beside a plain engine without masks in the same process. Both
//! serve the same lists in turn; the least time of each counts. Then generated lists, likewise, and
//! whole searches for the cheapest schedule, whose mean times count.

#[path = "../../tests/clock/mod.rs"]
mod clock;
mod generator;
mod plain;
mod plain_generator;
mod plain_search;
mod search;

use cuzkelor::{run, Account, Request, Setup, Tables, Variable};
use std::hint::black_box;
use std::time::Duration;

const BAR: f64 = 1.1;

const SMALL: Setup = cuzkelor::TRACE_SETUP;

const LARGE: Setup = Setup {
    processors: 8,
    lines: 64,
    block_words: 16,
    block_count: 256,
    fetch_price: 16,
    write_back_price: 16,
};

/// With as many blocks as lines: nothing is evicted, and most blocks are held by most processors.
fn few_blocks(setup: Setup) -> Setup {
    Setup {
        block_count: setup.lines,
        ..setup
    }
}

fn of_8(setup: Setup) -> Setup {
    Setup {
        processors: 8,
        ..setup
    }
}

/// A xorshift64* generator.
struct Draw(u64);

impl Draw {
    fn below(&mut self, end: u32) -> u32 {
        self.0 ^= self.0 >> 12;
        self.0 ^= self.0 << 25;
        self.0 ^= self.0 >> 27;
        let word = self.0.wrapping_mul(0x2545_f491_4f6c_dd1d) >> 32;
        ((word * u64::from(end)) >> 32) as u32
    }
}

/// What is asked for: its name in a row, and how one request is drawn.
struct Mix {
    name: &'static str,
    request: fn(&mut Draw, Setup) -> Request,
}

const PARTED: Mix = Mix {
    name: "",
    request: parted,
};

const ANYWHERE: Mix = Mix {
    name: ", half writes anywhere",
    request: anywhere,
};

/// Four of ten requests go to a shared eighth of the variables, the rest to the processor's own part;
/// one of three writes.
fn parted(draw: &mut Draw, setup: Setup) -> Request {
    let variables = setup.block_count * setup.block_words;
    let shared = variables / 8;
    let own = (variables - shared) / setup.processors;
    let processor = draw.below(setup.processors);
    let variable = Variable(match draw.below(10) < 4 {
        true => draw.below(shared),
        false => shared + processor * own + draw.below(own),
    });
    match draw.below(3) {
        0 => Request::write(processor, variable, draw.below(u32::MAX)),
        _ => Request::read(processor, variable),
    }
}

/// Any processor and any variable; one of two requests writes.
fn anywhere(draw: &mut Draw, setup: Setup) -> Request {
    let processor = draw.below(setup.processors);
    let variable = Variable(draw.below(setup.block_count * setup.block_words));
    match draw.below(2) {
        0 => Request::write(processor, variable, draw.below(u32::MAX)),
        _ => Request::read(processor, variable),
    }
}

/// What a list of runs leaves behind.
#[derive(PartialEq, Debug)]
struct Left {
    tables: Tables,
    account: Account,
    values: Vec<u32>,
}

impl Left {
    fn fresh(setup: Setup, run_length: usize) -> Left {
        Left {
            tables: Tables::started(setup).expect("in range"),
            account: Account::default(),
            values: vec![0; run_length],
        }
    }
}

fn through_archive(setup: Setup, lists: &[Vec<Request>], left: &mut Left) {
    for list in lists {
        let answer = run(
            setup,
            &mut left.tables,
            &mut left.account,
            list,
            &mut left.values,
        );
        assert_eq!(answer, Ok(()));
    }
}

fn through_plain(setup: Setup, lists: &[Vec<Request>], left: &mut Left) {
    for list in lists {
        let answer = plain::run(
            setup,
            &mut left.tables,
            &mut left.account,
            Request::numbers(list),
            &mut left.values,
        );
        assert_eq!(answer.0, list.len());
    }
}

type Engine = fn(Setup, &[Vec<Request>], &mut Left);

fn timed(engine: Engine, setup: Setup, lists: &[Vec<Request>]) -> (Duration, Left) {
    let mut left = Left::fresh(setup, lists[0].len());
    let ((), time) = clock::timed(|| engine(setup, lists, &mut left));
    (time, left)
}

/// The least times of both engines, in turn.
fn least(setup: Setup, lists: &[Vec<Request>], times: u32) -> (Duration, Duration) {
    let mut least = (Duration::MAX, Duration::MAX);
    for _ in 0..times {
        let (archive, left) = timed(through_archive, setup, lists);
        let (plain, mut same) = timed(through_plain, setup, lists);
        same.tables.fill_masks(setup);
        assert_eq!(left, same, "both engines leave the same behind");
        least = (least.0.min(archive), least.1.min(plain));
    }
    least
}

/// A setup's letters and numbers.
fn name(setup: Setup) -> String {
    let (n, l, p, m) = (
        setup.processors,
        setup.lines,
        setup.block_words,
        setup.block_count,
    );
    let (f, g) = (setup.fetch_price, setup.write_back_price);
    format!("N {n} L {l} p {p} M {m} f {f} g {g}")
}

fn measure(setup: Setup, mix: &Mix, requests: usize, run_length: usize, times: u32) -> f64 {
    // Neither engine is compiled for the numbers of one setup.
    let setup = black_box(setup);
    let mut draw = Draw(1988);
    let mut request = || (mix.request)(&mut draw, setup);
    let lists: Vec<Vec<Request>> = (0..requests / run_length)
        .map(|_| (0..run_length).map(|_| request()).collect())
        .collect();
    let (archive, plain) = least(setup, &lists, times);
    let rate = |time: Duration| requests as f64 / time.as_secs_f64() / 1e6;
    let ratio = archive.as_secs_f64() / plain.as_secs_f64();
    println!(
        "{}{}, runs of {run_length:>7}: archive {:8.3} million requests/s, plain {:8.3}, ratio {ratio:.3}",
        name(setup),
        mix.name,
        rate(archive),
        rate(plain)
    );
    ratio
}

/// Says whether a ratio, unrounded, meets its bar.
fn judge(what: &str, ratio: f64, bar: f64) {
    let verdict = if ratio <= bar { "met" } else { "missed" };
    println!("ratio {ratio:.3} at {what}; bar {bar}: {verdict}");
}

fn main() {
    let times = std::env::args()
        .nth(1)
        .map_or(15, |text| text.parse().expect("how often"));
    println!("least time of {times} each, in turn");
    let ratio = measure(SMALL, &PARTED, 1_000_000, 1_000_000, times);
    measure(SMALL, &PARTED, 1_000_000, 1_000, times);
    measure(SMALL, &PARTED, 100_000, 1, times);
    measure(LARGE, &PARTED, 1_000_000, 1_000_000, times);
    measure(LARGE, &PARTED, 1_000_000, 1_000, times);
    measure(LARGE, &PARTED, 5_000, 1, times);
    judge("runs of 1,000,000 on the trace's setup", ratio, BAR);
    for setup in [
        few_blocks(SMALL),
        few_blocks(of_8(SMALL)),
        few_blocks(LARGE),
        of_8(SMALL),
        LARGE,
    ] {
        measure(setup, &ANYWHERE, 1_000_000, 1_000_000, times);
        measure(setup, &ANYWHERE, 1_000_000, 1_000, times);
    }
    let ratio = generator::measure(SMALL, 1_000_000, 1_000_000, times);
    generator::measure(SMALL, 1_000_000, 1_000, times);
    generator::measure(SMALL, 1_000_000, 1, times);
    generator::measure(LARGE, 1_000_000, 1_000_000, times);
    generator::measure(LARGE, 1_000_000, 1_000, times);
    generator::measure(LARGE, 1_000_000, 1, times);
    judge(
        "lists of 1,000,000 on the trace's setup",
        ratio,
        generator::BAR,
    );
    for kind in [&search::RANDOM, &search::WORST] {
        let ratio = search::measure(kind, 60, times);
        judge(kind.name, ratio, search::BAR);
    }
}
