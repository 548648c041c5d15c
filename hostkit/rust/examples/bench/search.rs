//! Whole searches for the cheapest schedule of 24 requests through `best_in`, beside a plain search in
//! the same process. Both search for the same lists in turn; the mean time of each counts.

use crate::plain_search::{Cheapest, Search};
use crate::{clock, Draw};
use cuzkelor::{
    best_in, price, BestSchedule, Request, RivalTables, SearchTables, Setup, Variable, ENOUGH_STEPS,
};
use std::hint::black_box;
use std::time::Duration;

pub const BAR: f64 = 3.0;

const REQUESTS: usize = 24;

/// A setup and a list of requests to search for.
struct Sought {
    setup: Setup,
    requests: Vec<Request>,
}

/// Which lists are searched for: their name in a row, the numbers of lines, and how many of a hundred
/// requests write and clear.
pub struct Kind {
    pub name: &'static str,
    lines: &'static [u32],
    writes: &'static [u32],
    clears: &'static [u32],
}

/// Any number of lines up to the number of blocks and beyond, any mix.
pub const RANDOM: Kind = Kind {
    name: "random lists",
    lines: &[1, 2, 3, 4, 8],
    writes: &[20, 40, 60, 80],
    clears: &[0, 2, 4],
};

/// No block is in another one's way and every request writes: no other lists that were tried took as
/// many steps.
pub const WORST: Kind = Kind {
    name: "worst lists",
    lines: &[4],
    writes: &[100],
    clears: &[0],
};

fn request(draw: &mut Draw, writes: u32, clears: u32) -> Request {
    let (processor, variable) = (draw.below(2), Variable(draw.below(4)));
    if draw.below(100) < clears {
        return Request::clear(processor);
    }
    match draw.below(100) < writes {
        true => Request::write(processor, variable, draw.below(u32::MAX)),
        false => Request::read(processor, variable),
    }
}

fn sought(draw: &mut Draw, kind: &Kind) -> Sought {
    let mut pick = |from: &[u32]| from[draw.below(from.len() as u32) as usize];
    let (lines, writes, clears) = (pick(kind.lines), pick(kind.writes), pick(kind.clears));
    let fetch_price = 1 + draw.below(32);
    Sought {
        setup: Setup {
            processors: 2,
            lines,
            block_words: 1,
            block_count: 4,
            fetch_price,
            write_back_price: 1 + draw.below(fetch_price),
        },
        requests: (0..REQUESTS)
            .map(|_| request(draw, writes, clears))
            .collect(),
    }
}

/// What is lent to the archive, and what the plain search keeps.
struct Searches {
    archive: SearchTables,
    plain: Search,
}

impl Searches {
    fn through_archive(&mut self, lists: &[Sought]) -> Vec<BestSchedule> {
        let mut search = |sought: &Sought| {
            let setup = black_box(sought.setup);
            best_in(setup, &mut self.archive, &sought.requests, ENOUGH_STEPS).expect("searchable")
        };
        lists.iter().map(&mut search).collect()
    }

    fn through_plain(&mut self, lists: &[Sought]) -> Vec<Cheapest> {
        let mut search = |sought: &Sought| {
            let (setup, requests) = (black_box(sought.setup), Request::numbers(&sought.requests));
            self.plain.cheapest(setup, requests).expect("searchable")
        };
        lists.iter().map(&mut search).collect()
    }
}

/// Both found a schedule of the same cost; which of the cheapest ones is up to each.
fn compare(sought: &Sought, archive: &BestSchedule, plain: &Cheapest) {
    let Sought { setup, requests } = sought;
    assert!(archive.least);
    assert_eq!((archive.cost, archive.excess), (plain.cost, plain.excess));
    for schedule in [&archive.entries, &plain.entries] {
        let cost = price(*setup, &mut RivalTables::sized(*setup), schedule, requests);
        assert_eq!(cost, Ok(plain.cost));
    }
}

/// The times of both searches for all lists, and the steps of the archive's.
fn timed(searches: &mut Searches, lists: &[Sought]) -> (Duration, Duration, Vec<u32>) {
    let (found, archive) = clock::timed(|| searches.through_archive(lists));
    let (same, plain) = clock::timed(|| searches.through_plain(lists));
    for (sought, (found, same)) in lists.iter().zip(found.iter().zip(&same)) {
        compare(sought, found, same);
    }
    let steps = found.iter().map(|one| one.steps).collect();
    (archive, plain, steps)
}

/// The archive's mean time by the plain search's.
pub fn measure(kind: &Kind, count: u32, times: u32) -> f64 {
    let mut draw = Draw(1988);
    let lists: Vec<Sought> = (0..count).map(|_| sought(&mut draw, kind)).collect();
    let mut searches = Searches {
        archive: SearchTables::new(),
        plain: Search::new(),
    };
    let (mut archive, mut plain, mut steps) = timed(&mut searches, &lists);
    for _ in 1..times {
        let again = timed(&mut searches, &lists);
        (archive, plain, steps) = (archive + again.0, plain + again.1, again.2);
    }
    let mean = |time: Duration| time.as_secs_f64() * 1e3 / f64::from(times * count);
    let ratio = archive.as_secs_f64() / plain.as_secs_f64();
    println!(
        "{count} {} of {REQUESTS} requests, {} steps each, at most {}: archive {:.3} ms, plain {:.3}, ratio of means {ratio:.3}",
        kind.name,
        steps.iter().sum::<u32>() / count,
        steps.iter().max().expect("some lists"),
        mean(archive),
        mean(plain),
    );
    ratio
}
