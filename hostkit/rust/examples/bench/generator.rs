//! Requests and draws per second through `generate_into`, beside a plain generator in the same
//! process. Both fill lists from the same seeds in turn; the least time of each counts.

use crate::{clock, name, plain_generator};
use cuzkelor::{generate_into, Request, Setup, Variable};
use std::hint::black_box;
use std::time::Duration;

pub const BAR: f64 = 1.25;

/// Draws that a request uses.
const DRAWS: f64 = 3.0;

/// Fills a list from one seed after another. No call is compiled for the numbers of one setup, or
/// has them checked before.
fn through_archive(setup: Setup, seeds: u32, list: &mut [Request]) {
    for seed in 1..=seeds {
        assert_eq!(generate_into(black_box(setup), seed, list), Ok(()));
    }
}

fn through_plain(setup: Setup, seeds: u32, numbers: &mut [u32]) {
    for seed in 1..=seeds {
        assert_eq!(
            plain_generator::generate(black_box(setup), seed, numbers),
            0
        );
    }
}

/// The least times of both generators, in turn.
fn least(setup: Setup, seeds: u32, list_length: usize, times: u32) -> (Duration, Duration) {
    let mut list = vec![Request::write(1, Variable(1), 1); list_length];
    let mut numbers = vec![1; 4 * list_length];
    let mut least = (Duration::MAX, Duration::MAX);
    for _ in 0..times {
        let ((), archive) = clock::timed(|| through_archive(setup, seeds, &mut list));
        let ((), plain) = clock::timed(|| through_plain(setup, seeds, &mut numbers));
        assert_eq!(
            Request::numbers(&list),
            numbers,
            "both generators fill the same list"
        );
        least = (least.0.min(archive), least.1.min(plain));
    }
    least
}

/// The archive's time by the plain generator's.
pub fn measure(setup: Setup, requests: u32, list_length: u32, times: u32) -> f64 {
    let (archive, plain) = least(setup, requests / list_length, list_length as usize, times);
    let rate = |time: Duration| f64::from(requests) / time.as_secs_f64() / 1e6;
    let ratio = archive.as_secs_f64() / plain.as_secs_f64();
    println!(
        "{}, lists of {list_length:>7}: archive {:8.3} million requests/s ({:8.3} draws), plain {:8.3} ({:8.3}), ratio {ratio:.3}",
        name(setup),
        rate(archive),
        DRAWS * rate(archive),
        rate(plain),
        DRAWS * rate(plain),
    );
    ratio
}
