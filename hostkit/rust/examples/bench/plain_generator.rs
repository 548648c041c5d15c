//! The generator in plain Rust, with no proof: the yardstick. The same checks, and the same four
//! numbers a request.

use cuzkelor::Setup;

const LIMIT: usize = 1_000_000;

/// Marsaglia's xorshift.
struct Xorshift(u32);

impl Xorshift {
    #[inline]
    fn draw(&mut self) -> u32 {
        self.0 ^= self.0 << 13;
        self.0 ^= self.0 >> 17;
        self.0 ^= self.0 << 5;
        self.0
    }
}

fn refusal(setup: Setup, seed: u32, length: usize) -> u32 {
    if !setup.sizes_in_range() {
        return 1;
    }
    if !setup.prices_in_range() {
        return 10;
    }
    if length % 4 != 0 {
        return 2;
    }
    if seed == 0 {
        return 11;
    }
    if length / 4 > LIMIT {
        return 5;
    }
    0
}

/// Fills a list; the refusal number or 0.
pub fn generate(setup: Setup, seed: u32, numbers: &mut [u32]) -> u32 {
    let refusal = refusal(setup, seed, numbers.len());
    if refusal != 0 {
        return refusal;
    }
    let variables = setup.block_count * setup.block_words;
    let mut draws = Xorshift(seed);
    for request in numbers.chunks_exact_mut(4) {
        let (first, second, third) = (draws.draw(), draws.draw(), draws.draw());
        let write = third % 2;
        request[0] = first % setup.processors;
        request[1] = write;
        request[2] = second % variables;
        request[3] = third * write;
    }
    0
}
