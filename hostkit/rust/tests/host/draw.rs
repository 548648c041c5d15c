//! A deterministic generator (xorshift64*), so that a failure comes again from its printed seed.

use crate::model::{Ask, Board, Operation};

/// A board before its prices are drawn, which go by its words in a block.
const UNPRICED: Board = Board {
    n: 1,
    l: 1,
    p: 1,
    m: 1,
    f: 1,
    g: 1,
};

pub struct Draw(u64);

impl Draw {
    /// The generator of one test. CUZKELOR_SEED gives another seed than the usual one.
    pub fn for_test(name: &str) -> Draw {
        let seed = std::env::var("CUZKELOR_SEED")
            .map(|text| text.parse().expect("CUZKELOR_SEED is a decimal number"))
            .unwrap_or(1_988);
        println!("{name}: seed {seed}");
        let salt = name.bytes().fold(0u64, |sum, byte| {
            sum.wrapping_mul(31).wrapping_add(byte.into())
        });
        Draw((seed ^ salt.wrapping_mul(0x9e37_79b9_7f4a_7c15)).max(1))
    }

    pub fn word(&mut self) -> u32 {
        self.0 ^= self.0 >> 12;
        self.0 ^= self.0 << 25;
        self.0 ^= self.0 >> 27;
        (self.0.wrapping_mul(0x2545_f491_4f6c_dd1d) >> 32) as u32
    }

    /// A number below `end`, which is not 0.
    pub fn below(&mut self, end: u32) -> u32 {
        ((u64::from(self.word()) * u64::from(end)) >> 32) as u32
    }

    /// A number from `low` to `high`.
    pub fn within(&mut self, low: u32, high: u32) -> u32 {
        low + self.below(high - low + 1)
    }

    pub fn index(&mut self, length: usize) -> usize {
        self.below(length as u32) as usize
    }

    pub fn chance(&mut self, percent: u32) -> bool {
        self.below(100) < percent
    }

    pub fn pick<T: Copy>(&mut self, from: &[T]) -> T {
        from[self.index(from.len())]
    }

    pub fn words(&mut self, length: usize) -> Vec<u32> {
        (0..length).map(|_| self.word()).collect()
    }

    pub fn bytes(&mut self, length: usize) -> Vec<u8> {
        (0..length).map(|_| self.below(256) as u8).collect()
    }

    /// A value to write: also 0, which empty lines show too.
    fn value(&mut self) -> u32 {
        match self.below(4) {
            0 => self.below(3),
            1 => u32::MAX,
            _ => self.word(),
        }
    }

    /// Prices on a board of p words in a block: a fetch at p, below it, above it, at an extreme, or
    /// so cheap that few writes empty a line; a write-back from 1 to that.
    fn prices(&mut self, p: u32) -> (u32, u32) {
        let f = match self.below(6) {
            0 => p,
            1 => self.within(1, p),
            2 => self.within(p, 32),
            3 => self.pick(&[1, 32]),
            _ => self.within(1, 6),
        };
        let g = match self.below(3) {
            0 => f,
            1 => 1,
            _ => self.within(1, f),
        };
        (f, g)
    }

    fn priced(&mut self, sizes: Board) -> Board {
        let (f, g) = self.prices(sizes.p);
        Board { f, g, ..sizes }
    }

    /// A setup in range: any, tiny, with extremes, with more lines than blocks, of one word, of one
    /// processor.
    pub fn board(&mut self) -> Board {
        let sizes = self.sizes();
        self.priced(sizes)
    }

    fn sizes(&mut self) -> Board {
        let any = Board {
            n: self.within(1, 8),
            l: self.within(1, 64),
            p: self.within(1, 16),
            m: self.within(1, 256),
            ..UNPRICED
        };
        match self.below(7) {
            0 => any,
            1 => Board {
                n: self.pick(&[1, 8]),
                l: self.pick(&[1, 64]),
                p: self.pick(&[1, 16]),
                m: self.pick(&[1, 256]),
                ..UNPRICED
            },
            2 => Board {
                l: self.within(8, 64),
                m: self.within(1, 7),
                ..any
            },
            3 => Board {
                p: 1,
                ..self.tiny_sizes()
            },
            4 => Board {
                n: 1,
                l: self.within(1, 4),
                ..any
            },
            _ => self.tiny_sizes(),
        }
    }

    /// A setup on which a short list already shares blocks and collides.
    pub fn tiny_board(&mut self) -> Board {
        let sizes = self.tiny_sizes();
        self.priced(sizes)
    }

    fn tiny_sizes(&mut self) -> Board {
        Board {
            n: self.within(2, 4),
            l: self.within(1, 3),
            p: self.within(1, 4),
            m: self.within(1, 7),
            ..UNPRICED
        }
    }

    /// A setup that 12 does not meet.
    pub fn searchable_board(&mut self) -> Board {
        let most_lines = self.pick(&[4, 4, 64]);
        let sizes = Board {
            n: 2,
            l: self.within(1, most_lines),
            p: self.within(1, 16),
            m: self.within(1, 4),
            ..UNPRICED
        };
        self.priced(sizes)
    }

    /// Some blocks that requests keep coming back to, most of them in the same line.
    fn hot_blocks(&mut self, board: Board) -> Vec<u32> {
        let first = self.below(board.m);
        (0..self.within(1, 6))
            .map(|step| match self.below(3) {
                0 => self.below(board.m),
                _ => (first + step * board.l) % board.m,
            })
            .collect()
    }

    fn ask(&mut self, board: Board, hot: &[u32], writes: u32, clears: u32) -> Ask {
        let processor = self.below(board.n);
        if self.chance(clears) {
            return Ask::clear(processor);
        }
        let block = match self.chance(90) {
            true => self.pick(hot),
            false => self.below(board.m),
        };
        let variable = block * board.p + self.below(board.p);
        match self.chance(writes) {
            true => Ask::write(processor, variable, self.value()),
            false => Ask::read(processor, variable),
        }
    }

    /// Requests that none of 3 and 4 meets; in most lists some of them clear.
    pub fn asks(&mut self, board: Board, count: usize) -> Vec<Ask> {
        let hot = self.hot_blocks(board);
        let writes = self.pick(&[5, 30, 60, 95]);
        let clears = self.pick(&[0, 3, 15]);
        (0..count)
            .map(|_| self.ask(board, &hot, writes, clears))
            .collect()
    }

    /// Such requests in bursts of one processor each, which a clear often ends: its cache may then have
    /// several marked blocks.
    pub fn bursts(&mut self, board: Board, count: usize) -> Vec<Ask> {
        let blocks: Vec<u32> = (0..board.m).collect();
        let mut asks = Vec::new();
        while asks.len() < count {
            let processor = self.below(board.n);
            for _ in 0..self.within(1, 5) {
                let ask = self.ask(board, &blocks, 80, 0);
                asks.push(Ask { processor, ..ask });
            }
            if self.chance(60) {
                asks.push(Ask::clear(processor));
            }
        }
        asks.truncate(count);
        asks
    }

    /// Makes one request meet 3, 4 or both; a clear, which names no variable, 3.
    pub fn spoil(&mut self, board: Board, asks: &mut [Ask]) {
        if asks.is_empty() {
            return;
        }
        let at = self.index(asks.len());
        let bad_processor = self.pick(&[board.n, board.n + 1, u32::MAX]);
        let bad_variable = self.pick(&[board.m * board.p, board.m * board.p + 1, u32::MAX]);
        let which = self.below(3);
        let ask = &mut asks[at];
        if which != 1 || ask.operation == Operation::Clear {
            ask.processor = bad_processor;
        }
        match &mut ask.operation {
            Operation::Read(variable) | Operation::Write(variable, _) if which != 0 => {
                *variable = bad_variable;
            }
            _ => {}
        }
    }

    /// A setup with at least one number out of range: sizes, prices or both.
    pub fn board_out_of_range(&mut self, board: Board) -> Board {
        match self.below(3) {
            0 => self.sizes_out_of_range(board),
            1 => self.prices_out_of_range(board),
            _ => {
                let bad = self.sizes_out_of_range(board);
                self.prices_out_of_range(bad)
            }
        }
    }

    pub fn prices_out_of_range(&mut self, board: Board) -> Board {
        let mut bad = board;
        let which = self.below(3);
        if which != 1 {
            bad.f = self.pick(&[0, 33, 34, u32::MAX]);
        }
        if which != 0 {
            bad.g = self.pick(&[0, board.f + 1, u32::MAX]);
        }
        bad
    }

    pub fn sizes_out_of_range(&mut self, board: Board) -> Board {
        let mut bad = board;
        for _ in 0..self.within(1, 2) {
            match self.below(4) {
                0 => bad.n = self.pick(&[0, 9, 10, u32::MAX]),
                1 => bad.l = self.pick(&[0, 65, 66, u32::MAX]),
                2 => bad.p = self.pick(&[0, 17, 18, u32::MAX]),
                _ => bad.m = self.pick(&[0, 257, 258, u32::MAX]),
            }
        }
        bad
    }

    /// Another length than the given one.
    pub fn wrong_length(&mut self, right: usize) -> usize {
        let wrong = self.pick(&[0, right.saturating_sub(1), right + 1, 2 * right]);
        if wrong == right {
            right + 1
        } else {
            wrong
        }
    }
}
