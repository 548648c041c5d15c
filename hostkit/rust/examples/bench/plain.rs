//! The engine in plain Rust, with no proof: the yardstick. The same flat tables but no masks, the same
//! checks, the same soundness scan before each run.

use cuzkelor::{Account, Setup, Tables};

const LIMIT: u32 = 1_000_000;

const WRITE: u32 = 1;
const CLEAR: u32 = 2;

/// The tables, with the setup's sizes as indices and its prices as cycles.
struct Board<'a> {
    n: usize,
    l: usize,
    p: usize,
    m: usize,
    fetch_price: u32,
    write_back_price: u32,
    blocks: &'a mut [u32],
    counters: &'a mut [u32],
    marks: &'a mut [u32],
    words: &'a mut [u32],
    memory: &'a mut [u32],
}

/// Where a variable lies. Divided in 32 bits, which is faster than in 64.
#[derive(Clone, Copy)]
struct Place {
    block: u32,
    line: usize,
    offset: usize,
}

impl Board<'_> {
    fn lengths_fit(&self) -> bool {
        let slots = self.n * self.l;
        self.blocks.len() == slots
            && self.counters.len() == slots
            && self.marks.len() == slots
            && self.words.len() == slots * self.p
            && self.memory.len() == self.m * self.p
    }

    #[inline]
    fn holds(&self, slot: usize, block: u32) -> bool {
        self.blocks[slot] == block && self.counters[slot] != 0
    }

    /// Whether another processor holds the block, in that line.
    #[inline]
    fn shared(&self, i: usize, line: usize, block: u32) -> bool {
        (0..self.n).any(|j| j != i && self.holds(j * self.l + line, block))
    }

    /// The slot of the other holder with the smallest counter, the lowest among equals.
    #[inline]
    fn payer(&self, i: usize, line: usize, block: u32) -> Option<usize> {
        (0..self.n)
            .filter(|&j| j != i)
            .map(|j| j * self.l + line)
            .filter(|&slot| self.holds(slot, block))
            .min_by_key(|&slot| self.counters[slot])
    }

    fn line_sound(&self, i: usize, line: usize) -> bool {
        let slot = i * self.l + line;
        let words = &self.words[slot * self.p..][..self.p];
        let (block, counter) = (self.blocks[slot], self.counters[slot]);
        if counter == 0 {
            return block == 0 && self.marks[slot] == 0 && words.iter().all(|&word| word == 0);
        }
        let at = block as usize;
        if counter > self.fetch_price || at >= self.m || at % self.l != line {
            return false;
        }
        match self.marks[slot] {
            0 => words == &self.memory[at * self.p..][..self.p],
            1 => counter == self.fetch_price && !self.shared(i, line, block),
            _ => false,
        }
    }

    fn sound(&self) -> bool {
        (0..self.n).all(|i| (0..self.l).all(|line| self.line_sound(i, line)))
    }

    #[inline]
    fn save(&mut self, slot: usize) {
        let at = self.blocks[slot] as usize * self.p;
        let words = &self.words[slot * self.p..][..self.p];
        self.memory[at..][..self.p].copy_from_slice(words);
        self.marks[slot] = 0;
    }

    #[inline]
    fn empty(&mut self, slot: usize) {
        self.blocks[slot] = 0;
        self.counters[slot] = 0;
        self.marks[slot] = 0;
        self.words[slot * self.p..][..self.p].fill(0);
    }

    fn fetch(&mut self, i: usize, line: usize, block: u32, bill: &mut Account) {
        let slot = i * self.l + line;
        if self.marks[slot] != 0 {
            self.save(slot);
            bill.write_back += self.write_back_price;
        }
        let mut slots = (0..self.n).map(|j| j * self.l + line);
        if let Some(owner) =
            slots.find(|&k| k != slot && self.holds(k, block) && self.marks[k] != 0)
        {
            self.save(owner);
        }
        let at = block as usize * self.p;
        self.blocks[slot] = block;
        self.counters[slot] = self.fetch_price;
        self.words[slot * self.p..][..self.p].copy_from_slice(&self.memory[at..][..self.p]);
        bill.fetch += self.fetch_price;
    }

    #[inline]
    fn write(&mut self, i: usize, at: Place, value: u32, bill: &mut Account) {
        let Place {
            block,
            line,
            offset,
        } = at;
        let slot = i * self.l + line;
        self.counters[slot] = self.fetch_price;
        self.words[slot * self.p + offset] = value;
        let Some(paying) = self.payer(i, line, block) else {
            self.marks[slot] = 1;
            return;
        };
        for j in 0..self.n {
            let other = j * self.l + line;
            if self.holds(other, block) {
                self.words[other * self.p + offset] = value;
            }
        }
        self.memory[block as usize * self.p + offset] = value;
        bill.update += 1;
        self.counters[paying] -= 1;
        if self.counters[paying] == 0 {
            self.empty(paying);
        }
    }

    /// Apart from the path of reads and writes, which is what is timed.
    #[cold]
    fn clear(&mut self, i: usize, bill: &mut Account) -> u32 {
        for slot in i * self.l..(i + 1) * self.l {
            if self.marks[slot] != 0 {
                self.save(slot);
                bill.write_back += self.write_back_price;
            }
            self.empty(slot);
        }
        0
    }

    #[inline]
    fn place(&self, variable: u32) -> Place {
        let (l, p) = (self.l as u32, self.p as u32);
        let block = variable / p;
        Place {
            block,
            line: (block % l) as usize,
            offset: (variable - block * p) as usize,
        }
    }

    #[inline]
    fn serve(&mut self, request: &[u32], bill: &mut Account) -> u32 {
        let i = request[0] as usize;
        if request[1] == CLEAR {
            return self.clear(i, bill);
        }
        let at = self.place(request[2]);
        let slot = i * self.l + at.line;
        if !self.holds(slot, at.block) {
            self.fetch(i, at.line, at.block, bill);
        }
        if request[1] == WRITE {
            self.write(i, at, request[3], bill);
            return request[3];
        }
        self.words[slot * self.p + at.offset]
    }
}

fn impossible(setup: Setup, account: &Account) -> bool {
    let most = |cycles: u32| u64::from(cycles) * u64::from(account.requests);
    u64::from(account.fetch) > most(setup.fetch_price)
        || u64::from(account.write_back) > most(setup.write_back_price * setup.lines)
        || account.update > account.requests
}

/// A run: the count taken, the refusal number or 0, and the place.
pub fn run(
    setup: Setup,
    tables: &mut Tables,
    account: &mut Account,
    requests: &[u32],
    values: &mut [u32],
) -> (usize, u32, usize) {
    if !setup.sizes_in_range() {
        return (0, 1, 0);
    }
    if !setup.prices_in_range() {
        return (0, 10, 0);
    }
    let mut board = Board {
        n: setup.processors as usize,
        l: setup.lines as usize,
        p: setup.block_words as usize,
        m: setup.block_count as usize,
        fetch_price: setup.fetch_price,
        write_back_price: setup.write_back_price,
        blocks: &mut tables.blocks,
        counters: &mut tables.counters,
        marks: &mut tables.marks,
        words: &mut tables.words,
        memory: &mut tables.memory,
    };
    if !board.lengths_fit() || values.len() != requests.len() / 4 {
        return (0, 2, 0);
    }
    if !board.sound() {
        return (0, 20, 0);
    }
    if impossible(setup, account) {
        return (0, 21, 0);
    }
    let variables = setup.block_count * setup.block_words;
    for (place, request) in requests.chunks_exact(4).enumerate() {
        let refusal = match request {
            [processor, ..] if *processor >= setup.processors => 3,
            [_, operation, variable, _] if *variable >= variables && *operation != CLEAR => 4,
            _ if account.requests >= LIMIT => 22,
            _ => 0,
        };
        if refusal != 0 {
            return (place, refusal, place);
        }
        values[place] = board.serve(request, account);
        account.requests += 1;
    }
    (values.len(), 0, 0)
}
