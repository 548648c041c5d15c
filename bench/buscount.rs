// The trace program in plain Rust, with no proof: a yardstick of bench/run.sh.
use std::io::{self, Read};

const N: usize = 4;
const L: usize = 8;
const P: usize = 4;
const FETCH_PRICE: u32 = 4;
const WRITE_BACK_PRICE: u32 = 4;
const M: usize = 64;
const WIDTH: usize = 80;
const LIMIT: u32 = 1_000_000;

#[derive(Clone, Copy, Default)]
struct Line {
    block: u32,
    counter: u32,
    mark: bool,
    words: [u32; P],
}

struct Board {
    caches: [[Line; L]; N],
    memory: [[u32; P]; M],
    requests: u32,
    fetch: u32,
    write_back: u32,
    update: u32,
}

impl Board {
    fn holds(&self, i: usize, b: usize) -> bool {
        let line = &self.caches[i][b % L];
        line.block as usize == b && line.counter != 0
    }

    fn save(&mut self, i: usize, l: usize) {
        let line = &mut self.caches[i][l];
        self.memory[line.block as usize] = line.words;
        line.mark = false;
    }

    fn write_back_marked(&mut self, i: usize, l: usize) {
        if self.caches[i][l].mark {
            self.save(i, l);
            self.write_back += WRITE_BACK_PRICE;
        }
    }

    fn obtain(&mut self, i: usize, b: usize) {
        let l = b % L;
        if self.holds(i, b) {
            return;
        }
        self.write_back_marked(i, l);
        for j in 0..N {
            if j != i && self.holds(j, b) && self.caches[j][l].mark {
                self.save(j, l);
            }
        }
        self.caches[i][l] = Line { block: b as u32, counter: FETCH_PRICE, mark: false, words: self.memory[b] };
        self.fetch += FETCH_PRICE;
    }

    fn put(&mut self, i: usize, b: usize, o: usize, x: u32) {
        let l = b % L;
        let payer = (0..N).filter(|&j| j != i && self.holds(j, b)).min_by_key(|&j| self.caches[j][l].counter);
        self.caches[i][l].counter = FETCH_PRICE;
        match payer {
            None => {
                self.caches[i][l].words[o] = x;
                self.caches[i][l].mark = true;
            }
            Some(j) => {
                for k in 0..N {
                    if self.holds(k, b) {
                        self.caches[k][l].words[o] = x;
                    }
                }
                self.memory[b][o] = x;
                self.update += 1;
                self.caches[j][l].counter -= 1;
                if self.caches[j][l].counter == 0 {
                    self.caches[j][l] = Line::default();
                }
            }
        }
    }

    fn clear(&mut self, i: usize) {
        for l in 0..L {
            self.write_back_marked(i, l);
            self.caches[i][l] = Line::default();
        }
    }

    // Apart from reads and writes, since a clear names no variable.
    fn take_clear(&mut self, i: usize) -> u32 {
        if i >= N {
            return 3;
        }
        if self.requests >= LIMIT {
            return 22;
        }
        self.clear(i);
        self.requests += 1;
        0
    }

    // One line without its newline; the refusal number, 0 for none.
    fn take(&mut self, s: &[u8], number: u32) -> u32 {
        if s.is_empty() || s.len() > WIDTH || !s[0].is_ascii_digit() {
            return 6;
        }
        let blanks = s[1..].iter().take_while(|&&c| c == b' ' || c == b'\t').count();
        if blanks == 0 {
            return 6;
        }
        let mut at = 1 + blanks;
        let start = at;
        let mut address: u32 = 0;
        while at < s.len() {
            let Some(d) = (s[at] as char).to_digit(16) else { break };
            if at - start == 8 {
                return 6;
            }
            address = address << 4 | d;
            at += 1;
        }
        if at == start || at < s.len() && !matches!(s[at], b' ' | b'\t' | b'\r') {
            return 6;
        }
        if s[0] > b'2' {
            return if s[0] == b'4' { self.take_clear((address >> 24) as usize) } else { 7 };
        }
        let (i, v) = ((address >> 24) as usize, ((address & 0xff_ffff) / 4) as usize);
        if i >= N {
            return 3;
        }
        if v >= M * P {
            return 4;
        }
        if self.requests >= LIMIT {
            return 22;
        }
        self.obtain(i, v / P);
        if s[0] == b'1' {
            self.put(i, v / P, v % P, number);
        }
        self.requests += 1;
        0
    }
}

fn main() -> io::Result<()> {
    let mut board = Board {
        caches: [[Line::default(); L]; N],
        memory: [[0; P]; M],
        requests: 0,
        fetch: 0,
        write_back: 0,
        update: 0,
    };
    let mut buffer = vec![0u8; 65536];
    let mut line: Vec<u8> = Vec::with_capacity(WIDTH + 1);
    let (mut number, mut refusal) = (1u32, 0u32);
    let mut input = io::stdin().lock();
    while refusal == 0 {
        let got = input.read(&mut buffer)?;
        if got == 0 {
            break;
        }
        for &b in &buffer[..got] {
            if b != b'\n' {
                if line.len() <= WIDTH {
                    line.push(b);
                }
                continue;
            }
            refusal = board.take(&line, number);
            line.clear();
            if refusal != 0 {
                break;
            }
            number += 1;
        }
    }
    if refusal == 0 && !line.is_empty() {
        refusal = board.take(&line, number);
    }
    let total = board.fetch + board.write_back + board.update;
    println!("requests {}\nfetch {}\nwrite-back {}\nupdate {}\ntotal {}", board.requests, board.fetch, board.write_back, board.update, total);
    println!("ended {} {}", refusal, if refusal == 0 { 0 } else { number });
    Ok(())
}
