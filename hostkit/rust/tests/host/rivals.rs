//! Legal schedules of several styles for a list of requests.

use crate::draw::Draw;
use crate::lend;
use crate::model::{price, rival_shown, Ask, Board, Caches, Ledger, Move, Rival};
use std::fmt::{self, Display, Formatter};

/// What a rival does with the other copies of a block that is written.
#[derive(Clone, Copy)]
enum Others {
    Keep,
    Drop,
    Coin,
    /// Drops a copy if updating it until its next use costs more than a fetch.
    LookAhead,
}

struct Composer<'a> {
    draw: &'a mut Draw,
    asks: &'a [Ask],
    done: usize,
    rival: Rival,
    moves: Vec<Move>,
    others: Others,
    broadcasts: u32,
    /// How often, in percent, an entry comes that no request needs.
    idle: u32,
}

impl Composer<'_> {
    fn push(&mut self, entry: Move) {
        let played = self.rival.play(entry, self.asks.get(self.done));
        played.expect("a legal entry");
        self.done += usize::from(entry.completes());
        self.moves.push(entry);
    }

    fn evict(&mut self, i: u32, block: u32) {
        if self.rival.copies[&(i, block)] {
            self.push(Move::WriteBack(i, block));
        }
        self.push(Move::Drop(i, block));
    }

    fn obtain(&mut self, i: u32, block: u32) {
        if self.rival.holds(i, block) {
            return;
        }
        if let Some(old) = self.rival.in_the_way(i, block) {
            self.evict(i, old);
        }
        self.push(Move::Fetch(i, block));
    }

    /// Whether updates of j's copy until its next use cost more than a fetch, or a clear of j's cache
    /// comes before that use.
    fn worth_dropping(&self, j: u32, block: u32) -> bool {
        let mut updates = 0;
        for ask in &self.asks[self.done..] {
            let own = ask.processor == j;
            match self.rival.board.block_of(ask) {
                None if own => return true,
                Some(used) if used == block && own => return updates > self.rival.board.f,
                Some(used) if used == block => updates += u32::from(ask.writes()),
                _ => {}
            }
        }
        true
    }

    fn drops(&mut self, j: u32, block: u32) -> bool {
        match self.others {
            Others::Keep => false,
            Others::Drop => true,
            Others::Coin => self.draw.chance(50),
            Others::LookAhead => self.worth_dropping(j, block),
        }
    }

    fn thin_out(&mut self, i: u32, block: u32) {
        for j in self.rival.holders(block) {
            if j != i && self.drops(j, block) {
                self.evict(j, block);
            }
        }
    }

    /// An entry that no request needs, if the drawn one is legal.
    fn idle_entry(&mut self) {
        let i = self.draw.below(self.rival.board.n);
        let block = self.draw.below(self.rival.board.m);
        let held = self.rival.copies.keys().copied().collect::<Vec<_>>();
        let (j, old) = match held.is_empty() {
            true => (i, block),
            false => self.draw.pick(&held),
        };
        let entry = match self.draw.below(3) {
            0 => Move::Fetch(i, block),
            1 => Move::WriteBack(j, old),
            _ => Move::Drop(j, old),
        };
        if self.rival.clone().play(entry, None).is_ok() {
            self.push(entry);
        }
    }

    fn idle_entries(&mut self) {
        while self.draw.chance(self.idle) {
            self.idle_entry();
        }
    }

    fn serve(&mut self, ask: &Ask) {
        let i = ask.processor;
        self.idle_entries();
        let Some(block) = self.rival.board.block_of(ask) else {
            for block in self.rival.blocks_of(i) {
                self.evict(i, block);
            }
            return self.push(Move::Complete);
        };
        self.obtain(i, block);
        if !ask.writes() {
            return self.push(Move::Complete);
        }
        self.thin_out(i, block);
        match self.draw.chance(self.broadcasts) {
            true => self.push(Move::Broadcast),
            false => self.push(Move::Complete),
        }
    }
}

fn composed(draw: &mut Draw, board: Board, asks: &[Ask], others: Others, lean: bool) -> Vec<Move> {
    let (broadcasts, idle) = match lean {
        true => (0, 0),
        false => (draw.pick(&[0, 20, 100]), draw.pick(&[0, 10, 50])),
    };
    let mut composer = Composer {
        draw,
        asks,
        done: 0,
        rival: Rival::empty(board),
        moves: Vec::new(),
        others,
        broadcasts,
        idle,
    };
    for ask in asks {
        composer.serve(ask);
    }
    composer.idle_entries();
    composer.moves
}

/// One legal schedule of any style.
pub fn any_legal(draw: &mut Draw, board: Board, asks: &[Ask]) -> Vec<Move> {
    let all = [Others::Keep, Others::Drop, Others::Coin, Others::LookAhead];
    let others = draw.pick(&all);
    let lean = draw.chance(30);
    composed(draw, board, asks, others, lean)
}

/// Legal schedules that waste nothing in three styles, and one of any style.
pub fn some_legal(draw: &mut Draw, board: Board, asks: &[Ask]) -> Vec<Vec<Move>> {
    vec![
        composed(draw, board, asks, Others::Keep, true),
        composed(draw, board, asks, Others::Drop, true),
        composed(draw, board, asks, Others::LookAhead, true),
        any_legal(draw, board, asks),
    ]
}

/// The engine's own actions as a schedule: what leaves a cache goes from line 0 up, and the payer's
/// copy goes after the write.
pub fn engine_moves(board: Board, asks: &[Ask]) -> Vec<Move> {
    let mut caches = Caches::fresh(board);
    let mut moves = Vec::new();
    for ask in asks {
        let used = board.block_of(ask);
        let before = caches.clone();
        caches.serve(ask);
        let gone = |key: &&(u32, u32)| !caches.copies.contains_key(key);
        let mut gone: Vec<_> = before.copies.keys().filter(gone).collect();
        gone.sort_by_key(|&&(_, old)| board.line(old));
        let mut left = Vec::new();
        for &(i, old) in gone {
            if Some(old) == used {
                left.push(Move::Drop(i, old));
                continue;
            }
            if before.copies[&(i, old)].dirty {
                moves.push(Move::WriteBack(i, old));
            }
            moves.push(Move::Drop(i, old));
        }
        let missed = |&block: &u32| !before.copies.contains_key(&(ask.processor, block));
        if let Some(block) = used.filter(missed) {
            moves.push(Move::Fetch(ask.processor, block));
        }
        moves.push(Move::Complete);
        moves.append(&mut left);
    }
    moves
}

/// What a legal schedule costs.
#[derive(Clone, Copy)]
pub struct Cost {
    pub cycles: u64,
    /// The cycles but for write-backs.
    pub fetch_and_update: u64,
}

/// The cost at which the archive accepts a legal schedule; the model has to agree, also on the
/// rival's last copies.
pub fn accepted_cost(draw: &mut Draw, board: Board, moves: &[Move], asks: &[Ask]) -> Cost {
    let (cost, rival) = price(board, moves, asks).expect("legal");
    let mut tables = lend::rival_garbage(draw, board);
    let answer = cuzkelor::price(
        lend::setup(board),
        &mut tables,
        &lend::schedule(moves),
        &lend::requests(asks),
    );
    let accepted = Ok(cost.try_into().expect("a cost of 32 bits"));
    assert_eq!(answer, accepted, "on {board:?} for {asks:?}: {moves:?}");
    assert_eq!(tables, rival_shown(&rival), "the rival's last copies");
    let write_backs = moves.iter().filter(|entry| entry.writes_back()).count();
    Cost {
        cycles: cost,
        fetch_and_update: cost - u64::from(board.g) * write_backs as u64,
    }
}

/// A bound and the pair that came nearest to it.
#[derive(Default)]
struct Nearest {
    spent: u64,
    most: u64,
}

impl Nearest {
    fn hold(&mut self, bound: &str, spent: u64, most: u64) {
        assert!(spent <= most, "{bound}: {spent}, at most {most}");
        if spent * self.most > self.spent * most || self.most == 0 {
            (self.spent, self.most) = (spent, most);
        }
    }
}

impl Display for Nearest {
    fn fmt(&self, to: &mut Formatter<'_>) -> fmt::Result {
        write!(to, "{} within {}", self.spent, self.most)
    }
}

/// How near the engine's bills came to what legal schedules cost.
#[derive(Default)]
pub struct Closeness {
    compared: usize,
    cycles: Nearest,
    fetches: Nearest,
    updates: Nearest,
}

impl Closeness {
    /// Asserts the claim for one schedule: of all cycles together, and of each kind.
    pub fn hold(&mut self, spent: Ledger, cost: Cost) {
        let Cost {
            cycles,
            fetch_and_update,
        } = cost;
        let updates = spent.update + spent.write_back;
        self.compared += 1;
        self.cycles.hold("cycles", spent.cycles(), 2 * cycles);
        self.fetches.hold("fetches", spent.fetch, fetch_and_update);
        self.updates
            .hold("updates and write-backs", updates, fetch_and_update);
    }

    pub fn print(&self, name: &str) {
        println!(
            "{name}: {} legal schedules; nearest: cycles {} (twice the cost), fetches {}, updates \
             and write-backs {}",
            self.compared, self.cycles, self.fetches, self.updates
        );
    }
}
