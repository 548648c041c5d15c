//! The best schedule found so far: every answer beside an exact search and the model's engine, what
//! more steps give, and what no call may change.

use crate::bound::bill;
use crate::draw::Draw;
use crate::lend;
use crate::model::{least_cost, Ask, Board, Move};
use crate::rivals::{accepted_cost, engine_moves};
use crate::tally::{Clears, Prices, Tally};
use cuzkelor::{best, best_in, raw, BestSchedule, Request, SearchTables, ENOUGH_STEPS};

/// The lengths of distances, order, predecessors, lowest and schedule.
const LENGTHS: [usize; 5] = [32_400, 32_400, 32_400, 900, 97_200];

/// Numbers on either side of a lent buffer, which no call may change: a whole entry.
const MARGIN: usize = 3;

/// The five buffers, each within its margins.
#[derive(Clone, PartialEq)]
struct Lent([Vec<u32>; 5]);

impl Lent {
    fn anything(draw: &mut Draw, lengths: [usize; 5]) -> Lent {
        Lent(lengths.map(|length| draw.words(length + 2 * MARGIN)))
    }

    fn inside(&mut self) -> [&mut [u32]; 5] {
        self.0.each_mut().map(|numbers| {
            let end = numbers.len() - MARGIN;
            &mut numbers[MARGIN..end]
        })
    }

    /// The margins of all buffers, and the schedule's numbers from a place on.
    fn untouched(&self, from: usize) -> Vec<&[u32]> {
        let fronts = self.0.iter().map(|numbers| &numbers[..MARGIN]);
        let ends = self
            .0
            .iter()
            .map(|numbers| &numbers[numbers.len() - MARGIN..]);
        let rest = &self.0[4][MARGIN + from..];
        fronts.chain(ends).chain([rest]).collect()
    }
}

/// The out-parameters, and what is returned.
#[derive(Clone, Copy, Debug, PartialEq, Eq)]
struct Answer {
    refusal: u32,
    place: usize,
    length: usize,
    cost: u32,
    steps: u32,
    least: u32,
    excess: u32,
}

impl Answer {
    fn refused(refusal: u32, place: usize) -> Answer {
        Answer {
            refusal,
            place,
            length: 0,
            cost: 0,
            steps: 0,
            least: 0,
            excess: 0,
        }
    }
}

/// Calls the archive itself. The out-parameters hold other numbers before.
fn raw_best(board: Board, requests: &[u32], lent: &mut Lent, steps: u32) -> Answer {
    let [distances, order, predecessors, lowest, schedule] = lent.inside();
    let (mut place, mut length) = (usize::MAX, usize::MAX);
    let [mut cost, mut used, mut least, mut excess] = [u32::MAX; 4];
    // SAFETY: buffers and out-parameters that are apart from each other, each buffer with its length.
    let refusal = unsafe {
        raw::cuzkelor_best(
            board.n,
            board.l,
            board.p,
            board.m,
            board.f,
            board.g,
            requests.as_ptr(),
            requests.len(),
            distances.as_mut_ptr(),
            distances.len(),
            order.as_mut_ptr(),
            order.len(),
            predecessors.as_mut_ptr(),
            predecessors.len(),
            lowest.as_mut_ptr(),
            lowest.len(),
            schedule.as_mut_ptr(),
            schedule.len(),
            steps,
            &mut place,
            &mut length,
            &mut cost,
            &mut used,
            &mut least,
            &mut excess,
        )
    };
    Answer {
        refusal,
        place,
        length,
        cost,
        steps: used,
        least,
        excess,
    }
}

/// The entry that three numbers are: a completion has no processor and no block.
fn entry(numbers: &[u32]) -> Move {
    match *numbers {
        [0, i, block] => Move::Fetch(i, block),
        [1, i, block] => Move::WriteBack(i, block),
        [2, i, block] => Move::Drop(i, block),
        [3, 0, 0] => Move::Complete,
        [4, 0, 0] => Move::Broadcast,
        _ => panic!("no entry of a found schedule: {numbers:?}"),
    }
}

/// A list of requests, and what the model knows of it.
struct Case {
    board: Board,
    asks: Vec<Ask>,
    engine: Vec<Move>,
    cycles: u32,
    least: u32,
}

/// What a search found.
#[derive(Debug, PartialEq)]
struct Found {
    moves: Vec<Move>,
    cost: u32,
    steps: u32,
    least: bool,
}

impl Case {
    fn of(board: Board, asks: Vec<Ask>) -> Case {
        let cycles = bill(board, &asks).cycles();
        Case {
            board,
            engine: engine_moves(board, &asks),
            cycles: cycles.try_into().expect("cycles of 32 bits"),
            least: least_cost(board, &asks),
            asks,
        }
    }

    fn random(draw: &mut Draw, most: usize) -> Case {
        let board = draw.searchable_board();
        let count = draw.index(most + 1);
        let asks = match draw.chance(50) {
            true => draw.asks(board, count),
            false => draw.bursts(board, count),
        };
        Case::of(board, asks)
    }

    fn name(&self, steps: u32) -> String {
        format!("{steps} steps on {:?} for {:?}", self.board, self.asks)
    }

    /// The answer to a call with buffers that hold anything.
    fn found(&self, draw: &mut Draw, steps: u32) -> Found {
        let name = self.name(steps);
        let requests = lend::odd_requests(draw, &self.asks);
        let mut lent = Lent::anything(draw, LENGTHS);
        let before = lent.clone();
        let answer = raw_best(self.board, &requests, &mut lent, steps);
        assert_eq!((answer.refusal, answer.place), (0, 0), "{name}");
        let end = 3 * answer.length;
        assert!(lent.untouched(end) == before.untouched(end), "{name}");
        let [.., schedule] = lent.inside();
        assert_eq!(
            answer.excess,
            answer.cost - self.cycles.div_ceil(2),
            "{name}"
        );
        assert!(answer.least <= 1, "{name}");
        Found {
            moves: schedule[..end].chunks(3).map(entry).collect(),
            cost: answer.cost,
            steps: answer.steps,
            least: answer.least == 1,
        }
    }

    /// Asks the archive, and holds what is claimed of every answer.
    fn searched(&self, draw: &mut Draw, steps: u32) -> Found {
        let name = self.name(steps);
        let found = self.found(draw, steps);
        let accepted = accepted_cost(draw, self.board, &found.moves, &self.asks);
        assert_eq!(u64::from(found.cost), accepted.cycles, "{name}");
        assert!(found.cost >= self.least, "{name}");
        assert!(!found.least || found.cost == self.least, "{name}");
        assert!(found.steps == steps || found.least, "{name}");
        assert!(found.steps <= steps, "{name}");
        assert!(steps < ENOUGH_STEPS || found.least, "{name}");
        if steps == 0 {
            assert_eq!(found.moves, self.engine, "{name}");
        }
        found
    }

    /// The same from the two safe functions.
    fn compared(&self, tables: &mut SearchTables, steps: u32, found: &Found) {
        let (setup, requests) = (lend::setup(self.board), lend::requests(&self.asks));
        let made = best(setup, &requests, steps).expect("no refusal");
        let BestSchedule {
            entries,
            cost,
            least,
            excess,
            ..
        } = &made;
        assert_eq!(*entries, lend::schedule(&found.moves));
        assert_eq!(
            (*cost, made.steps, *least),
            (found.cost, found.steps, found.least)
        );
        assert_eq!(excess + self.cycles.div_ceil(2), *cost);
        assert_eq!(best_in(setup, tables, &requests, steps), Ok(made));
    }

    fn kind(&self) -> &'static str {
        match self.least {
            least if least == self.cycles => "the engine's own is least",
            least if least == self.cycles.div_ceil(2) => "half the engine's, rounded up",
            _ => "between",
        }
    }
}

/// Lists of at most so many requests: with no steps, few, those that suffice, one less, and more.
fn lists(name: &str, count: usize, most: usize) {
    let mut draw = Draw::for_test(name);
    let (mut prices, mut clears) = (Prices::default(), Clears::default());
    let (mut kinds, mut most_steps) = (Tally::default(), 0);
    let mut tables = SearchTables::new();
    for _ in 0..count {
        let case = Case::random(&mut draw, most);
        prices.count(case.board);
        clears.count(case.board, &case.asks);
        kinds.count(case.kind());
        let enough = case.searched(&mut draw, ENOUGH_STEPS);
        let used = enough.steps;
        most_steps = most_steps.max(used);
        let mut limits = [
            0,
            draw.below(used.min(40)),
            draw.below(used),
            used - 1,
            used,
            u32::MAX,
        ];
        limits.sort_unstable();
        let found = limits.map(|steps| case.searched(&mut draw, steps));
        let costs: Vec<u32> = found.iter().map(|one| one.cost).collect();
        assert!(
            costs.is_sorted_by(|few, more| few >= more),
            "{costs:?} at {limits:?}"
        );
        assert!(!found[3].least, "least with a step less than it used");
        assert!(
            found[4..].iter().all(|one| *one == enough),
            "the steps used suffice"
        );
        let one = draw.index(limits.len());
        case.compared(&mut tables, limits[one], &found[one]);
    }
    println!("{name}: at most {most_steps} steps");
    let all = [
        "between",
        "half the engine's, rounded up",
        "the engine's own is least",
    ];
    kinds.close(name, &all);
    prices.close(name);
    clears.close(name);
}

#[test]
fn short_lists() {
    lists("best schedules of short lists", 2_500, 10);
}

#[test]
fn long_lists() {
    lists("best schedules of long lists", 300, 24);
}

/// Every number of steps, from none to more than the search needs.
#[test]
fn every_number_of_steps() {
    let mut draw = Draw::for_test("every number of steps");
    for _ in 0..20 {
        let case = Case::random(&mut draw, 5);
        let enough = case.searched(&mut draw, ENOUGH_STEPS);
        let mut cost = case.cycles;
        for steps in 0..=(enough.steps + 1).min(400) {
            let found = case.searched(&mut draw, steps);
            assert!(found.cost <= cost, "{}", case.name(steps));
            assert_eq!(found.least, steps >= enough.steps, "{}", case.name(steps));
            assert_eq!(found.steps, steps.min(enough.steps), "{}", case.name(steps));
            cost = found.cost;
        }
    }
}

/// The first condition that is met of 1, 10, 12, 2, and 3 or 4 of a request, with its place.
fn refusal(board: Board, requests: &[u32], lengths: [usize; 5], asks: &[Ask]) -> (u32, usize) {
    if let Some(refusal) = board.refused() {
        return (refusal, 0);
    }
    if board.n != 2 || board.m > 4 || requests.len() / 4 > 24 {
        return (12, 0);
    }
    if requests.len() % 4 != 0 || lengths != LENGTHS {
        return (2, 0);
    }
    let refused = |(place, ask)| board.refuses(ask).map(|refusal| (refusal, place));
    asks.iter().enumerate().find_map(refused).unwrap_or((0, 0))
}

/// Makes 12 meet a board or a list.
fn not_searchable(draw: &mut Draw, board: &mut Board, asks: &mut Vec<Ask>) {
    match draw.below(3) {
        0 => board.n = draw.pick(&[1, 3, 4, 8]),
        1 => board.m = draw.pick(&[5, 6, 64, 256]),
        _ => {
            let count = draw.pick(&[25, 26, 48, 1_000]);
            *asks = draw.asks(*board, count);
        }
    }
}

/// Makes 2 meet a buffer or the list.
fn wrong_length(draw: &mut Draw, requests: &mut Vec<u32>, lengths: &mut [usize; 5]) {
    match draw.index(6) {
        5 => lend::cut_record(draw, requests, 4),
        which => lengths[which] = draw.wrong_length(LENGTHS[which]),
    }
}

/// Every set of the conditions, many times: the first that is met refuses, and no buffer changes.
#[test]
fn conditions_in_order() {
    let mut draw = Draw::for_test("conditions of best schedules");
    let mut tally = Tally::default();
    let some_alone = [8; 400];
    for causes in (0..32u32).cycle().take(1_600).chain(some_alone) {
        let mut board = draw.searchable_board();
        let count = draw.pick(&[1, 2, 7, 24]);
        let mut asks = draw.asks(board, count);
        if causes & 4 != 0 {
            not_searchable(&mut draw, &mut board, &mut asks);
        }
        if causes & 8 != 0 {
            draw.spoil(board, &mut asks);
            draw.spoil(board, &mut asks);
        }
        if causes & 1 != 0 {
            board = draw.sizes_out_of_range(board);
        }
        if causes & 2 != 0 {
            board = draw.prices_out_of_range(board);
        }
        let mut requests = Request::numbers(&lend::requests(&asks)).to_vec();
        let mut lengths = LENGTHS;
        if causes & 16 != 0 {
            wrong_length(&mut draw, &mut requests, &mut lengths);
        }
        let (refusal, place) = refusal(board, &requests, lengths, &asks);
        tally.count(refusal);
        let steps = draw.pick(&[0, 1, 100, ENOUGH_STEPS]);
        let mut lent = Lent::anything(&mut draw, lengths);
        let before = lent.clone();
        let answer = raw_best(board, &requests, &mut lent, steps);
        if refusal == 0 {
            assert_eq!((answer.refusal, answer.place), (0, 0), "causes {causes:b}");
            continue;
        }
        let expected = Answer::refused(refusal, place);
        assert_eq!(answer, expected, "{board:?}, {requests:?}, {lengths:?}");
        assert!(lent == before, "no buffer changes");
        refused_alike(board, &asks, steps, lengths, &requests, expected);
    }
    tally.close("conditions of best schedules", &[0, 1, 2, 3, 4, 10, 12]);
}

/// Where 2 has no part, the safe functions refuse alike.
fn refused_alike(
    board: Board,
    asks: &[Ask],
    steps: u32,
    lengths: [usize; 5],
    requests: &[u32],
    expected: Answer,
) {
    if lengths != LENGTHS || requests.len() % 4 != 0 {
        return;
    }
    let error = best(lend::setup(board), &lend::requests(asks), steps).expect_err("refused");
    let same = (expected.refusal, expected.place);
    assert_eq!((error.refusal.number(), error.place), same);
}

/// The numbers of the header are those of the archive.
#[test]
fn lengths_of_the_header() {
    let positions = raw::CUZKELOR_POSITION_COUNT as usize;
    let groups = raw::CUZKELOR_GROUP_COUNT as usize;
    let entries = positions * raw::CUZKELOR_ENTRY_NUMBERS as usize;
    assert_eq!([positions, positions, positions, groups, entries], LENGTHS);
    assert_eq!((raw::CUZKELOR_BEST_REQUESTS, ENOUGH_STEPS), (24, 583_200));
}
