//! The refusals' numbers and words, the errors' texts, the version, and lists read back.

use cuzkelor::{
    best, count_trace, generate, price, raw, run, Account, Action, Block, Board, Entry, Operation,
    Refusal, Request, RivalTables, Setup, Tables, Variable, TRACE_SETUP,
};
use std::error::Error;

/// The numbers of the document, and those that refuse the call as a whole.
const NUMBERS: [u32; 22] = [
    1, 2, 3, 4, 5, 6, 7, 8, 9, 10, 11, 12, 20, 21, 22, 23, 24, 25, 26, 27, 28, 29,
];
const OF_CALLS: [u32; 8] = [1, 2, 5, 10, 11, 12, 20, 21];

fn text(error: impl Error + Send + Sync + 'static) -> String {
    Box::<dyn Error + Send + Sync>::from(error).to_string()
}

#[test]
fn refusal_numbers() {
    let numbers: Vec<u32> = Refusal::ALL.iter().map(|one| one.number()).collect();
    assert_eq!(numbers, NUMBERS);
    for number in 0..100 {
        let refusal = Refusal::from_number(number);
        assert_eq!(refusal.is_some(), NUMBERS.contains(&number));
        assert_eq!(refusal.map_or(number, Refusal::number), number);
    }
}

#[test]
fn refusals_of_calls() {
    for refusal in Refusal::ALL {
        let of_call = OF_CALLS.contains(&refusal.number());
        assert_eq!(refusal.refuses_call(), of_call, "{refusal}");
    }
}

#[test]
fn refusals_in_words() {
    assert_eq!(
        text(Refusal::SetupOutOfRange),
        "refused by 1: a size of the setup is out of range"
    );
    assert_eq!(
        text(Refusal::PriceOutOfRange),
        "refused by 10: the fetch price or the write-back price is out of range"
    );
    let mut texts: Vec<&str> = Refusal::ALL.iter().map(|one| one.text()).collect();
    texts.sort_unstable();
    texts.dedup();
    assert_eq!(texts.len(), NUMBERS.len(), "each has its own words");
    assert!(texts.iter().all(|text| !text.is_empty()));
}

#[test]
fn run_errors() {
    let mut board = Board::new(TRACE_SETUP).expect("in range");
    let requests = [0, 255, 256].map(|variable| Request::read(0, Variable(variable)));
    let error = board.run(&requests).expect_err("no such variable");
    assert_eq!((error.taken, error.place), (2, 2));
    assert_eq!(text(error), "refused by 4 at place 2: no such variable");
    let unsound = |spoil: fn(&mut Tables)| {
        let mut tables = Tables::sized(TRACE_SETUP);
        spoil(&mut tables);
        let mut account = Account::default();
        let error = run(TRACE_SETUP, &mut tables, &mut account, &[], &mut []).expect_err("unsound");
        assert_eq!(text(error), "refused by 20: the tables are not sound");
    };
    unsound(|tables| tables.marks[0] = 1);
    unsound(|tables| tables.masks[63] = 1);
}

#[test]
fn price_errors() {
    let mut tables = RivalTables::sized(TRACE_SETUP);
    let mut refused = |schedule: &[Entry], requests: &[Request]| {
        text(price(TRACE_SETUP, &mut tables, schedule, requests).expect_err("refused"))
    };
    let read = Request::read(0, Variable(0));
    assert_eq!(
        refused(&[Entry::fetch(0, Block(3)), Entry::drop(0, Block(11))], &[]),
        "refused by 24 at place 1: a drop or a write-back of a block that is not held"
    );
    assert_eq!(
        refused(&[Entry::fetch(0, Block(3))], &[read]),
        "refused by 28 at place 1: the schedule ends with requests left"
    );
    let clear = Request::clear(0);
    assert_eq!(
        refused(&[Entry::fetch(0, Block(3)), Entry::COMPLETE], &[clear]),
        "refused by 29 at place 1: a clear is completed while that cache holds a block"
    );
    for request in [read, clear] {
        assert_eq!(
            refused(&[Entry::COMPLETE_BY_BROADCAST], &[request]),
            "refused by 9 at place 0: a read or a clear is completed by broadcast"
        );
    }
    assert_eq!(
        refused(&[], &vec![read; 1_000_001]),
        "refused by 5: over 1,000,000 requests to the pricer or generator, or 4,000,000 entries"
    );
}

#[test]
fn generator_errors() {
    let refused = |seed, count| text(generate(TRACE_SETUP, seed, count).expect_err("refused"));
    assert_eq!(
        refused(0, 1_000_001),
        "refused by 11: the seed of a generated list is 0"
    );
    assert_eq!(
        refused(1, 1_000_001),
        "refused by 5: over 1,000,000 requests to the pricer or generator, or 4,000,000 entries"
    );
}

#[test]
fn best_errors() {
    let pair = Setup {
        processors: 2,
        block_count: 4,
        ..TRACE_SETUP
    };
    let refused =
        |setup, requests: &[Request]| text(best(setup, requests, 0).expect_err("refused"));
    let read = |variable| Request::read(1, Variable(variable));
    assert_eq!(
        refused(pair, &[read(0); 25]),
        "refused by 12: a search on other than 2 processors, over 4 blocks or for over 24 requests"
    );
    assert_eq!(
        refused(pair, &[read(15), Request::clear(0), read(16)]),
        "refused by 4 at place 2: no such variable"
    );
    assert_eq!(
        refused(pair, &[read(15), Request::clear(2), read(16)]),
        "refused by 3 at place 1: no such processor"
    );
}

#[test]
fn trace_errors() {
    let mut tables = Tables::sized(TRACE_SETUP);
    let error = count_trace(b"0 0\n1 0\nx\n", &mut tables).expect_err("malformed");
    assert_eq!((error.account.requests, error.account.total()), (2, 4));
    assert_eq!(text(error), "refused by 6 at line 3: malformed trace line");
    tables.memory.pop();
    let error = count_trace(b"", &mut tables).expect_err("memory too short");
    assert_eq!((error.account, error.line), (Account::default(), 0));
    assert!(text(error).starts_with("refused by 2: "));
}

#[test]
fn version() {
    // SAFETY: takes nothing.
    let archive = unsafe { raw::cuzkelor_version() };
    assert_eq!((archive, raw::CUZKELOR_VERSION), (6, 6));
}

#[test]
fn lists_read_back() {
    let requests = [
        Request::read(1, Variable(2)),
        Request::write(3, Variable(4), 5),
        Request::clear(6),
    ];
    let operations = [
        Operation::Read(Variable(2)),
        Operation::Write(Variable(4), 5),
        Operation::Clear,
    ];
    assert_eq!(requests.map(Request::operation), operations);
    assert_eq!(requests.map(Request::processor), [1, 3, 6]);
    let variables = [Some(Variable(2)), Some(Variable(4)), None];
    assert_eq!(requests.map(Request::variable), variables);
    let numbers = [1, 0, 2, 0, 3, 1, 4, 5, 6, 2, 0, 0];
    assert_eq!(Request::numbers(&requests), numbers);
    let actions = [
        Action::Fetch(1, Block(2)),
        Action::WriteBack(3, Block(4)),
        Action::Drop(5, Block(6)),
        Action::Complete,
        Action::CompleteByBroadcast,
    ];
    let entries = [
        Entry::fetch(1, Block(2)),
        Entry::write_back(3, Block(4)),
        Entry::drop(5, Block(6)),
        Entry::COMPLETE,
        Entry::COMPLETE_BY_BROADCAST,
    ];
    assert_eq!(entries.map(Entry::action), actions);
    let numbers = [0, 1, 2, 1, 3, 4, 2, 5, 6, 3, 0, 0, 4, 0, 0];
    assert_eq!(Entry::numbers(&entries), numbers);
}

#[test]
fn records_as_text() {
    let request = Request::write(3, Variable(4), 5);
    assert_eq!(
        format!("{request:?} {:?}", Entry::COMPLETE),
        "Request { processor: 3, operation: Write(Variable(4), 5) } Entry(Complete)"
    );
    assert_eq!(
        format!("{:?}", Request::clear(3)),
        "Request { processor: 3, operation: Clear }"
    );
}

#[test]
fn lengths_of_a_setup() {
    let lengths = |setup: Setup| {
        [
            setup.slot_count(),
            setup.word_count(),
            setup.variable_count(),
            setup.mask_count(),
        ]
    };
    assert_eq!(lengths(TRACE_SETUP), [32, 128, 256, 64]);
    let out_of_range = Setup {
        processors: u32::MAX,
        lines: u32::MAX,
        block_words: u32::MAX,
        block_count: u32::MAX,
        fetch_price: u32::MAX,
        write_back_price: u32::MAX,
    };
    assert_eq!(lengths(out_of_range), [0; 4]);
}

/// Whether a board can be made of a setup, and by what it is refused if not.
fn refusal_of(setup: Setup) -> Option<Refusal> {
    let refusal = Board::new(setup).err();
    assert_eq!(refusal.is_none(), setup.in_range(), "{setup:?}");
    refusal
}

/// The header's ranges are those of the archive.
#[test]
fn ranges_of_sizes() {
    for number in [0, 1, 2, 8, 9, 16, 17, 64, 65, 256, 257, u32::MAX] {
        for field in 0..4 {
            let mut numbers = [1; 4];
            numbers[field] = number;
            let [processors, lines, block_words, block_count] = numbers;
            let setup = Setup {
                processors,
                lines,
                block_words,
                block_count,
                fetch_price: 1,
                write_back_price: 1,
            };
            let refusal = (!setup.sizes_in_range()).then_some(Refusal::SetupOutOfRange);
            assert_eq!(refusal_of(setup), refusal, "{setup:?}");
        }
    }
}

#[test]
fn ranges_of_prices() {
    let prices = [0, 1, 2, 4, 5, 31, 32, 33, u32::MAX];
    for (fetch_price, write_back_price) in prices.iter().flat_map(|f| prices.map(|g| (*f, g))) {
        let setup = Setup {
            fetch_price,
            write_back_price,
            ..TRACE_SETUP
        };
        let refusal = (!setup.prices_in_range()).then_some(Refusal::PriceOutOfRange);
        assert_eq!(refusal_of(setup), refusal, "{setup:?}");
    }
}
