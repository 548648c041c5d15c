//! Random din traces: the report and the tables compared.

use crate::draw::Draw;
use crate::lend;
use crate::model::{count, shown, Counted};
use crate::tally::Tally;
use cuzkelor::{count_trace, Account, Tables, TRACE_SETUP};

/// The account, the refusal or 0, and its line or 0.
fn told(bytes: &[u8], tables: &mut Tables) -> (Account, u32, u32) {
    match count_trace(bytes, tables) {
        Ok(account) => (account, 0, 0),
        Err(error) => (error.account, error.refusal.number(), error.line),
    }
}

/// Counts a trace through the archive, on tables that hold anything, and compares. Masks play no part
/// before it, and are true after it.
fn compared(draw: &mut Draw, bytes: &[u8], counted: &Counted) -> u32 {
    let mut tables = lend::garbage(draw, counted.caches.board);
    if draw.chance(30) {
        lend::wrong_mask_length(draw, &mut tables);
    }
    let told = told(bytes, &mut tables);
    let account = lend::account(counted.account);
    let end = String::from_utf8_lossy(&bytes[bytes.len().saturating_sub(400)..]);
    let expected = (account, counted.refusal, counted.line);
    assert_eq!(told, expected, "a trace that ends {end:?}");
    assert_eq!(tables, shown(&counted.caches), "a trace that ends {end:?}");
    counted.refusal
}

fn blanks(draw: &mut Draw) -> String {
    (0..draw.pick(&[1, 1, 1, 2, 5]))
        .map(|_| draw.pick(&[' ', ' ', '\t']))
        .collect()
}

/// An address in digits of either case, often with zeros in front.
fn digits(draw: &mut Draw, address: u32) -> String {
    let width = draw.within(1, 8) as usize;
    let digits = format!("{address:0width$x}");
    digits
        .chars()
        .map(|digit| match draw.chance(50) {
            true => digit.to_ascii_uppercase(),
            false => digit,
        })
        .collect()
}

fn address(draw: &mut Draw) -> u32 {
    let variable = draw.pick(&[0, 1, 5, 32, 33, 64, 255]);
    let variable = match draw.chance(70) {
        true => variable,
        false => draw.below(256),
    };
    draw.below(4) << 24 | variable << 2 | draw.below(4)
}

fn tail(draw: &mut Draw) -> &'static str {
    draw.pick(&[
        "",
        "",
        "",
        " ",
        "\t",
        "\r",
        " text",
        "\tfg \0\u{ff} 1",
        "\r1 2",
    ])
}

fn good_line(draw: &mut Draw) -> Vec<u8> {
    let label = draw.pick(&['0', '0', '1', '1', '1', '1', '2', '2', '4']);
    let blanks = blanks(draw);
    let address = address(draw);
    let digits = digits(draw, address);
    format!("{label}{blanks}{digits}{}", tail(draw)).into_bytes()
}

/// A line with ignored text up to some width.
fn wide_line(draw: &mut Draw) -> Vec<u8> {
    let mut line = good_line(draw);
    line.push(b' ');
    line.resize(draw.pick(&[79, 80, 81, 82, 200]), b'x');
    line
}

/// A line that is refused by 7, 3 or 4, or by several of them; a clear by 3 alone.
fn refused_line(draw: &mut Draw) -> Vec<u8> {
    let label = draw.pick(&['0', '1', '3', '4', '5', '9']);
    let processor = draw.pick(&[0, 3, 4, 5, 255]);
    let variable = draw.pick(&[0, 255, 256, 257, 0x3f_ffff]);
    format!("{label} {:x}", processor << 24 | variable << 2).into_bytes()
}

/// A good line with a byte changed, taken out or put in.
fn mutated_line(draw: &mut Draw) -> Vec<u8> {
    let mut line = good_line(draw);
    let at = draw.index(line.len());
    let byte = match draw.chance(80) {
        true => draw.pick(b"012459aAfFgGxX \t\r-+\n"),
        false => draw.below(256) as u8,
    };
    match draw.below(3) {
        0 => line[at] = byte,
        1 => line.insert(at, byte),
        _ => {
            line.remove(at);
        }
    }
    line
}

const MALFORMED: [&str; 8] = ["", " ", "0", "0 ", "1\t\r", "0 123456789", " 0 0", "0 0x1"];

fn odd_line(draw: &mut Draw) -> Vec<u8> {
    match draw.below(6) {
        0 => draw.pick(&MALFORMED).into(),
        1 => wide_line(draw),
        2 => refused_line(draw),
        _ => mutated_line(draw),
    }
}

fn trace(draw: &mut Draw) -> Vec<u8> {
    let odd = draw.pick(&[0, 1, 2, 10, 50]);
    let mut bytes = Vec::new();
    for _ in 0..draw.below(80) {
        let line = match draw.chance(odd) {
            true => odd_line(draw),
            false => good_line(draw),
        };
        bytes.extend(line);
        bytes.push(b'\n');
    }
    if draw.chance(30) {
        bytes.pop();
    }
    bytes
}

#[test]
fn random_traces() {
    let mut draw = Draw::for_test("random traces");
    let mut tally = Tally::default();
    for _ in 0..20_000 {
        let bytes = trace(&mut draw);
        tally.count(compared(&mut draw, &bytes, &count(&bytes)));
    }
    tally.close("random traces", &[0, 3, 4, 6, 7]);
}

/// A trace of 1,000,000 lines, and what a further line does: 22 comes last.
#[test]
fn full_trace() {
    let mut draw = Draw::for_test("full trace");
    let mut tally = Tally::default();
    let mut bytes = Vec::new();
    for _ in 0..1_000_000 {
        let label = draw.pick(&['0', '0', '1', '1', '2', '2', '4']);
        bytes.extend(format!("{label} {:x}\n", address(&mut draw)).bytes());
    }
    let full = count(&bytes);
    assert_eq!((full.refusal, full.account.requests), (0, 1_000_000));
    tally.count(compared(&mut draw, &bytes, &full));
    let further = [
        ("0 0", 22),
        ("4 0", 22),
        ("1 0\n0 0\n", 22),
        ("", 0),
        ("\n", 6),
        ("3 f0000000", 7),
        ("0 4000000", 3),
        ("4 4000000", 3),
        ("0 400", 4),
        ("4 400", 22),
    ];
    for (line, refusal) in further {
        let all = [&bytes, line.as_bytes()].concat();
        let mut counted = full.clone();
        if refusal != 0 {
            (counted.refusal, counted.line) = (refusal, 1_000_001);
        }
        tally.count(compared(&mut draw, &all, &counted));
    }
    tally.close("full trace", &[0, 3, 4, 6, 7, 22]);
}

/// Tables of wrong lengths are refused by 2, at line 0, and stay.
#[test]
fn wrong_lengths() {
    let mut draw = Draw::for_test("traces on wrong lengths");
    let mut tally = Tally::default();
    let board = count(b"").caches.board;
    for _ in 0..1_000 {
        let mut tables = lend::garbage(&mut draw, board);
        lend::wrong_table_length(&mut draw, &mut tables);
        let before = tables.clone();
        let told = told(&trace(&mut draw), &mut tables);
        assert_eq!((told, tables), ((Account::default(), 2, 0), before));
        tally.count(told.1);
    }
    tally.close("traces on wrong lengths", &[2]);
}

/// Lines that the grammar just lets through, and lines that it just does not: a trace, and the
/// refusal and the line that end it.
fn grammar_cases() -> Vec<(String, u32, u32)> {
    let wide = |width: usize| format!("0 0 {}", "x".repeat(width - 4));
    vec![
        ("".into(), 0, 0),
        ("\n".into(), 6, 1),
        ("0 0".into(), 0, 0),
        ("0 0\n\n".into(), 6, 2),
        ("0 0\r\n2\t\t3FC\r\n".into(), 0, 0),
        ("0 0\rany text".into(), 0, 0),
        ("0 0\u{b}".into(), 6, 1),
        ("0 12345678".into(), 3, 1),
        ("0 000000000".into(), 6, 1),
        ("00 0".into(), 6, 1),
        (" 0 0".into(), 6, 1),
        ("0 ".into(), 6, 1),
        ("0".into(), 6, 1),
        ("00".into(), 6, 1),
        ("0 g".into(), 6, 1),
        ("0 0g".into(), 6, 1),
        ("a 0".into(), 6, 1),
        ("3 zz".into(), 6, 1),
        ("3 0".into(), 7, 1),
        ("5 0".into(), 7, 1),
        ("9 ffffffff".into(), 7, 1),
        ("4 zz".into(), 6, 1),
        ("4 04000000".into(), 3, 1),
        ("4 ff000000".into(), 3, 1),
        ("4 00000400\n4 03ffffff".into(), 0, 0),
        ("2 04000400".into(), 3, 1),
        ("2 03000400".into(), 4, 1),
        ("2 030003ff".into(), 0, 0),
        ("1 ABCDEF".into(), 4, 1),
        (wide(80), 0, 0),
        (wide(81), 6, 1),
        (wide(79) + "\r\n", 0, 0),
        (wide(80) + "\r\n", 6, 1),
        (wide(80) + "\n" + &wide(80) + "\n", 0, 0),
        (wide(80) + "\n" + &wide(81) + "\n0 0", 6, 2),
    ]
}

#[test]
fn grammar() {
    let mut draw = Draw::for_test("grammar");
    for (text, refusal, line) in grammar_cases() {
        let counted = count(text.as_bytes());
        assert_eq!((counted.refusal, counted.line), (refusal, line), "{text:?}");
        compared(&mut draw, text.as_bytes(), &counted);
    }
    assert_eq!(TRACE_SETUP, lend::setup(count(b"").caches.board));
}

/// Clears by label 4: the top byte names the processor, and the other bits play no part.
#[test]
fn clears() {
    let written = "1 02000000\n1 02000010\n0 01000010\n1 02000020\n";
    for (line, write_back) in [
        ("4 02000000", 8),
        ("4 02ffffff", 8),
        ("4 2000401 text", 8),
        ("4 01000000", 0),
        ("4 0", 0),
        ("0 02000000", 0),
    ] {
        let text = format!("{written}{line}\n");
        let mut tables = Tables::sized(TRACE_SETUP);
        let account = Account {
            requests: 5,
            fetch: 16,
            write_back,
            update: 0,
        };
        assert_eq!(
            told(text.as_bytes(), &mut tables),
            (account, 0, 0),
            "{line}"
        );
        let held = tables.counters[16..24].iter().any(|&counter| counter > 0);
        assert_eq!(held, write_back == 0, "{line}");
    }
}
