//! A din trace, split and read by its grammar.

use super::engine::{Caches, Ledger};
use super::{Ask, Board};

/// What a trace comes to: the account, the refusal and its line (0 and 0 if none), the caches.
#[derive(Clone, Debug)]
pub struct Counted {
    pub account: Ledger,
    pub refusal: u32,
    pub line: u32,
    pub caches: Caches,
}

const BOARD: Board = Board {
    n: 4,
    l: 8,
    p: 4,
    m: 64,
    f: 4,
    g: 4,
};

/// The lines without their newlines. What follows the last newline is a line unless it is empty.
fn lines(bytes: &[u8]) -> Vec<&[u8]> {
    let mut lines: Vec<&[u8]> = bytes.split(|&byte| byte == b'\n').collect();
    if lines.last().is_some_and(|last| last.is_empty()) {
        lines.pop();
    }
    lines
}

/// The longest beginning made of bytes of one kind, and the rest.
fn span(text: &[u8], kind: impl Fn(u8) -> bool) -> (&[u8], &[u8]) {
    let end = text.iter().position(|&byte| !kind(byte));
    text.split_at(end.unwrap_or(text.len()))
}

/// The label and the address of a line; none if it is malformed.
fn fields(line: &[u8]) -> Option<(u8, u32)> {
    let (&label, rest) = line.split_first()?;
    let (blanks, rest) = span(rest, |byte| byte == b' ' || byte == b'\t');
    let (digits, rest) = span(rest, |byte| byte.is_ascii_hexdigit());
    let ends = matches!(rest.first(), None | Some(b' ' | b'\t' | b'\r'));
    let well_formed = line.len() <= 80
        && label.is_ascii_digit()
        && !blanks.is_empty()
        && (1..=8).contains(&digits.len())
        && ends;
    if !well_formed {
        return None;
    }
    let digits = std::str::from_utf8(digits).expect("hexadecimal digits are text");
    let address = u32::from_str_radix(digits, 16).expect("at most eight digits");
    Some((label - b'0', address))
}

/// The request of a line, or its refusal by 6, 7, 3 or 4.
fn ask(line: &[u8], number: u32) -> Result<Ask, u32> {
    let (label, address) = fields(line).ok_or(6u32)?;
    let (processor, variable) = (address >> 24, (address & 0xff_ffff) / 4);
    let ask = match label {
        0 | 2 => Ask::read(processor, variable),
        1 => Ask::write(processor, variable, number),
        4 => Ask::clear(processor),
        _ => return Err(7),
    };
    BOARD.refuses(&ask).map_or(Ok(ask), Err)
}

impl Counted {
    fn refused(mut self, refusal: u32, line: u32) -> Counted {
        self.refusal = refusal;
        self.line = line;
        self
    }
}

/// Counts a whole trace.
pub fn count(bytes: &[u8]) -> Counted {
    let mut counted = Counted {
        account: Ledger::default(),
        refusal: 0,
        line: 0,
        caches: Caches::fresh(BOARD),
    };
    for (number, line) in (1..).zip(lines(bytes)) {
        let ask = match ask(line, number) {
            Ok(ask) => ask,
            Err(refusal) => return counted.refused(refusal, number),
        };
        let outcome = counted.caches.run(&mut counted.account, &[ask], &mut [0]);
        if outcome.refusal != 0 {
            return counted.refused(outcome.refusal, number);
        }
    }
    counted
}
