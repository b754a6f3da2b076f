// Change request §9, "PDB lines in", read plainly: what a text that the writer of §1 and §5 could make holds, column by column, and what the
// reader answers and leaves. It shares nothing with the port, and writes no text to find out. Decimals are read by Rust's own parser, which
// gives the nearest f64, halves to even.
use crate::plain::{self, Machine};
use crate::port::{Call, NewAtom, Optional};
use pdbtbx::Element;
use std::sync::OnceLock;

const LINE: usize = 81;
const BAD_LENGTH: u64 = 1;
const BAD_TEXT: u64 = 17;

// ---- fields. None is a field that the writer doesn't write

fn is_blank(text: &[u8]) -> Option<()> {
    text.iter().all(|b| *b == b' ').then_some(())
}

// A text at the right of its columns, without the blanks before it.
fn at_right(columns: &[u8]) -> Option<&[u8]> {
    let start = columns.iter().position(|b| *b != b' ').unwrap_or(columns.len());
    (columns.last() != Some(&b' ') || start == columns.len()).then(|| &columns[start..])
}

// A text at the left of its columns, without the blanks behind it.
fn at_left(columns: &[u8]) -> Option<&[u8]> {
    let end = columns.iter().rposition(|b| *b != b' ').map_or(0, |i| i + 1);
    (columns[0] != b' ' || end == 0).then(|| &columns[..end])
}

// Digits without a zero before them.
fn whole(digits: &[u8]) -> Option<u64> {
    let good = !digits.is_empty() && digits.iter().all(u8::is_ascii_digit) && (digits.len() == 1 || digits[0] != b'0');
    std::str::from_utf8(digits).ok().filter(|_| good)?.parse().ok()
}

fn number(columns: &[u8]) -> Option<u64> {
    whole(at_right(columns)?)
}

// Zero has no minus.
fn signed(columns: &[u8]) -> Option<u64> {
    match at_right(columns)? {
        [b'-', digits @ ..] => whole(digits).filter(|n| *n > 0).map(u64::wrapping_neg),
        digits => whole(digits),
    }
}

// "Coordinates go out to three decimals, occupancy and B-factor to two"; "a value that rounds to zero has no minus".
fn decimal(columns: &[u8], places: usize) -> Option<u64> {
    let text = at_right(columns)?;
    let size = text.strip_prefix(b"-").unwrap_or(text);
    let (before, behind) = size.split_at(size.iter().position(|b| *b == b'.')?);
    whole(before)?;
    let digits = &behind[1..];
    let is_zero = before == b"0" && digits.iter().all(|b| *b == b'0');
    if digits.len() != places || !digits.iter().all(u8::is_ascii_digit) || is_zero && size != text {
        return None;
    }
    Some(std::str::from_utf8(text).ok()?.parse::<f64>().ok()?.to_bits())
}

// Names, codes and locations are stored in capitals, of bytes 32 to 126.
fn capitals(text: &[u8]) -> Option<Vec<u8>> {
    text.iter().all(|b| (32..=126).contains(b) && !b.is_ascii_lowercase()).then(|| text.to_vec())
}

// "what is absent is blank"
fn optional(column: u8) -> Option<Optional> {
    match column {
        b' ' => Some(Optional { flag: 0, text: Vec::new() }),
        _ => Some(Optional { flag: 1, text: capitals(&[column])? }),
    }
}

// The case of a chain id is kept.
fn chain_id(column: u8) -> Option<Vec<u8>> {
    (33..=126).contains(&column).then(|| vec![column])
}

// The symbols that stand in the columns of an element, by its number: none for 0, a missing one, then the names that the crate's own file
// gives them, in capitals.
fn symbols() -> &'static [Vec<u8>] {
    static SYMBOLS: OnceLock<Vec<Vec<u8>>> = OnceLock::new();
    let symbol = |n| Element::new(n).map_or(Vec::new(), |e| format!("{e:?}").to_ascii_uppercase().into_bytes());
    SYMBOLS.get_or_init(|| (0..=118).map(symbol).collect())
}

fn element(columns: &[u8]) -> Option<u64> {
    let text = at_right(columns)?;
    symbols().iter().position(|symbol| symbol == text).map(|n| n as u64)
}

// "An atom name shorter than four starts in column 14, unless its element symbol has two letters; then, and at four bytes, in column 13."
fn atom_name(columns: &[u8], symbol: &[u8]) -> Option<Vec<u8>> {
    let four = columns[0] != b' ' && columns[3] != b' ';
    let name = if four || symbol[0] != b' ' {
        at_left(columns)?
    } else {
        is_blank(&columns[..1])?;
        at_left(&columns[1..])?
    };
    capitals(name)
}

// "Charge is a digit and a sign, blank at zero."
fn charge(columns: &[u8]) -> Option<u64> {
    match *columns {
        [b' ', b' '] => Some(0),
        [digit @ b'1'..=b'9', b'+'] => Some(u64::from(digit - b'0')),
        [digit @ b'1'..=b'9', b'-'] => Some(u64::from(digit - b'0').wrapping_neg()),
        _ => None,
    }
}

// ---- lines

// Columns count from 1, and both ends belong to a field.
struct Line<'a>(&'a [u8]);

impl<'a> Line<'a> {
    fn columns(&self, first: usize, last: usize) -> &'a [u8] {
        &self.0[first - 1..last]
    }

    fn column(&self, at: usize) -> u8 {
        self.0[at - 1]
    }
}

// "The columns follow the wwPDB format 3.3, ATOM and HETATM records"
fn atom(line: &Line, model: u64) -> Option<Call> {
    let hetero = match line.columns(1, 6) {
        b"ATOM  " => 0,
        b"HETATM" => 1,
        _ => return None,
    };
    [(12, 12), (21, 21), (28, 30), (67, 76)].into_iter().try_for_each(|(first, last)| is_blank(line.columns(first, last)))?;
    let conformer = capitals(at_right(line.columns(18, 20))?).filter(|name| !name.is_empty())?;
    let values = NewAtom {
        serial: number(line.columns(7, 11))?,
        x: decimal(line.columns(31, 38), 3)?,
        y: decimal(line.columns(39, 46), 3)?,
        z: decimal(line.columns(47, 54), 3)?,
        occupancy: decimal(line.columns(55, 60), 2)?,
        b_factor: decimal(line.columns(61, 66), 2)?,
        element: element(line.columns(77, 78))?,
        charge: charge(line.columns(79, 80))?,
        hetero,
    };
    Some(Call::AddAtom {
        model,
        chain: chain_id(line.column(22))?,
        residue: signed(line.columns(23, 26))?,
        code: optional(line.column(27))?,
        conformer,
        location: optional(line.column(17))?,
        name: atom_name(line.columns(13, 16), line.columns(77, 78))?,
        values,
    })
}

// The MODEL record has its serial number in columns 11 to 14.
fn model(line: &Line) -> Option<Call> {
    is_blank(line.columns(15, 80))?;
    Some(Call::AddModel(number(line.columns(11, 14))?)).filter(|_| line.columns(1, 10) == b"MODEL     ")
}

fn is_end(line: &Line) -> bool {
    line.columns(1, 6) == b"ENDMDL" && is_blank(line.columns(7, 80)).is_some()
}

// What stands before a line: how many models, and whether the last of them is open.
#[derive(Clone, Copy, Default)]
struct Before {
    models: u64,
    is_open: bool,
}

// "MODEL and ENDMDL around each model and nothing else; every line has 80 columns and a newline"
fn line(bytes: &[u8], before: &mut Before, calls: &mut Vec<Call>) -> Option<()> {
    let line = Line(bytes.strip_suffix(b"\n").filter(|columns| columns.len() == LINE - 1)?);
    if !before.is_open {
        calls.push(model(&line)?);
        *before = Before { models: before.models + 1, is_open: true };
    } else if is_end(&line) {
        before.is_open = false;
    } else {
        calls.push(atom(&line, before.models - 1)?);
    }
    Some(())
}

// The additions of a text, or the number of the line, from 1, at which it stops being one.
pub fn additions(text: &[u8]) -> Result<Vec<Call>, usize> {
    let (mut calls, mut before) = (Vec::new(), Before::default());
    for (number, bytes) in (1usize..).zip(text.chunks(LINE)) {
        line(bytes, &mut before, &mut calls).ok_or(number)?;
    }
    if before.is_open { Err(text.len() / LINE + 1) } else { Ok(calls) }
}

// ---- the call

// What a text gives in a store of so many words.
pub fn machine(text: &[u8], length: usize) -> Result<Machine, u64> {
    if !(1..=1_200_001).contains(&length) {
        return Err(BAD_LENGTH);
    }
    let calls = additions(text).map_err(|_| BAD_TEXT)?;
    let mut m = Machine::new();
    calls.iter().try_for_each(|call| plain::step(&mut m, length, call).map(|_| ()))?;
    Ok(m)
}

// "The reader opens the store that it fills, so old words there aren't checked, and it refuses without touching it."
pub fn read(text: &[u8], store: &mut [u64]) -> u64 {
    match machine(text, store.len()) {
        Ok(m) => {
            store.copy_from_slice(&plain::lay_out(&m, store.len()));
            0
        }
        Err(refused) => refused,
    }
}
