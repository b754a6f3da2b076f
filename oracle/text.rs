// Change requests §1, "PDB lines out", and §5, "Halves to even in written numbers", read plainly: a machine's lines, and what the writer
// answers and leaves. It shares nothing with the port. The elements' symbols are the names that the crate's own file gives them. Decimals
// have two judges, the exact reading and Rust's own formatting, and a text is one on which both agree.
use crate::plain::{text_of, Atom, Chain, Conformer, Machine, Model, Residue};
use crate::port::Write;
use pdbtbx::Element;

const COLUMNS: usize = 80;
const TOO_WIDE: u64 = 12;
const TOO_SHORT: u64 = 13;

// ---- decimals

// "A binary value exactly halfway goes to the even last digit": a size halfway between q and q + 1.
fn at_half(q: u128) -> u128 {
    if q % 2 == 0 { q } else { q + 1 }
}

// The size of a finite f64 in units of 10^-places, from its mantissa and exponent; 2^112 in its place where the exponent is over 60, since
// no columns take either.
fn in_units(bits: u64, places: u32) -> u128 {
    let (field, fraction) = (bits >> 52 & 0x7ff, bits & ((1 << 52) - 1));
    let (mantissa, exponent) = if field == 0 { (fraction, -1074) } else { (fraction | 1 << 52, field as i32 - 1075) };
    let scaled = mantissa as u128 * 10u128.pow(places);
    if exponent >= 0 {
        return if exponent > 60 { 1 << 112 } else { scaled << exponent };
    }
    // `scaled` is below 2^63, so what is more than 64 places down is below a half.
    let down = exponent.unsigned_abs();
    if down > 64 {
        return 0;
    }
    let (q, r, half) = (scaled >> down, scaled & ((1 << down) - 1), 1 << (down - 1));
    match r.cmp(&half) {
        std::cmp::Ordering::Less => q,
        std::cmp::Ordering::Equal => at_half(q),
        std::cmp::Ordering::Greater => q + 1,
    }
}

// An f64, given by its bits, to so many places.
type Decimal = fn(u64, u32) -> String;

// "a value that rounds to zero has no minus".
pub fn exact(bits: u64, places: u32) -> String {
    let n = in_units(bits, places);
    let one = 10u128.pow(places);
    let minus = if bits >> 63 == 1 && n > 0 { "-" } else { "" };
    format!("{minus}{}.{:0width$}", n / one, n % one, width = places as usize)
}

// Rust's own formatting, which rounds the exact value with ties to even, without the minus that it writes before zero.
pub fn formatted(bits: u64, places: u32) -> String {
    let by_rust = format!("{:.*}", places as usize, f64::from_bits(bits));
    let size = by_rust.trim_start_matches('-');
    if size.bytes().all(|b| b == b'0' || b == b'.') { size.to_string() } else { by_rust }
}

// ---- columns

struct Line([u8; COLUMNS]);

impl Line {
    // Columns count from 1, and both ends belong to a field.
    fn left(&mut self, first: usize, last: usize, text: impl AsRef<[u8]>) -> Result<(), u64> {
        let text = text.as_ref();
        if text.len() > last + 1 - first {
            return Err(TOO_WIDE);
        }
        self.0[first - 1..first - 1 + text.len()].copy_from_slice(text);
        Ok(())
    }

    fn right(&mut self, first: usize, last: usize, text: impl AsRef<[u8]>) -> Result<(), u64> {
        let text = text.as_ref();
        self.left((last + 1).checked_sub(text.len()).filter(|at| *at >= first).ok_or(TOO_WIDE)?, last, text)
    }
}

fn record(name: &str) -> Line {
    let mut line = Line([b' '; COLUMNS]);
    line.0[..name.len()].copy_from_slice(name.as_bytes());
    line
}

// ---- lines

fn symbol(element: u64) -> String {
    Element::new(element as usize).map_or(String::new(), |e| format!("{e:?}").to_ascii_uppercase())
}

fn charge(charge: i64) -> String {
    match charge {
        0 => String::new(),
        n => format!("{}{}", n.unsigned_abs(), if n < 0 { '-' } else { '+' }),
    }
}

fn atom_line(c: &Chain, r: &Residue, f: &Conformer, a: &Atom, decimal: Decimal) -> Result<Line, u64> {
    let v = &a.values;
    let (name, symbol) = (text_of(a.name), symbol(v.element));
    let mut line = record(if v.hetero == 1 { "HETATM" } else { "ATOM" });
    line.right(7, 11, v.serial.to_string())?;
    line.left(if name.len() < 4 && symbol.len() != 2 { 14 } else { 13 }, 16, name)?;
    line.left(17, 17, text_of(f.location))?;
    line.right(18, 20, text_of(f.name))?;
    line.left(22, 22, text_of(c.id))?;
    line.right(23, 26, (r.serial as i64).to_string())?;
    line.left(27, 27, text_of(r.code))?;
    line.right(31, 38, decimal(v.x, 3))?;
    line.right(39, 46, decimal(v.y, 3))?;
    line.right(47, 54, decimal(v.z, 3))?;
    line.right(55, 60, decimal(v.occupancy, 2))?;
    line.right(61, 66, decimal(v.b_factor, 2))?;
    line.right(77, 78, symbol)?;
    line.left(79, 80, charge(v.charge as i64))?;
    Ok(line)
}

fn model_lines(m: &Model, decimal: Decimal, lines: &mut Vec<Line>) -> Result<(), u64> {
    let mut first = record("MODEL");
    first.right(11, 14, m.serial.to_string())?;
    lines.push(first);
    for c in &m.chains {
        for r in &c.residues {
            for f in &r.conformers {
                for a in &f.atoms {
                    lines.push(atom_line(c, r, f, a, decimal)?);
                }
            }
        }
    }
    lines.push(record("ENDMDL"));
    Ok(())
}

fn lines(m: &Machine, decimal: Decimal) -> Result<Vec<u8>, u64> {
    let mut lines = Vec::new();
    m.iter().try_for_each(|model| model_lines(model, decimal, &mut lines))?;
    Ok(lines.iter().flat_map(|l| [&l.0[..], b"\n"].concat()).collect())
}

// The text, or 12, by both judges of decimals.
pub fn text(m: &Machine) -> Result<Vec<u8>, u64> {
    let text = lines(m, exact);
    assert!(text == lines(m, formatted), "the exact reading and Rust's formatting differ");
    text
}

// The writer on a good store of a machine with this text.
pub fn write(text: &Result<Vec<u8>, u64>, out: &mut [u8]) -> Write {
    match text {
        Ok(t) if t.len() > out.len() => Write { result: TOO_SHORT, length: 0 },
        Ok(t) => {
            out[..t.len()].copy_from_slice(t);
            Write { result: 0, length: t.len() as u64 }
        }
        Err(result) => Write { result: *result, length: 0 },
    }
}
