// The port's reader of PDB lines against the plain reading of change request §9 (oracle/lines_in.rs): every byte in every column, small texts
// in every field, decimals, random texts of the writer, whole and spoilt, and texts of anything; into words that hold anything, with room
// and without. The package's reader is asked the same: it finds room itself, and names the line at which a text stops being one.
use crate::plain::{self, pack, Atom, Chain, Conformer, Machine, Model, Residue};
use crate::port::{self, NewAtom};
use crate::random::Random;
use crate::{fitting, lines_in, text};
use std::collections::HashSet;

const LINE: usize = 81;
const MOST: usize = 1_200_001;

#[derive(Default)]
pub struct Counts {
    calls: u64,
    accepted: u64,
    lines: u64,
    bad_texts: u64,
    without_room: u64,
    bad_lengths: u64,
    by_package: u64,
    round_trips: u64,
}

impl Counts {
    pub fn print(&self, name: &str) {
        let Counts { calls, accepted, lines, bad_texts, without_room, bad_lengths, by_package, round_trips } = self;
        println!("PDB lines read, {name}: no disagreement");
        println!("  calls {calls}, accepted {accepted} with {lines} lines");
        println!("  refused with 17 {bad_texts}, with 8 {without_room}, with 1 {bad_lengths}");
        if by_package + round_trips > 0 {
            println!("  texts also read by the package {by_package}; structures written, read and written again {round_trips}");
        }
    }

    fn count(&mut self, text: &[u8], answer: u64) {
        self.calls += 1;
        match answer {
            0 => {
                self.accepted += 1;
                self.lines += (text.len() / LINE) as u64;
            }
            1 => self.bad_lengths += 1,
            8 => self.without_room += 1,
            _ => self.bad_texts += 1,
        }
    }
}

pub fn shown(text: &[u8]) -> String {
    String::from_utf8_lossy(text).into_owned()
}

fn anything(r: &mut Random, words: usize) -> Vec<u64> {
    (0..words).map(|_| r.junk()).collect()
}

// ---- calls

// One call on words that hold anything; its answer.
fn call(text: &[u8], words: Vec<u64>, counts: &mut Counts) -> u64 {
    let (mut ours, mut theirs) = (words.clone(), words);
    let (answer, by_plain) = (port::read_pdb(text, &mut ours), lines_in::read(text, &mut theirs));
    assert_eq!(answer, by_plain, "the answer of read_pdb into {} words on\n{}", ours.len(), shown(text));
    assert!(ours == theirs, "read_pdb leaves {ours:?}\nin place of {theirs:?}\non\n{}", shown(text));
    counts.count(text, answer);
    answer
}

// A store's words without those between the records and the trailer, which must be 0.
fn packed(words: &[u64]) -> Vec<u64> {
    let (end, rest) = words.split_last().unwrap();
    let (records, gap) = rest.split_at(*end as usize);
    assert!(gap.iter().all(|word| *word == 0));
    [records, &[*end]].concat()
}

// The package on a text: the structure, or the line.
fn by_package(text: &[u8], counts: &mut Counts) {
    let Ok(text) = std::str::from_utf8(text) else { return };
    let read = jubrelti::Store::read_pdb(text).map(|store| packed(store.words()));
    let expected = match lines_in::additions(text.as_bytes()) {
        Ok(_) => lines_in::machine(text.as_bytes(), MOST).map(|m| exact(&m)).map_err(|_| jubrelti::Error::NoCapacity),
        Err(line) => Err(jubrelti::Error::BadLine { line }),
    };
    assert!(read == expected, "the package reads {read:?}\nin place of {expected:?}\nof\n{text}");
    counts.by_package += 1;
}

// A machine in words without room to spare.
fn exact(m: &Machine) -> Vec<u64> {
    plain::lay_out(m, plain::records(m).len() + 1)
}

// Into words for exactly the records of a text, for one less, for some more and into none.
pub fn compare(r: &mut Random, text: &[u8], counts: &mut Counts) {
    let records = lines_in::machine(text, MOST).map_or(0, |m| plain::records(&m).len());
    for length in [records + 1, records, records + 1 + r.below(40) as usize, 0] {
        call(text, anything(r, length), counts);
    }
    by_package(text, counts);
}

// Into words for each number of records up to more than a text needs.
fn each_room(r: &mut Random, text: &[u8], counts: &mut Counts) {
    let records = lines_in::machine(text, MOST).map_or(0, |m| plain::records(&m).len() / 12);
    for room in 0..records + 3 {
        let length = room * 12 + 1 + r.below(12) as usize;
        call(text, anything(r, length), counts);
    }
}

// ---- one line of each kind, in every column

fn atom(name: &[u8], values: NewAtom) -> Atom {
    Atom { name: pack(name), values }
}

fn float(x: f64) -> u64 {
    x.to_bits()
}

// Atoms whose names start in either column, by their elements and their lengths, with numbers of either sign and all that can be absent.
fn sample() -> Machine {
    let values = NewAtom { serial: 12, x: float(-1.5), y: float(12.25), occupancy: float(1.0), element: 6, ..NewAtom::default() };
    let ion = NewAtom { serial: 99_999, z: float(-999.999), b_factor: float(-9.5), element: 20, charge: 2, hetero: 1, ..values };
    let atoms = vec![atom(b"CA", values), atom(b"CA", ion), atom(b"HD11", NewAtom { element: 1, ..values }), atom(b"", NewAtom::default())];
    let conformer = |name, location| Conformer { name: pack(name), location: pack(location), atoms: atoms.clone() };
    let first = Residue { serial: (-7i64) as u64, code: pack(b"B"), conformers: vec![conformer(b"SER", b""), conformer(b"A", b"A")] };
    let chain = Chain { id: pack(b"a"), residues: vec![first] };
    vec![Model { serial: 12, chains: vec![chain] }, Model { serial: 0, chains: Vec::new() }]
}

fn sample_text() -> Vec<u8> {
    text::text(&sample()).unwrap()
}

// The words for a text like the sample's, with a record more of each kind.
fn roomy() -> Vec<u64> {
    vec![7; plain::records(&sample()).len() + 5 * 12 + 1]
}

fn each_byte(counts: &mut Counts) {
    let text = sample_text();
    for at in 0..text.len() {
        for byte in 0..=255 {
            let mut spoilt = text.clone();
            spoilt[at] = byte;
            call(&spoilt, roomy(), counts);
        }
        by_package(&[&text[..at], b"~", &text[at + 1..]].concat(), counts);
    }
}

// ---- every text of an alphabet in a field

// A field of the sample's line with this index, by its columns from 1.
fn each_text(line: usize, first: usize, last: usize, alphabet: &[u8], counts: &mut Counts) {
    let mut text = sample_text();
    let width = last + 1 - first;
    let at = line * LINE + first - 1;
    for n in 0..alphabet.len().pow(width as u32) {
        let mut rest = n;
        for byte in &mut text[at..at + width] {
            *byte = alphabet[rest % alphabet.len()];
            rest /= alphabet.len();
        }
        call(&text, roomy(), counts);
    }
}

fn each_field(counts: &mut Counts) {
    let every_byte: Vec<u8> = (0..=255).collect();
    let whole = b" 0129-+.a";
    for (line, first, last) in [(0, 11, 14), (1, 7, 11), (1, 23, 26)] {
        each_text(line, first, last, whole, counts);
    }
    for first in [31, 39, 47] {
        each_text(1, first, first + 7, b" -.09", counts);
    }
    for first in [55, 61] {
        each_text(1, first, first + 5, b" -.019+", counts);
    }
    for line in 1..=4 {
        each_text(line, 13, 16, b" Aa1~\t\x7f", counts);
        each_text(line, 17, 22, b" Aa", counts);
        each_text(line, 77, 78, &every_byte, counts);
        each_text(line, 79, 80, &every_byte, counts);
    }
    for line in [0, 1, 9] {
        each_text(line, 1, 6, b"ATOMHE ", counts);
        each_text(line, 1, 6, b"ENDML ", counts);
    }
}

// ---- decimals

// A whole number of 10^-places, as the writer writes it.
fn fixed(n: i64, places: u32) -> String {
    let (minus, size, one) = (if n < 0 { "-" } else { "" }, n.abs(), 10i64.pow(places));
    format!("{minus}{}.{:0width$}", size / one, size % one, width = places as usize)
}

// Every decimal to two places that fits its columns, and one of each 89 to three.
fn decimals(counts: &mut Counts) {
    let coordinates: Vec<i64> = (-999_999..=9_999_999).step_by(89).chain([9_999_999]).collect();
    let others: Vec<i64> = (-9_999..=99_999).collect();
    let lines: Vec<String> = (0..others.len())
        .map(|i| {
            let [x, y, z] = [0, 1, 2].map(|k| fixed(coordinates[(3 * i + k) % coordinates.len()], 3));
            let (occupancy, b_factor) = (fixed(others[i], 2), fixed(others[others.len() - 1 - i], 2));
            format!("ATOM      1  CA  GLY A   1    {x:>8}{y:>8}{z:>8}{occupancy:>6}{b_factor:>6}           C  \n")
        })
        .collect();
    for lines in lines.chunks(100) {
        let text = format!("{:80}\n{}{:80}\n", "MODEL        1", lines.concat(), "ENDMDL");
        assert_eq!(call(text.as_bytes(), vec![7; 120 * 12 + 1], counts), 0);
    }
}

// ---- lengths

// No lines into stores of many lengths: they are opened.
fn no_lines(counts: &mut Counts) {
    for length in (0..40).chain([MOST - 1, MOST, MOST + 1]) {
        call(b"", vec![7; length], counts);
    }
}

// Texts of as many models as a store can hold, of one more, and of one more whose last line is bad. The plain reading would take too long.
fn most_records(counts: &mut Counts) {
    let models = |n: usize| format!("{:80}\n{:80}\n", "MODEL       17", "ENDMDL").repeat(n).into_bytes();
    let full = [[&[1, 17][..], &[0; 10]].concat().repeat(MOST / 12), vec![MOST as u64 - 1]].concat();
    let mut bad = models(MOST / 12 + 1);
    *bad.last_mut().unwrap() = b' ';
    for (text, length, answer) in [(models(MOST / 12), MOST, 0), (models(MOST / 12 + 1), MOST, 8), (bad.clone(), MOST, 17), (bad, 0, 1)] {
        let mut words = vec![7; length];
        assert_eq!(port::read_pdb(&text, &mut words), answer);
        assert!(words == if answer == 0 { full.clone() } else { vec![7; length] });
        counts.count(&text, answer);
    }
}

pub fn compare_limits() {
    type Part = fn(&mut Counts);
    let parts: [(&str, Part); 5] = [
        ("every byte in every column", each_byte),
        ("small texts in each field", each_field),
        ("decimals", decimals),
        ("no lines", no_lines),
        ("the most records", most_records),
    ];
    for (name, part) in parts {
        let mut counts = Counts::default();
        part(&mut counts);
        counts.print(name);
    }
}

// ---- random texts of the writer

// The same with few ids, so that equal ones meet.
fn with_few_ids(r: &mut Random, mut m: Machine) -> Machine {
    let mut any = |of: &[&[u8]]| pack(of[r.below(of.len() as u64) as usize]);
    for c in m.iter_mut().flat_map(|m| &mut m.chains) {
        c.id = any(&[b"A", b"B", b"a"]);
        for residue in &mut c.residues {
            (residue.serial, residue.code) = (any(&[b"\0", b"\0\0\0\0\0\0\0\x01"]), any(&[b"", b"A"]));
            for f in &mut residue.conformers {
                (f.name, f.location) = (any(&[b"ALA", b"GLY"]), any(&[b"", b"A", b"B"]));
            }
        }
    }
    m
}

// The lines of a text, those of each model's atoms in another order.
fn shuffled(r: &mut Random, text: &[u8]) -> Vec<u8> {
    let mut lines: Vec<&[u8]> = text.chunks(LINE).collect();
    let is_atom = |line: &&[u8]| line[0] == b'A' || line[0] == b'H';
    for atoms in lines.chunk_by_mut(|a, b| is_atom(a) && is_atom(b)) {
        for i in (1..atoms.len()).rev() {
            atoms.swap(i, r.below(i as u64 + 1) as usize);
        }
    }
    lines.concat()
}

fn first_of<T, K: std::hash::Hash + Eq>(parts: &mut Vec<T>, key: impl Fn(&T) -> K, is_empty: impl Fn(&T) -> bool) {
    let mut seen = HashSet::new();
    parts.retain(|part| !is_empty(part) && seen.insert(key(part)));
}

// "no two siblings have equal ids, no chain, residue or conformer is empty"
fn tidied(mut m: Machine) -> Machine {
    for model in &mut m {
        for c in &mut model.chains {
            for residue in &mut c.residues {
                first_of(&mut residue.conformers, |f| (f.name, f.location), |f| f.atoms.is_empty());
            }
            first_of(&mut c.residues, |r| (r.serial, r.code), |r| r.conformers.is_empty());
        }
        first_of(&mut model.chains, |c| c.id, |c| c.residues.is_empty());
    }
    m
}

pub fn written(store: &[u64]) -> Vec<u8> {
    let mut out = vec![0; LINE * store.len()];
    let answer = port::write_pdb(store, &mut out);
    assert_eq!(answer.result, 0, "write_pdb on {store:?}");
    out.truncate(answer.length as usize);
    out
}

// "reading the text into a store of equal length and writing again gives the same bytes"
fn round_trip(r: &mut Random, m: &Machine, counts: &mut Counts) {
    let m = tidied(m.clone());
    let store = plain::lay_out(&m, plain::records(&m).len() + 1 + r.below(20) as usize);
    let text = written(&store);
    let mut read = anything(r, store.len());
    assert_eq!(port::read_pdb(&text, &mut read), 0, "read_pdb on\n{}", shown(&text));
    let again = written(&read);
    assert!(again == text, "written again as\n{}in place of\n{}", shown(&again), shown(&text));
    counts.round_trips += 1;
}

// ---- spoilt texts

// The fields of numbers, by their columns from 1, and how many decimals they have.
const NUMBERS: [(usize, usize, usize); 7] = [(7, 11, 0), (23, 26, 0), (31, 38, 3), (39, 46, 3), (47, 54, 3), (55, 60, 2), (61, 66, 2)];

// A number field of a line in a form that the writer doesn't write: with a zero before it, as zero with a minus, to the left, with a blank
// or another byte inside.
fn spoil_number(r: &mut Random, line: &mut [u8]) {
    let (first, last, places) = NUMBERS[r.below(NUMBERS.len() as u64) as usize];
    let field = &mut line[first - 1..last];
    let inside = r.below(field.len() as u64) as usize;
    match r.below(5) {
        0 => field.iter_mut().rev().find(|b| **b == b' ').into_iter().for_each(|b| *b = b'0'),
        1 => {
            let zero = if places > 0 { format!("-0.{:0places$}", 0) } else { "-0".to_owned() };
            field.fill(b' ');
            let at = field.len() - zero.len();
            field[at..].copy_from_slice(zero.as_bytes());
        }
        2 => field.rotate_left(1),
        3 => field[inside] = b' ',
        _ => field[inside] = b"+-.,eE\t0x"[r.below(9) as usize],
    }
}

// A line in a form that the writer mostly doesn't write.
fn spoil_line(r: &mut Random, line: &mut [u8]) {
    let column = r.below(line.len() as u64) as usize;
    match r.below(7) {
        0 => line[column] = r.below(256) as u8,
        1 => line[column] = b"\t\r\n \0~0"[r.below(7) as usize],
        2 => line.make_ascii_lowercase(),
        3 => line[76..80].make_ascii_lowercase(),
        4 => line[12..16].rotate_left(1 + r.below(3) as usize),
        5 => line[80] = b"\r \n\0"[r.below(4) as usize],
        _ => spoil_number(r, line),
    }
}

fn spoilt(r: &mut Random, text: &[u8]) -> Vec<u8> {
    let lines: Vec<&[u8]> = text.chunks(LINE).collect();
    let i = r.below(lines.len() as u64) as usize;
    let (before, line, behind) = (lines[..i].concat(), lines[i], lines[i + 1..].concat());
    let at = r.below(text.len() as u64) as usize;
    match r.below(12) {
        0 => text[..at].to_vec(),
        1 => before,
        2 => [&before, line, line, &behind].concat(),
        3 => [before, behind].concat(),
        4 => [&text[..at], &text[at + 1..]].concat(),
        5 => [&text[..at], b" ", &text[at..]].concat(),
        6 => shown(text).replace('\n', "\r\n").into_bytes(),
        7 => [&before, &line[..80], b"\r\n", &behind].concat(),
        _ => {
            let mut line = line.to_vec();
            spoil_line(r, &mut line);
            [before, line, behind].concat()
        }
    }
}

// One byte of a line in each of its columns.
fn each_column(r: &mut Random, text: &[u8], length: usize, counts: &mut Counts) {
    let line = r.below((text.len() / LINE) as u64) as usize;
    for at in line * LINE..(line + 1) * LINE {
        let mut spoilt = text.to_vec();
        spoilt[at] = if r.one_in(2) { r.below(256) as u8 } else { b" -+.09AZaz~\t\r\n"[r.below(14) as usize] };
        call(&spoilt, vec![7; length], counts);
    }
}

// Bytes of any kind, or pieces of lines.
fn junk(r: &mut Random, text: &[u8]) -> Vec<u8> {
    let length = [r.below(200) as usize, LINE * r.below(4) as usize][r.below(2) as usize];
    match r.below(3) {
        0 => (0..length).map(|_| r.below(256) as u8).collect(),
        1 => (0..length).map(|_| b" MODELATHN0123456789.-+\n"[r.below(24) as usize]).collect(),
        _ => {
            let piece = |r: &mut Random| {
                let (a, b) = (r.below(text.len() as u64 + 1) as usize, r.below(text.len() as u64 + 1) as usize);
                text[a.min(b)..a.max(b)].to_vec()
            };
            [piece(r), piece(r)].concat()
        }
    }
}

// A random structure's text, whole, in another order of its atoms and spoilt; and the structure written, read and written again.
pub fn compare_random(r: &mut Random, counts: &mut Counts) {
    let m = fitting::machine(r, None);
    let m = if r.one_in(2) { with_few_ids(r, m) } else { m };
    let text = text::text(&m).expect("its fields fit");
    compare(r, &text, counts);
    let other_order = shuffled(r, &text);
    compare(r, &other_order, counts);
    round_trip(r, &m, counts);
    let unusual = junk(r, &text);
    compare(r, &unusual, counts);
    if text.is_empty() {
        return;
    }
    // A record more of each kind than the structure has.
    let length = plain::records(&m).len() + 5 * 12 + 1;
    for _ in 0..6 {
        let spoilt = spoilt(r, &text);
        call(&spoilt, vec![7; length], counts);
        by_package(&spoilt, counts);
    }
    if r.one_in(16) {
        each_column(r, &text, length, counts);
        each_room(r, &other_order, counts);
    }
}
