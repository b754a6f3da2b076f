// The port's PDB lines against the plain reading of change requests §1 and §5 (oracle/text.rs), on whole texts: numbers, names and
// elements at and beyond every limit, all halves that fit, random structures and stores that are spoilt.
use crate::plain::{self, pack, Atom, Chain, Conformer, Machine, Model, Residue};
use crate::port::{self, NewAtom, Write};
use crate::random::Random;
use crate::{fitting, text};

#[derive(Default)]
pub struct Counts {
    structures: u64,
    lines: u64,
    calls: u64,
    accepted: u64,
    too_wide: u64,
    too_short: u64,
    bad_stores: u64,
}

impl Counts {
    pub fn print(&self, name: &str) {
        println!("PDB lines, {name}: no disagreement");
        let Counts { structures, lines, calls, accepted, too_wide, too_short, bad_stores } = self;
        println!("  structures {structures}, lines written {lines}, calls {calls}");
        println!("  accepted {accepted}; refused with 12 {too_wide}, with 13 {too_short}, with 1 or 2 {bad_stores}");
    }

    fn count(&mut self, answer: Write) {
        self.calls += 1;
        match answer.result {
            0 => self.accepted += 1,
            12 => self.too_wide += 1,
            13 => self.too_short += 1,
            _ => self.bad_stores += 1,
        }
        self.lines += answer.length / 81;
    }
}

fn shown(bytes: &[u8]) -> String {
    String::from_utf8_lossy(bytes).into_owned()
}

// An output of so many bytes, none of which a text has.
fn filled(length: usize) -> Vec<u8> {
    (0..length).map(|i| 128 + (i % 127) as u8).collect()
}

// One call; `expected` makes the answer and the output that it must leave.
fn call(store: &[u64], length: usize, expected: impl Fn(&mut [u8]) -> Write, counts: &mut Counts) {
    let (mut ours, mut theirs) = (filled(length), filled(length));
    let (answer, by_plain) = (port::write_pdb(store, &mut ours), expected(&mut theirs));
    assert_eq!(answer, by_plain, "the answer of write_pdb into {length} bytes on {store:?}");
    assert!(ours == theirs, "write_pdb into {length} bytes on {store:?} leaves\n{}in place of\n{}", shown(&ours), shown(&theirs));
    counts.count(answer);
}

// A good store of a machine, into outputs that are exact, a byte short, longer and empty.
pub fn compare(store: &[u64], m: &Machine, counts: &mut Counts) {
    let atoms = |m: &Model| m.chains.iter().flat_map(|c| &c.residues).flat_map(|r| &r.conformers).map(|f| f.atoms.len()).sum::<usize>();
    let exact = 81 * m.iter().map(|m| 2 + atoms(m)).sum::<usize>();
    let text = text::text(m);
    for length in [exact, exact.saturating_sub(1), exact + 1, exact + 100, 0] {
        call(store, length, |out| text::write(&text, out), counts);
    }
    counts.structures += 1;
}

fn compare_machine(m: &Machine, counts: &mut Counts) {
    let length = plain::records(m).len() + 1;
    compare(&plain::lay_out(m, length), m, counts);
}

// ---- one atom, one field

fn sample(values: NewAtom) -> Machine {
    let atom = Atom { name: pack(b"CA"), values };
    let conformer = Conformer { name: pack(b"GLY"), location: 0, atoms: vec![atom] };
    let residue = Residue { serial: 7, code: 0, conformers: vec![conformer] };
    vec![Model { serial: 1, chains: vec![Chain { id: pack(b"A"), residues: vec![residue] }] }]
}

// Its parts, for changes of one field.
fn chain(m: &mut Model) -> &mut Chain {
    &mut m.chains[0]
}

fn residue(m: &mut Model) -> &mut Residue {
    &mut chain(m).residues[0]
}

fn conformer(m: &mut Model) -> &mut Conformer {
    &mut residue(m).conformers[0]
}

fn atom(m: &mut Model) -> &mut Atom {
    &mut conformer(m).atoms[0]
}

fn changed(change: impl Fn(&mut Model), counts: &mut Counts) {
    let mut m = sample(NewAtom { element: 6, ..NewAtom::default() });
    change(&mut m[0]);
    compare_machine(&m, counts);
}

// Zeros, subnormals, halves and what rounds to a width's limit, with their neighbours on both sides and negatives, and the range's ends.
pub fn floats() -> Vec<u64> {
    let limits = [10f64, 100.0, 1_000.0, 10_000.0, 100_000.0].into_iter().flat_map(|x| {
        [0.0, 0.001, 0.0004, 0.0005, 0.0006, 0.01, 0.004, 0.005, 0.006, 0.0625, 0.125].into_iter().flat_map(move |d| [x - d, x + d])
    });
    let small = (0..=64).map(|i| i as f64 / 32.0).chain((0..=40).map(|i| i as f64 / 10_000.0)).chain((0..=40).map(|i| i as f64 / 1_000.0));
    let powers = (0..52).map(|i| 1u64 << i).chain((1..=2_046).map(|e| e << 52)).map(f64::from_bits);
    let halves = [0.125, 0.375, 0.625, 2.5, 999.875, 99.875, 9_999.937_5, 999.937_5, 0.0625, 0.1875];
    let mut all: Vec<f64> = limits.chain(small).chain(powers).chain(halves).chain([f64::MAX]).collect();
    let beside: Vec<f64> = all.iter().flat_map(|x| [x.next_down(), x.next_up()]).filter(|x| x.is_finite()).collect();
    all.extend(beside);
    all.iter().flat_map(|x| [x.to_bits(), (-x).to_bits()]).collect()
}

fn each_float(counts: &mut Counts) {
    for f in floats() {
        for values in [
            NewAtom { x: f, ..NewAtom::default() },
            NewAtom { y: f, ..NewAtom::default() },
            NewAtom { z: f, ..NewAtom::default() },
            NewAtom { occupancy: f, ..NewAtom::default() },
            NewAtom { b_factor: f, ..NewAtom::default() },
        ] {
            compare_machine(&sample(values), counts);
        }
    }
}

// All numbers around each power of ten and of two, with both signs.
fn numbers() -> Vec<u64> {
    let tens = (0..=19).map(|i| 10u64.pow(i));
    let twos = (0..64).map(|i| 1u64 << i);
    let around: Vec<u64> = tens.chain(twos).flat_map(|n| [n - 1, n, n + 1]).chain([0, i64::MIN as u64, u64::MAX]).collect();
    around.iter().flat_map(|n| [*n, n.wrapping_neg()]).collect()
}

fn each_number(counts: &mut Counts) {
    for n in numbers() {
        changed(|m| m.serial = n, counts);
        changed(|m| residue(m).serial = n, counts);
        changed(|m| atom(m).values.serial = n, counts);
        changed(|m| atom(m).values.charge = n, counts);
    }
}

// Names of each length, some with blanks inside, at each element; and each length in every other place of an id.
fn each_text(counts: &mut Counts) {
    let letters = b"CD1'E*G2";
    let names: Vec<u64> = (0..=8).map(|n| pack(&letters[..n])).chain([pack(b"C A"), pack(b"N  1"), pack(b"A B C")]).collect();
    for name in names {
        for element in 0..=118 {
            for hetero in 0..=1 {
                changed(|m| *atom(m) = Atom { name, values: NewAtom { element, hetero, ..NewAtom::default() } }, counts);
            }
        }
        if name != 0 {
            changed(|m| chain(m).id = name, counts);
            changed(|m| conformer(m).name = name, counts);
        }
        changed(|m| residue(m).code = name, counts);
        changed(|m| conformer(m).location = name, counts);
    }
}

// ---- structures

// Every value halfway at three decimals or at two that fits its columns: odd sixteenths and odd eighths.
fn halves_that_fit() -> [Vec<u64>; 2] {
    let odd = |low: i64, high: i64, of: f64| (low..high).filter(|n| n % 2 != 0).map(move |n| (n as f64 / of).to_bits());
    let coordinates = odd(-15_999, 160_000, 16.0).filter(|b| text::exact(*b, 3).len() <= 8).collect();
    [coordinates, odd(-799, 8_000, 8.0).filter(|b| text::exact(*b, 2).len() <= 6).collect()]
}

fn halves(counts: &mut Counts) {
    let [coordinates, others] = halves_that_fit();
    let mut m = sample(NewAtom::default());
    conformer(&mut m[0]).atoms = (coordinates.chunks(3).enumerate())
        .map(|(i, c)| {
            let [x, y, z] = [c[0], c[c.len() / 2], c[c.len() - 1]];
            let (occupancy, b_factor) = (others[i % others.len()], others[others.len() - 1 - i % others.len()]);
            Atom { name: 0, values: NewAtom { serial: i as u64, x, y, z, occupancy, b_factor, ..NewAtom::default() } }
        })
        .collect();
    assert!(text::text(&m).is_ok());
    compare_machine(&m, counts);
}

// Fields that are too wide but on no line: those of a chain, a residue and a conformer without atoms. A model without atoms has lines, so its
// serial number counts.
fn without_lines(counts: &mut Counts) {
    let long = pack(b"TOOLONG");
    let empty = |conformers| Residue { serial: 1 << 40, code: long, conformers };
    let unnamed = Conformer { name: long, location: long, atoms: Vec::new() };
    let chain = |residues| Chain { id: long, residues };
    let written = sample(NewAtom::default()).remove(0);
    for unwritten in [chain(vec![]), chain(vec![empty(vec![])]), chain(vec![empty(vec![unnamed])])] {
        for serial in [0, 9_999, 10_000] {
            let alone = Model { serial, chains: vec![unwritten.clone()] };
            let beside = Model { serial, chains: [vec![unwritten.clone()], written.chains.clone(), vec![unwritten.clone()]].concat() };
            let bare = Model { serial, chains: Vec::new() };
            for m in [vec![alone.clone()], vec![beside.clone()], vec![bare.clone()], vec![alone, beside, bare]] {
                compare_machine(&m, counts);
            }
        }
    }
    compare_machine(&Vec::new(), counts);
}

// ---- stores that hold anything

fn compare_any(store: &[u64], counts: &mut Counts) {
    match plain::read_store(store) {
        Ok(m) => compare(store, &m, counts),
        Err(result) => [0, 1, 200].into_iter().for_each(|n| call(store, n, |_| Write { result, length: 0 }, counts)),
    }
}

fn bad_stores(counts: &mut Counts) {
    let good = plain::lay_out(&sample(NewAtom::default()), 61 + 12);
    for (store, result) in [(vec![], 1), (vec![0; 1_200_002], 1), (vec![12], 2), (vec![6; 13], 2), (good[12..].to_vec(), 2)] {
        assert_eq!(port::check(&store), result);
        compare_any(&store, counts);
    }
    let values = [0, 1, 2, 3, 5, 6, 12, 24, 60, 119, pack(b"A"), pack(b"\x7f"), f64::NAN.to_bits(), u64::MAX];
    for i in 0..good.len() {
        for value in values {
            let mut spoilt = good.clone();
            spoilt[i] = value;
            compare_any(&spoilt, counts);
        }
        compare_any(&good[..i], counts);
    }
}

// ---- the parts of the comparison

pub fn compare_limits() {
    type Part = fn(&mut Counts);
    let parts: [(&str, Part); 6] = [
        ("floats in each place", each_float),
        ("numbers at each limit", each_number),
        ("names and elements", each_text),
        ("every half that fits", halves),
        ("parts without a line", without_lines),
        ("spoilt stores", bad_stores),
    ];
    for (name, part) in parts {
        let mut counts = Counts::default();
        part(&mut counts);
        counts.print(name);
    }
}

// Structures in which all fields fit, or few or many don't; and each with some word spoilt.
pub fn compare_random(r: &mut Random, counts: &mut Counts) {
    let wide = [None, Some(1_000), Some(100), Some(10)][r.below(4) as usize];
    let m = fitting::machine(r, wide);
    let spare = r.below(30) as usize;
    let mut store = plain::lay_out(&m, plain::records(&m).len() + 1 + spare);
    compare(&store, &m, counts);
    let i = r.below(store.len() as u64) as usize;
    store[i] = r.junk();
    compare_any(&store, counts);
}

// How many decimals were compared, how many were halfway, and how many lost the minus before zero.
#[derive(Default)]
pub struct Decimals {
    all: u64,
    halfway: u64,
    zeros: u64,
}

impl Decimals {
    pub fn print(&self) {
        let Decimals { all, halfway, zeros } = self;
        println!("{all} decimals, {halfway} of them halfway: Rust's formatting differs from the exact reading by the minus of {zeros} zeros alone");
    }
}

// The judges of decimals against each other, before any text is judged.
pub fn compare_formatting(r: &mut Random) -> Decimals {
    let random = (0..1_000_000).map(|_| r.word() & !(0x7ff << 52) | (963 + r.below(90)) << 52);
    let mut counts = Decimals::default();
    for bits in floats().into_iter().chain(random).chain(halves_that_fit().concat()) {
        let x = f64::from_bits(bits);
        for places in [2, 3].into_iter().filter(|_| x.abs() < 2f64.powi(113)) {
            let formatted = text::formatted(bits, places);
            assert_eq!(text::exact(bits, places), formatted, "{x} to {places} places");
            counts.all += 1;
            counts.halfway += ((x * 2f64.powi(places as i32 + 1) % 2.0).abs() == 1.0) as u64;
            counts.zeros += (format!("{x:.*}", places as usize) != formatted) as u64;
        }
    }
    counts
}
