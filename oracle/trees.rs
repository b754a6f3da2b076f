// Small trees in full, good and malformed, by find from a start of each level and by `remove_atoms_by`, on a store that has atoms with and
// without an element.
use crate::plain::pack;
use crate::port::{Call, NewAtom};
use crate::sides::{Counts, Sides};

const WORDS: usize = 40 * 12 + 1;

// One of each level. Records stand before those from the chain down, and behind all but the structure; the conformer isn't an amino acid's.
pub const STARTS: [&[u64]; 5] = [&[], &[0], &[1, 0], &[1, 0, 0], &[1, 0, 1, 0]];

// The names and elements of each conformer's atoms.
pub const ATOMS: [(&str, u64); 3] = [("N", 7), ("XX", 0), ("CB", 6)];

pub fn sample(atoms: [(&str, u64); 3]) -> Sides {
    let mut sides = Sides::open(vec![0; WORDS]);
    let counts = &mut Counts::default();
    let conformers = [("A", 7, "ALA"), ("A", 8, "HOH"), ("B", 7, "ALA")];
    for i in 0..18 {
        let model = i / 9;
        if i % 9 == 0 {
            sides.edit(&Call::AddModel(model + 1), counts);
        }
        let (chain, residue, conformer) = conformers[i as usize / 3 % 3];
        let (name, element) = atoms[i as usize % 3];
        let half = 0.5f64.to_bits();
        let values = NewAtom { serial: i, occupancy: half, b_factor: half, element, hetero: i % 2, ..NewAtom::default() };
        assert_eq!(sides.edit(&Call::add_atom(model, chain, residue, conformer, name, values), counts).result, 0);
    }
    sides
}

// A refused removal leaves the store as it was; an accepted one has a store of its own.
fn both(sides: &mut Sides, tree: &[u64], counts: &mut Counts) {
    let results = STARTS.map(|start| sides.find(start, tree, WORDS, counts).result);
    let removal = Call::RemoveAtomsBy(0, tree.to_vec());
    let answer = if results[0] == 0 { sample(ATOMS).edit(&removal, counts) } else { sides.edit(&removal, counts) };
    assert_eq!(results, [answer.result; 5]);
}

// One node of every code with small or telling parameters.
fn single_nodes(sides: &mut Sides, counts: &mut Counts) {
    let texts: [&[u8]; 10] = [b"A", b"B", b"a", b"ALA", b"N", b"XX", b" ", b"A\0B", b"\x7f", b"\x80"];
    let floats = [0.5, 1.0, -0.0, f64::NAN, f64::INFINITY].map(f64::to_bits);
    let numbers = [0, 1, 2, 7, 8, 118, 119, i64::MIN as u64, i64::MAX as u64, u64::MAX];
    let values: Vec<u64> = texts.iter().map(|t| pack(t)).chain(floats).chain(numbers).collect();
    for code in (0..=31).chain([256, u64::MAX]) {
        for p in &values {
            values.iter().for_each(|q| both(sides, &[code, *p, *q], counts));
        }
    }
}

// Every list of up to so many of these nodes: a term of each of four levels and one of two, the operators and the constants.
fn lists(sides: &mut Sides, nodes: usize, counts: &mut Counts) {
    let terms = [[1, 1, 0], [3, pack(b"A"), 0], [5, 7, 0], [20, 0, 0], [15, 7, 0]];
    let others = [23, 24, 25, 26, 27, 28].map(|code| [code, 0, 0]);
    let of: Vec<[u64; 3]> = terms.into_iter().chain(others).collect();
    for n in 0..=nodes {
        for mut number in 0..of.len().pow(n as u32) {
            let mut tree = Vec::with_capacity(3 * n);
            for _ in 0..n {
                tree.extend(of[number % of.len()]);
                number /= of.len();
            }
            both(sides, &tree, counts);
        }
    }
}

// Known true under as many Nots as fit, and one more, cut at every word.
fn lengths(sides: &mut Sides, counts: &mut Counts) {
    let tree: Vec<u64> = [28].into_iter().chain([26; 127]).flat_map(|code| [code, 0, 0]).collect();
    (0..=tree.len()).for_each(|end| both(sides, &tree[..end], counts));
}

pub fn compare() -> Counts {
    let mut counts = Counts::default();
    let mut sides = sample(ATOMS);
    single_nodes(&mut sides, &mut counts);
    lists(&mut sides, 6, &mut counts);
    lengths(&mut sides, &mut counts);
    counts
}
