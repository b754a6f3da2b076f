// The Rust package beside the crate: all that both lend for reading, on structures that calls have made on both. Parts are compared by
// their numbers, which are those of the records, so that equal parts at different places are told apart.
use crate::port::{Call, Lookup, NewAtom, Optional};
use crate::random::Random;
use crate::sides::{self, Sides};
use crate::{original, plain};
use jubrelti::Store;
use pdbtbx::{ContainsAtomConformer, ContainsAtomConformerResidue, PDB};
use pdbtbx::{ContainsAtomConformerResidueChain, ContainsAtomConformerResidueChainModel};
use std::collections::HashMap;

searches!(jubrelti);

#[derive(Default)]
pub struct Counts {
    structures: u64,
    records: u64,
    finds: u64,
    hits: u64,
    lookups: u64,
}

impl Counts {
    pub fn print(&self) {
        println!("reading by the Rust package and by the crate: no disagreement");
        println!("  structures {}, records {}", self.structures, self.records);
        println!("  finds {}, hits {}; lookups {}", self.finds, self.hits, self.lookups);
    }
}

type Address = *const ();

fn address<T>(part: &T) -> Address {
    part as *const T as Address
}

// The parts of a structure, each numbered as its record is.
macro_rules! numbers {
    ($structure:expr) => {{
        let mut parts = Vec::new();
        for m in $structure.models() {
            parts.push(address(m));
            for c in m.chains() {
                parts.push(address(c));
                for r in c.residues() {
                    parts.push(address(r));
                    for f in r.conformers() {
                        parts.push(address(f));
                        parts.extend(f.atoms().map(address));
                    }
                }
            }
        }
        parts.into_iter().zip(0..).collect::<HashMap<Address, usize>>()
    }};
}

// The indexes of the crate's atoms, from the model down.
fn positions(pdb: &PDB) -> HashMap<Address, [usize; 5]> {
    let mut positions = HashMap::new();
    for (m, model) in pdb.models().enumerate() {
        for (c, chain) in model.chains().enumerate() {
            for (r, residue) in chain.residues().enumerate() {
                for (f, conformer) in residue.conformers().enumerate() {
                    positions.extend(conformer.atoms().enumerate().map(|(a, atom)| (address(atom), [m, c, r, f, a])));
                }
            }
        }
    }
    positions
}

// From both ends in turn.
fn in_turn<T>(mut items: impl DoubleEndedIterator<Item = T>) -> Vec<T> {
    let mut taken = Vec::new();
    while let Some(item) = if taken.len() % 2 == 0 { items.next() } else { items.next_back() } {
        taken.push(item);
    }
    taken
}

// Any order of iterating: forwards, backwards, in turn.
macro_rules! orders {
    ($items:expr, $of:expr) => {
        [$items.map($of).collect::<Vec<_>>(), $items.rev().map($of).collect(), in_turn($items).into_iter().map($of).collect()]
    };
}

// Methods that answer numbers or texts.
macro_rules! same {
    ($ours:expr, $theirs:expr; $($method:ident)*) => {
        $(assert_eq!($ours.$method(), $theirs.$method(), stringify!($method));)*
    };
}

// NaNs are one: which of them an operation gives is not the crate's to say.
fn bits(float: f64) -> u64 {
    if float.is_nan() { f64::NAN.to_bits() } else { float.to_bits() }
}

macro_rules! same_bits {
    ($ours:expr, $theirs:expr; $($method:ident)*) => {
        $(assert_eq!(bits($ours.$method()), bits($theirs.$method()), stringify!($method));)*
    };
}

struct Both<'a> {
    store: Store<&'a [u64]>,
    ours: HashMap<Address, usize>,
    theirs: HashMap<Address, usize>,
}

// The lists of a level and what stands in them at an index, also beyond the end.
macro_rules! same_lists {
    ($both:expr, $ours:expr, $theirs:expr; $($many:ident $one:ident),*) => {$(
        let of_ours = |part: &_| $both.ours[&address(part)];
        let of_theirs = |part: &_| $both.theirs[&address(part)];
        let lists = orders!($ours.$many(), of_ours);
        assert_eq!(lists, orders!($theirs.$many(), of_theirs), stringify!($many));
        for i in (0..lists[0].len() + 2).chain([usize::MAX]) {
            assert_eq!($ours.$one(i).map(of_ours), $theirs.$one(i).map(of_theirs), "{} {i}", stringify!($one));
        }
    )*};
}

// The atoms of a level with what they stand in, by the same parts of both.
macro_rules! same_hierarchies {
    ($both:expr, $ours:expr, $theirs:expr; $($part:ident)*) => {{
        let ours = orders!($ours.atoms_with_hierarchy(), |h| (
            [$($both.ours[&address(h.$part())]),*],
            jubrelti::ContainsAtomConformer::is_backbone(&h),
            jubrelti::ContainsAtomConformer::is_sidechain(&h),
        ));
        let theirs = orders!($theirs.atoms_with_hierarchy(), |h| ([$($both.theirs[&address(h.$part())]),*], h.is_backbone(), h.is_sidechain()));
        assert_eq!(ours, theirs, "atoms_with_hierarchy");
        let (ours, theirs): (Vec<_>, Vec<_>) = ($ours.atoms_with_hierarchy().collect(), $theirs.atoms_with_hierarchy().collect());
        for (a, b) in ours.iter().zip(&theirs) {
            let equal = ours.iter().zip(&theirs).all(|(c, d)| (a == c) == (b == d));
            assert!(equal, "equality of hierarchies");
        }
    }};
}

// The order and equality of any two.
macro_rules! same_order {
    ($ours:expr, $theirs:expr) => {{
        let (ours, theirs): (Vec<_>, Vec<_>) = ($ours.collect(), $theirs.collect());
        for (a, b) in ours.iter().zip(&theirs) {
            for (c, d) in ours.iter().zip(&theirs) {
                assert_eq!((a.cmp(c), a.partial_cmp(c), a == c), (b.cmp(d), b.partial_cmp(d), b == d), "order of {a} and {c}");
            }
        }
    }};
}

fn atoms(ours: &jubrelti::Atom, theirs: &pdbtbx::Atom) {
    same!(ours, theirs; hetero serial_number name charge pdb_charge is_backbone to_string);
    same_bits!(ours, theirs; x y z occupancy b_factor);
    let (p, q) = (ours.pos(), theirs.pos());
    assert_eq!([p.0, p.1, p.2].map(bits), [q.0, q.1, q.2].map(bits), "pos");
    assert_eq!(ours.element().map(|e| e.atomic_number()), theirs.element().map(|e| e.atomic_number()), "element");
}

fn two_atoms(a: [&jubrelti::Atom; 2], b: [&pdbtbx::Atom; 2]) {
    assert_eq!(a[0].corresponds(a[1]), b[0].corresponds(b[1]), "corresponds");
    assert_eq!(bits(a[0].distance(a[1])), bits(b[0].distance(b[1])), "distance");
}

// What the package's traits lend; elsewhere its types' own methods are called.
fn by_traits(hit: &impl jubrelti::ContainsAtomConformerResidueChainModel) -> [Address; 5] {
    [address(hit.model()), address(hit.chain()), address(hit.residue()), address(hit.conformer()), address(hit.atom())]
}

impl<'a> Both<'a> {
    fn new(words: &'a [u64], pdb: &PDB) -> Self {
        let store = Store::from_words(words).unwrap();
        let (ours, theirs) = (numbers!(store), numbers!(pdb));
        Both { store, ours, theirs }
    }

    fn conformer(&self, ours: &jubrelti::Conformer, theirs: &pdbtbx::Conformer) {
        same!(ours, theirs; name alternative_location id is_amino_acid atom_count to_string);
        same_lists!(self, ours, theirs; atoms atom);
        ours.atoms().zip(theirs.atoms()).for_each(|(a, b)| atoms(a, b));
        for serial in 0..6 {
            let (a, b) = (ours.binary_find_atom(serial), theirs.binary_find_atom(serial));
            assert_eq!(a.map(|a| self.ours[&address(a)]), b.map(|b| self.theirs[&address(b)]), "binary_find_atom");
        }
    }

    fn residue(&self, ours: &jubrelti::Residue, theirs: &pdbtbx::Residue) {
        same!(ours, theirs; serial_number insertion_code id name conformer_count atom_count to_string);
        same_lists!(self, ours, theirs; conformers conformer, atoms atom);
        same_hierarchies!(self, ours, theirs; conformer atom);
        for (serial, location) in (0..6).flat_map(|serial| [None, Some("A"), Some("B"), Some("a")].map(|l| (serial, l))) {
            let a = ours.binary_find_atom(serial, location).map(|h| [self.ours[&address(h.conformer())], self.ours[&address(h.atom())]]);
            let b = theirs.binary_find_atom(serial, location);
            let b = b.map(|h| [self.theirs[&address(h.conformer())], self.theirs[&address(h.atom())]]);
            assert_eq!(a, b, "binary_find_atom of a residue");
        }
        ours.conformers().zip(theirs.conformers()).for_each(|(a, b)| self.conformer(a, b));
    }

    fn chain(&self, ours: &jubrelti::Chain, theirs: &pdbtbx::Chain) {
        same!(ours, theirs; id residue_count conformer_count atom_count to_string);
        same_lists!(self, ours, theirs; residues residue, conformers conformer, atoms atom);
        same_hierarchies!(self, ours, theirs; residue conformer atom);
        ours.residues().zip(theirs.residues()).for_each(|(a, b)| self.residue(a, b));
    }

    fn model(&self, ours: &jubrelti::Model, theirs: &pdbtbx::Model) {
        same!(ours, theirs; serial_number chain_count residue_count conformer_count atom_count to_string);
        same_lists!(self, ours, theirs; chains chain, residues residue, conformers conformer, atoms atom);
        same_hierarchies!(self, ours, theirs; chain residue conformer atom);
        ours.chains().zip(theirs.chains()).for_each(|(a, b)| self.chain(a, b));
    }

    fn structure(&self, pdb: &PDB) {
        let store = &self.store;
        same!(store, pdb; model_count chain_count residue_count conformer_count atom_count to_string unique_conformer_names);
        same!(store, pdb; total_chain_count total_residue_count total_conformer_count total_atom_count);
        same_lists!(self, store, pdb; models model, chains chain, residues residue, conformers conformer, atoms atom);
        same_hierarchies!(self, store, pdb; model chain residue conformer atom);
        store.models().zip(pdb.models()).for_each(|(a, b)| self.model(a, b));
        same_order!(store.models(), pdb.models());
        same_order!(store.chains(), pdb.chains());
        same_order!(store.residues(), pdb.residues());
        same_order!(store.conformers(), pdb.conformers());
        same_order!(store.atoms(), pdb.atoms());
    }

    // What goes by coordinates.
    fn geometry(&self, pdb: &PDB) {
        let (ours, theirs): (Vec<_>, Vec<_>) = (self.store.atoms().collect(), pdb.atoms().collect());
        for i in 0..ours.len() {
            for j in 0..ours.len() {
                two_atoms([ours[i], ours[j]], [theirs[i], theirs[j]]);
                let (k, l) = ((i + 2 * j + 1) % ours.len(), (3 * i + j + 2) % ours.len());
                assert_eq!(bits(ours[i].angle(ours[j], ours[k])), bits(theirs[i].angle(theirs[j], theirs[k])), "angle");
                let dihedral = ours[i].dihedral(ours[j], ours[k], ours[l]);
                assert_eq!(bits(dihedral), bits(theirs[i].dihedral(theirs[j], theirs[k], theirs[l])), "dihedral");
            }
        }
        let corners = |((a, b, c), (d, e, f)): ((f64, f64, f64), (f64, f64, f64))| [a, b, c, d, e, f].map(bits);
        assert_eq!(corners(self.store.bounding_box()), corners(pdb.bounding_box()), "bounding_box");
        for distance in [0.0, 0.75, 1.5, 40.0, f64::INFINITY] {
            assert_eq!(self.store.chains_in_contact(distance), pdb.chains_in_contact(distance), "chains_in_contact {distance}");
        }
    }

    // The record numbers and positions that a hit tells, against those of the crate's parts.
    fn hit(&self, ours: &jubrelti::Hit, theirs: &pdbtbx::AtomConformerResidueChainModel, positions: &HashMap<Address, [usize; 5]>) {
        let (m, c, r, f, a) = (theirs.model(), theirs.chain(), theirs.residue(), theirs.conformer(), theirs.atom());
        let records = [address(m), address(c), address(r), address(f), address(a)].map(|part| self.theirs[&part]);
        let parts = by_traits(ours).map(|part| self.ours[&part]);
        assert_eq!((ours.records(), parts), (records, records), "the records of a hit");
        assert_eq!(ours.position(), positions[&address(theirs.atom())], "the position of a hit");
        same!(ours.model(), theirs.model(); serial_number);
        same!(ours.chain(), theirs.chain(); id);
        same!(ours.residue(), theirs.residue(); id);
        same!(ours.conformer(), theirs.conformer(); id);
        atoms(ours.atom(), theirs.atom());
    }
}

// The whole structure.
pub fn compare(sides: &Sides, counts: &mut Counts) {
    let Some(pdb) = &sides.judges.pdb else { return };
    let both = Both::new(&sides.store, pdb);
    assert_eq!(both.ours.len(), both.theirs.len(), "the number of parts");
    both.structure(pdb);
    both.geometry(pdb);
    let positions = positions(pdb);
    both.store.atoms_with_hierarchy().zip(pdb.atoms_with_hierarchy()).for_each(|(a, b)| both.hit(&a, &b, &positions));
    counts.structures += 1;
    counts.records += both.ours.len() as u64;
}

fn find<'a>(store: &'a Store<&[u64]>, start: &[u64], search: jubrelti::Search) -> jubrelti::Hits<'a> {
    let start: Vec<usize> = start.iter().map(|index| *index as usize).collect();
    match start[..] {
        [] => store.find(search),
        [m] => store.model_find(m, search),
        [m, c] => store.chain_find([m, c], search),
        [m, c, r] => store.residue_find([m, c, r], search),
        [m, c, r, f] => store.conformer_find([m, c, r, f], search),
        _ => unreachable!("a start of {} indexes", start.len()),
    }
    .unwrap()
}

// The hits of a tree that was accepted from a start. The crate's say only what stands below the start, so their atoms are looked up in the
// whole structure.
pub fn hits(sides: &Sides, start: &[u64], tree: &[u64], counts: &mut Counts) {
    let Some(pdb) = &sides.judges.pdb else { return };
    let both = Both::new(&sides.store, pdb);
    let tree = plain::read_tree(tree).unwrap();
    let atoms: HashMap<usize, _> = pdb.atoms_with_hierarchy().map(|h| (both.theirs[&address(h.atom())], h)).collect();
    let theirs: Vec<_> = original::find(pdb, start, original::search_for(&tree)).iter().map(|records| &atoms[&(records[4] as usize)]).collect();
    let ours = find(&both.store, start, search(&tree));
    assert_eq!(ours.len(), theirs.len(), "the number of hits");
    let positions = positions(pdb);
    ours.clone().zip(&theirs).for_each(|(a, b)| both.hit(&a, b, &positions));
    ours.rev().zip(theirs.iter().rev()).for_each(|(a, b)| both.hit(&a, b, &positions));
    counts.finds += 1;
    counts.hits += theirs.len() as u64;
}

// A lookup that the port has answered, in the types of the package.
pub fn lookup(sides: &Sides, serial: u64, location: &Optional, answer: &Lookup, counts: &mut Counts) {
    let (0 | 1, Ok(text)) = (location.flag, std::str::from_utf8(&location.text)) else { return };
    let store = Store::from_words(&sides.store[..]).unwrap();
    let found = store.binary_find_atom(serial as usize, (location.flag == 1).then_some(text)).unwrap();
    let expected = (answer.found == 1).then(|| answer.at.map(|r| r as usize));
    assert_eq!(found.map(|hit| hit.records()), expected, "the package's lookup {serial} {location:?} on {:?}", sides.store);
    counts.lookups += 1;
}

// A coordinate: mostly of a structure's size, else any finite one.
fn coordinate(r: &mut Random) -> f64 {
    let any = f64::from_bits(r.word());
    if r.one_in(20) && any.is_finite() { any } else { (r.below(200_001) as f64 - 100_000.0) / 1_000.0 }
}

// Atoms in random places, with every charge of one digit and some beyond: random lists have theirs on a line.
pub fn compare_places(r: &mut Random, edits: &mut sides::Counts, counts: &mut Counts) {
    let mut sides = Sides::open(vec![0; 12 * 40 + 1]);
    sides.edit(&Call::AddModel(1), edits);
    for serial in 0..2 + r.below(7) {
        let [x, y, z] = [0; 3].map(|_| coordinate(r).to_bits());
        let charge = r.below(25).wrapping_sub(12);
        let values = NewAtom { serial, x, y, z, charge, element: 1 + r.below(118), ..NewAtom::default() };
        let chain = ["A", "B", "C"][r.below(3) as usize];
        sides.edit(&Call::add_atom(0, chain, r.below(2), "ALA", "CA", values), edits);
    }
    compare(&sides, counts);
}

// Every text of up to three of these characters.
fn names(characters: &str) -> Vec<String> {
    let one: Vec<String> = characters.chars().map(String::from).collect();
    let longer = |texts: &[String]| texts.iter().flat_map(|t| characters.chars().map(move |c| format!("{t}{c}"))).collect::<Vec<_>>();
    let two = longer(&one);
    [longer(&two), two, one].concat()
}

// A store of a model, a chain, a residue, these conformers and, in the last one, these atoms.
fn named(conformers: &[String], atoms: &[String]) -> Store {
    let pack = |name: &String| plain::pack(name.as_bytes());
    let mut records = vec![[1, 1, 0], [2, pack(&"A".to_owned()), 0], [3, 1, 0]];
    records.extend(conformers.iter().map(|name| [4, pack(name), 0]));
    records.extend(atoms.iter().map(|name| [5, 1, pack(name)]));
    let mut words: Vec<u64> = records.iter().flat_map(|record| [&record[..], &[0; 9]].concat()).collect();
    words.push(words.len() as u64);
    Store::from_words(words).unwrap()
}

// Which names are those of amino acids and of the backbone; the number of names.
pub fn compare_tables() -> usize {
    let conformers = names("ABCDEFGHIJKLMNOPQRSTUVWXYZ");
    let atoms = names("ABCDEFGHIJKLMNOPQRSTUVWXYZ0123456789");
    let store = named(&conformers, &atoms);
    for (ours, name) in store.conformers().zip(&conformers) {
        let theirs = pdbtbx::Conformer::new(name, None, None).unwrap();
        same!(ours, theirs; name is_amino_acid);
    }
    for (ours, name) in store.atoms().zip(&atoms) {
        let theirs = pdbtbx::Atom::new(false, 1, name, 0.0, 0.0, 0.0, 0.0, 0.0, "H", 0).unwrap();
        same!(ours, theirs; name is_backbone);
    }
    store.conformer_count() + store.atom_count()
}
