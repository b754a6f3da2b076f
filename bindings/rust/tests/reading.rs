// What a store lends for reading, under pdbtbx's names.
use jubrelti::*;

fn atom(serial_number: usize, name: &str, x: f64) -> NewAtom<'_> {
    NewAtom { serial_number, name, x, element: Element::from_symbol(&name[..1]), ..NewAtom::default() }
}

// Model 1: chain A, residue 7 ALA (atoms 1 N, 2 CA), residue 7B with GLY at A (3 N) and SER at B (4 N, 5 OG); chain B, residue -1 HOH (6 O).
// Model 2: nothing. Model 3: chain A, residue 7 ALA (7 N).
fn example() -> Store {
    let mut store = Store::with_records(40).unwrap();
    for serial_number in 1..=3 {
        store.add_model(serial_number).unwrap();
    }
    let mut add = |model, new, chain, residue, conformer| {
        store.add_atom(model, new, chain, residue, conformer).unwrap();
    };
    add(0, atom(1, "N", 0.0), "A", (7, None), ("ALA", None));
    add(0, atom(2, "CA", 1.5), "A", (7, None), ("ALA", None));
    add(0, atom(3, "N", 3.0), "A", (7, Some("B")), ("GLY", Some("A")));
    add(0, atom(4, "N", 3.5), "A", (7, Some("B")), ("SER", Some("B")));
    add(0, atom(5, "OG", 4.0), "A", (7, Some("B")), ("SER", Some("B")));
    add(0, atom(6, "O", -9.0), "B", (-1, None), ("HOH", None));
    add(2, atom(7, "N", 0.25), "A", (7, None), ("ALA", None));
    store
}

fn serials<'a>(atoms: impl Iterator<Item = &'a Atom>) -> Vec<usize> {
    atoms.map(Atom::serial_number).collect()
}

#[test]
fn texts_live_as_long_as_the_store() {
    let store = example();
    let names: Vec<&str> = store.atoms().map(|a| a.name()).collect();
    assert_eq!(names, ["N", "CA", "N", "N", "OG", "O", "N"]);
    let hits: Vec<&str> = store.find(Term::Backbone).unwrap().map(|hit| hit.conformer().name()).collect();
    assert_eq!(hits, ["ALA", "ALA", "GLY", "SER", "ALA"]);
    fn id(chain: &Chain) -> &str {
        chain.id()
    }
    let ids: Vec<&str> = store.chains().map(id).collect();
    assert_eq!(ids, ["A", "B", "A"]);
}

#[test]
fn counts_of_the_first_model_and_of_all() {
    let store = example();
    assert_eq!(store.model_count(), 3);
    assert_eq!([store.chain_count(), store.residue_count(), store.conformer_count(), store.atom_count()], [2, 3, 4, 6]);
    let totals = [store.total_chain_count(), store.total_residue_count(), store.total_conformer_count(), store.total_atom_count()];
    assert_eq!(totals, [3, 4, 5, 7]);
    let chain = store.chain(0).unwrap();
    assert_eq!([chain.residue_count(), chain.conformer_count(), chain.atom_count()], [2, 3, 5]);
    let residue = chain.residue(1).unwrap();
    assert_eq!([residue.conformer_count(), residue.atom_count(), residue.conformer(1).unwrap().atom_count()], [2, 3, 2]);
}

#[test]
fn by_index_through_all_models() {
    let store = example();
    assert_eq!((store.model(2).unwrap().serial_number(), store.model(3)), (3, None));
    assert_eq!((store.chain(1).unwrap().id(), store.chain(3)), ("B", None));
    assert_eq!((store.residue(2).unwrap().id(), store.residue(4)), ((-1, None), None));
    assert_eq!((store.conformer(2).unwrap().id(), store.conformer(5)), (("SER", Some("B")), None));
    assert_eq!((store.atom(6).unwrap().serial_number(), store.atom(7)), (7, None));
    let model = store.model(0).unwrap();
    assert_eq!(model.chain(1).unwrap().atom(0), store.atom(5));
    assert_eq!(model.residue(1).unwrap().atom(2), store.atom(4));
    assert_eq!(model.conformer(3).unwrap().atom(0), model.atom(5));
    assert_eq!((model.atom(6), model.chain(2), model.residue(3), model.conformer(4)), (None, None, None, None));
}

#[test]
fn empty_levels() {
    let empty = Store::with_records(0).unwrap();
    assert_eq!((empty.model_count(), empty.atom_count(), empty.total_atom_count()), (0, 0, 0));
    assert_eq!((empty.models().count(), empty.atoms_with_hierarchy().count()), (0, 0));
    assert_eq!(empty.to_string(), "PDB Models: 0");

    let mut store = example();
    store.remove_atom([0, 1, 0, 0, 0]).unwrap();
    store.remove_conformer([2, 0, 0, 0]).unwrap();
    let without_atoms = store.conformer(3).unwrap();
    assert_eq!((without_atoms.name(), without_atoms.atom_count(), without_atoms.binary_find_atom(6)), ("HOH", 0, None));
    let without_conformers = store.residue(3).unwrap();
    assert_eq!((without_conformers.id(), without_conformers.name(), without_conformers.conformer_count()), ((7, None), None, 0));
    assert_eq!(store.model(1).unwrap().chains().count(), 0);
    assert_eq!(serials(store.atoms()), [1, 2, 3, 4, 5]);
    assert_eq!(store.atoms_with_hierarchy().count(), 5);
}

#[test]
fn from_both_ends() {
    let store = example();
    assert_eq!(serials(store.atoms().rev()), [7, 6, 5, 4, 3, 2, 1]);
    let mut atoms = store.atoms();
    assert_eq!((atoms.next().unwrap().serial_number(), atoms.next_back().unwrap().serial_number()), (1, 7));
    assert_eq!(serials(atoms), [2, 3, 4, 5, 6]);
    let mut hits = store.atoms_with_hierarchy();
    let both = (hits.next_back().unwrap(), hits.next().unwrap());
    assert_eq!((both.0.position(), both.1.position()), ([2, 0, 0, 0, 0], [0, 0, 0, 0, 0]));
    assert_eq!(hits.count(), 5);
    let model = store.model(0).unwrap();
    let last = model.atoms_with_hierarchy().next_back().unwrap();
    assert_eq!((last.chain().id(), last.residue().serial_number(), last.atom().name()), ("B", -1, "O"));
}

#[test]
fn reading_after_an_edit_sees_the_edit() {
    let mut store = Store::with_records(1).unwrap();
    assert_eq!(store.model_count(), 0);
    store.add_model(1).unwrap();
    assert_eq!(store.model_count(), 1);
    store.add_atom(0, atom(1, "N", 0.0), "A", (7, None), ("ALA", None)).unwrap();
    assert_eq!(serials(store.atoms()), [1]);
    let mut edits = Edits::new();
    edits.add_atom(0, atom(2, "CA", 0.0), "A", (7, None), ("ALA", None)).add_model(2);
    store.apply_all(&edits).unwrap();
    assert_eq!((serials(store.atoms()), store.model_count()), (vec![1, 2], 2));
    assert_eq!(store.remove_chain([0, 1]), Err(Error::NoPosition));
    assert_eq!(serials(store.atoms()), [1, 2]);
    let copy = store.clone();
    store.remove_atom([0, 0, 0, 0, 0]).unwrap();
    assert_eq!((serials(store.atoms()), serials(copy.atoms())), (vec![2], vec![1, 2]));
    let mut borrowed = copy.copy_into(vec![0; 200].into_boxed_slice()).unwrap();
    assert_eq!(serials(borrowed.atoms()), [1, 2]);
    borrowed.remove_chain([0, 0]).unwrap();
    assert_eq!((serials(borrowed.atoms()), serials(copy.atoms())), (vec![], vec![1, 2]));
}

#[test]
fn a_position_is_where_the_edit_goes() {
    for i in 0..7 {
        let mut store = example();
        let hit = store.atoms_with_hierarchy().nth(i).unwrap();
        let (gone, position, records) = (hit.atom().serial_number(), hit.position(), hit.records());
        let found = store.find(Term::AtomSerialNumber(gone)).unwrap().next().unwrap();
        assert_eq!((found.position(), found.records(), found.atom()), (position, records, hit.atom()));
        assert_eq!(store.words()[records[4] * 12 + 1], gone as u64);
        store.remove_atom(position).unwrap();
        assert_eq!(serials(store.atoms()), (1..=7).filter(|n| *n != gone).collect::<Vec<_>>());
    }
    let found = example();
    let hit = found.binary_find_atom(5, Some("B")).unwrap().unwrap();
    assert_eq!((hit.records(), hit.position()), ([0, 1, 6, 9, 11], [0, 0, 1, 1, 1]));
}

#[test]
fn names_of_residues_and_kinds_of_atoms() {
    let store = example();
    let names: Vec<Option<&str>> = store.residues().map(Residue::name).collect();
    assert_eq!(names, [Some("ALA"), None, Some("HOH"), Some("ALA")]);
    let backbone: Vec<bool> = store.atoms_with_hierarchy().map(|h| h.is_backbone()).collect();
    assert_eq!(backbone, [true, true, true, true, false, false, true]);
    let side: Vec<usize> = store.atoms_with_hierarchy().filter(|h| h.is_sidechain()).map(|h| h.atom().serial_number()).collect();
    assert_eq!(side, [5]);
    assert!(store.atom(5).unwrap().is_backbone() && !store.conformer(3).unwrap().is_amino_acid());
    assert_eq!(store.unique_conformer_names(), ["ALA", "GLY", "HOH", "SER"]);
}

#[test]
fn within_a_conformer_and_a_residue() {
    let store = example();
    let residue = store.residue(1).unwrap();
    assert_eq!(residue.conformer(1).unwrap().binary_find_atom(5).map(Atom::name), Some("OG"));
    let found = residue.binary_find_atom(4, Some("B")).unwrap();
    assert_eq!((found.conformer().name(), found.atom().serial_number()), ("SER", 4));
    assert_eq!((residue.binary_find_atom(4, Some("A")), residue.binary_find_atom(4, None)), (None, None));
}

#[test]
fn geometry() {
    let mut store = Store::with_records(10).unwrap();
    store.add_model(1).unwrap();
    for (serial_number, [x, y, z]) in [[1.0, 0.0, 0.0], [0.0; 3], [0.0, 3.0, 0.0], [0.0, 3.0, 4.0]].into_iter().enumerate() {
        let new = NewAtom { serial_number, x, y, z, charge: serial_number as isize - 2, ..NewAtom::default() };
        store.add_atom(0, new, ["A", "B"][serial_number / 2], (1, None), ("LIG", None)).unwrap();
    }
    let [a, b, c, d] = [0, 1, 2, 3].map(|i| store.atom(i).unwrap());
    assert_eq!((b.distance(d), a.distance(a)), (5.0, 0.0));
    assert_eq!((a.angle(b, c), a.dihedral(b, c, d)), (90.0, 90.0));
    assert_eq!(store.bounding_box(), ((0.0, 0.0, 0.0), (1.0, 3.0, 4.0)));
    assert_eq!([a, b, c, d].map(Atom::pdb_charge), ["2-", "1-", "", "1+"]);
    assert_eq!(store.chains_in_contact(3.5)["A"], ["B"]);
    assert!(store.chains_in_contact(3.0).is_empty());
}

#[test]
fn order_and_equality() {
    let store = example();
    let residues: Vec<&Residue> = store.residues().collect();
    assert!(residues[2] < residues[0] && residues[0] < residues[1]);
    assert_ne!(residues[0], residues[3]);
    assert_eq!(residues[0].cmp(residues[3]), std::cmp::Ordering::Equal);
    assert!(store.atom(0) < store.atom(1) && store.chain(0) < store.chain(1) && store.model(0) < store.model(1));
    let hits: Vec<AtomConformerResidueChainModel> = store.atoms_with_hierarchy().collect();
    assert_eq!(hits[0], store.find(Term::AtomSerialNumber(1)).unwrap().next().unwrap());
    assert_ne!(hits[0], hits[1]);
    assert_eq!(store.clone().atom(3), store.atom(3));
}

#[test]
fn texts_of_each_level() {
    let store = example();
    let hit = store.atoms_with_hierarchy().nth(4).unwrap();
    assert_eq!(hit.to_string(), "model 1, chain A, residue 7B, SER at B, atom 5 OG");
    assert_eq!(format!("{hit:?}"), "Hit(model 1, chain A, residue 7B, SER at B, atom 5 OG)");
    let first = store.atoms_with_hierarchy().next().unwrap();
    assert_eq!(first.to_string(), "model 1, chain A, residue 7, ALA, atom 1 N");
    let in_residue = store.residue(0).unwrap().atoms_with_hierarchy().next().unwrap();
    assert_eq!(format!("{in_residue:?}"), "AtomConformer(ALA, atom 1 N)");
    assert_eq!(store.model(0).unwrap().to_string(), "MODEL SerialNumber:1, Chains: 2");
    assert_eq!(store.chain(0).unwrap().to_string(), "CHAIN ID:A, Residues: 2");
    assert_eq!(store.residue(1).unwrap().to_string(), "RESIDUE Number:7, InsertionCode:B, Conformers:2");
    assert_eq!(store.conformer(2).unwrap().to_string(), "CONFORMER ID:(\"SER\", Some(\"B\")), Atoms:2");
    let text = "ATOM ID: CA, Number: 2, Element: C, X: 1.5, Y: 0, Z: 0, OCC: 1, B: 0, ANISOU: false";
    assert_eq!(store.atom(1).unwrap().to_string(), text);
    let debug = format!("{store:?}");
    assert!(debug.contains("insertion_code: Some(\"B\")") && debug.contains("name: \"OG\"") && !debug.contains("words"), "{debug}");
}

// A function written for the crate's names.
fn place(hierarchy: &impl ContainsAtomConformerResidueChain) -> (String, isize, String) {
    let (chain, atom) = (hierarchy.chain().id().to_owned(), hierarchy.atom().name().to_owned());
    (chain, hierarchy.residue().serial_number(), atom)
}

#[test]
fn functions_over_hierarchies() {
    let store = example();
    let of_store: Vec<_> = store.model(0).unwrap().atoms_with_hierarchy().map(|h| place(&h)).collect();
    let of_hits: Vec<_> = store.find(Term::ModelSerialNumber(1)).unwrap().map(|h| place(&h)).collect();
    assert_eq!(of_store, of_hits);
    assert_eq!(of_hits[5], ("B".to_owned(), -1, "O".to_owned()));
}

#[test]
fn a_store_goes_between_threads() {
    fn goes<T: Send + Sync>() {}
    goes::<Store>();
    goes::<Store<&[u64]>>();
    goes::<Hits<'_>>();
    let store = example();
    let count = || store.atoms().count();
    let counts = std::thread::scope(|s| [s.spawn(count), s.spawn(count)].map(|thread| thread.join().unwrap()));
    assert_eq!(counts, [7, 7]);
}
