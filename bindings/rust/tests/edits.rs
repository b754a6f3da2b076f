// Each edit, what it answers and what stands afterwards; lookup; stores that own or borrow their words.
use jubrelti::*;

const EDITED: Edited = Edited { found: true, removed: 0 };
const NOT_FOUND: Edited = Edited { found: false, removed: 0 };

fn removed(removed: usize) -> Result<Edited, Error> {
    Ok(Edited { found: true, removed })
}

fn add(store: &mut Store, model: usize, serial_number: usize, chain: &str, residue: isize, location: Option<&str>) {
    let atom = NewAtom { serial_number, name: "CA", element: Some(Element::C), ..NewAtom::default() };
    assert_eq!(store.add_atom(model, atom, chain, (residue, None), ("GLY", location)), Ok(EDITED));
}

// Model 1: chain A, residues 1 (atoms 1, 2) and 2 (conformers A and B, atoms 3 and 4); chain B, residue 1 (atom 5).
// Model 2: chain A, residue 1 (atom 6).
fn example() -> Store {
    let mut store = Store::with_records(40).unwrap();
    assert_eq!(store.add_model(1), Ok(EDITED));
    assert_eq!(store.add_model(2), Ok(EDITED));
    add(&mut store, 0, 1, "A", 1, None);
    add(&mut store, 0, 2, "A", 1, None);
    add(&mut store, 0, 3, "A", 2, Some("A"));
    add(&mut store, 0, 4, "A", 2, Some("B"));
    add(&mut store, 0, 5, "B", 1, None);
    add(&mut store, 1, 6, "A", 1, None);
    store
}

// Each atom as model, chain, residue and serial number.
fn atoms(store: &Store) -> Vec<String> {
    let hits = store.find(Search::Known(true)).unwrap();
    hits.map(|h| {
        let (model, chain, residue) = (h.model().serial_number(), h.chain().id(), h.residue().serial_number());
        format!("{model} {chain} {residue} {}", h.atom().serial_number())
    })
    .collect()
}

// How many records the store holds.
fn records(store: &Store) -> u64 {
    store.words().last().unwrap() / 12
}

#[test]
fn additions() {
    let store = example();
    assert_eq!(atoms(&store), ["1 A 1 1", "1 A 1 2", "1 A 2 3", "1 A 2 4", "1 B 1 5", "2 A 1 6"]);
    assert_eq!(records(&store), 2 + 3 + 4 + 5 + 6);
}

#[test]
fn removals_by_position() {
    let mut store = example();
    assert_eq!(store.remove_atom([0, 0, 0, 0, 1]), removed(1));
    assert_eq!(store.remove_conformer([0, 0, 1, 0]), removed(1));
    assert_eq!(atoms(&store), ["1 A 1 1", "1 A 2 4", "1 B 1 5", "2 A 1 6"]);
    assert_eq!(store.remove_residue([0, 0, 1]), removed(1));
    assert_eq!(store.remove_chain([0, 1]), removed(1));
    assert_eq!(atoms(&store), ["1 A 1 1", "2 A 1 6"]);
    assert_eq!(store.remove_chain([0, 1]), Err(Error::NoPosition));
}

#[test]
fn removals_by_id() {
    let mut store = example();
    assert_eq!(store.remove_conformer_by_id([0, 0, 1], ("GLY", None)), Ok(NOT_FOUND));
    assert_eq!(store.remove_conformer_by_id([0, 0, 1], ("GLY", Some("B"))), removed(1));
    assert_eq!(store.remove_atom_by_serial_number([0, 0, 1, 0], 4), Ok(NOT_FOUND));
    assert_eq!(store.remove_atom_by_serial_number([0, 0, 1, 0], 3), removed(1));
    assert_eq!(store.remove_residue_by_id([1, 0], (1, Some("A"))), Ok(NOT_FOUND));
    assert_eq!(store.remove_residue_by_id([1, 0], (1, None)), removed(1));
    assert_eq!(store.remove_chain_by_id(0, "b"), Ok(NOT_FOUND));
    assert_eq!(store.remove_chain_by_id(0, "B"), removed(1));
    assert_eq!(atoms(&store), ["1 A 1 1", "1 A 1 2"]);
    assert_eq!(store.remove_atom_by_serial_number([0, 0, 1, 1], 3), Err(Error::NoPosition));
}

#[test]
fn removals_by_search_and_of_what_is_empty() {
    let mut store = example();
    // What the atom alone doesn't tell is undecided, and undecided atoms stay.
    assert_eq!(store.remove_atoms_by(0, Term::ChainId("B".to_owned())), removed(0));
    assert_eq!(store.remove_atoms_by(1, Term::AtomSerialNumberRange(3, 5)), removed(0));
    assert_eq!(store.remove_atoms_by(0, Term::AtomSerialNumberRange(3, 5) & !Term::Hetero), removed(3));
    assert_eq!(atoms(&store), ["1 A 1 1", "1 A 1 2", "2 A 1 6"]);
    assert_eq!(records(&store), 2 + 3 + 4 + 5 + 3);
    assert_eq!(store.remove_empty(0), removed(0));
    assert_eq!(records(&store), 2 + 2 + 2 + 2 + 3);
}

#[test]
fn joins() {
    let mut store = example();
    assert_eq!(store.join_conformers([0, 0, 1, 0], [0, 0, 1, 1]), Ok(EDITED));
    assert_eq!(atoms(&store)[2..4], ["1 A 2 3", "1 A 2 4"]);
    assert_eq!(store.join_residues([0, 0, 1], [0, 0, 0]), Ok(EDITED));
    assert_eq!(atoms(&store)[..4], ["1 A 2 3", "1 A 2 4", "1 A 2 1", "1 A 2 2"]);
    assert_eq!(store.join_chains([1, 0], [0, 1]), Ok(EDITED));
    assert_eq!(atoms(&store)[4..], ["2 A 1 6", "2 A 1 5"]);
    assert_eq!(store.join_models(1, 0), Ok(EDITED));
    assert_eq!(atoms(&store), ["2 A 1 6", "2 A 1 5", "2 A 2 3", "2 A 2 4", "2 A 2 1", "2 A 2 2"]);
    assert_eq!(store.join_models(0, 0), Err(Error::JoinWithItself));
    assert_eq!(store.join_chains([0, 1], [0, 1]), Err(Error::JoinWithItself));
    assert_eq!(store.join_chains([0, 2], [0, 2]), Err(Error::NoPosition));
}

const UNKNOWN: [usize; 5] = [0, 0, 1, 0, 1];

// The example with two atoms whose element is missing: at UNKNOWN, and in chain B.
fn with_unknown() -> Store {
    let mut store = example();
    let atom = NewAtom { serial_number: 7, name: "XX", charge: 3, hetero: true, ..NewAtom::default() };
    assert_eq!(store.add_atom(0, atom, "A", (2, None), ("GLY", Some("A"))), Ok(EDITED));
    assert_eq!(store.add_atom(0, atom, "B", (1, None), ("GLY", None)), Ok(EDITED));
    store
}

#[test]
fn an_element_where_it_is_missing() {
    let unknown = with_unknown();
    let record = unknown.atoms_with_hierarchy().find(|hit| hit.position() == UNKNOWN).unwrap().records()[4];
    for number in 1..=118 {
        let (mut store, mut words) = (unknown.clone(), unknown.words().to_vec());
        let element = Element::new(number).unwrap();
        assert_eq!(store.set_element(UNKNOWN, element), Ok(EDITED));
        words[record * 12 + 8] = number as u64;
        assert_eq!(store.words(), words);
        assert_eq!(store.residue(1).unwrap().conformer(0).unwrap().atom(1).unwrap().element(), Some(&element));
    }
}

#[test]
fn an_element_that_is_present_stays() {
    let mut store = with_unknown();
    let before = store.words().to_vec();
    assert_eq!(store.set_element([0; 5], Element::N), Ok(NOT_FOUND));
    assert_eq!(store.set_element([0; 5], Element::C), Ok(NOT_FOUND));
    assert_eq!(store.words(), before);
    assert_eq!(store.set_element(UNKNOWN, Element::S), Ok(EDITED));
    let set = store.words().to_vec();
    assert_eq!(store.set_element(UNKNOWN, Element::Se), Ok(NOT_FOUND));
    assert_eq!(store.words(), set);
}

#[test]
fn an_element_of_no_atom() {
    let mut store = with_unknown();
    let before = store.words().to_vec();
    for level in 0..5 {
        for index in [2, usize::MAX] {
            let mut position = UNKNOWN;
            position[level] = index;
            assert_eq!(store.set_element(position, Element::N), Err(Error::NoPosition), "at {position:?}");
        }
    }
    assert_eq!(store.words(), before);
}

// The positions that a search lists, from the whole store and from each level above an atom.
fn lists(store: &Store, [model, chain, residue, conformer, _]: [usize; 5], search: &Search) -> [Vec<[usize; 5]>; 5] {
    let search = || search.clone();
    [
        store.find(search()),
        store.model_find(model, search()),
        store.chain_find([model, chain], search()),
        store.residue_find([model, chain, residue], search()),
        store.conformer_find([model, chain, residue, conformer], search()),
    ]
    .map(|hits| hits.unwrap().map(|hit| hit.position()).collect())
}

// A search lists what it listed before, or all of it but the atom whose element was set.
#[test]
fn searches_before_and_after_an_element_is_set() {
    use Element::{C, N, O};
    let name = |name: &str| Term::AtomName(name.to_owned());
    // With the elements that make the search false at the atom.
    let searches: [(Search, &[Element]); 9] = [
        (Term::Element(N).into(), &[C, O]),
        (!Term::Element(N), &[N]),
        (Term::Element(N) & !Term::Element(N), &[C, N, O]),
        (Term::Element(N) | !Term::Element(N), &[]),
        (Term::Element(N) ^ Term::Element(O), &[C]),
        (name("XX") & !Term::Element(C), &[C]),
        (name("CA") & Term::Element(C), &[]),
        (Term::Hetero | Term::Element(C), &[]),
        // False at the atom's chain, but undecided from there down.
        (Term::ChainId("B".to_owned()) & Term::Element(N), &[C, O]),
    ];
    for (search, lost_by) in searches {
        for element in [C, N, O] {
            let mut store = with_unknown();
            let mut expected = lists(&store, UNKNOWN, &search);
            if lost_by.contains(&element) {
                assert!(expected[4].contains(&UNKNOWN), "{search}");
                expected.iter_mut().for_each(|list| list.retain(|position| *position != UNKNOWN));
            }
            assert_eq!(store.set_element(UNKNOWN, element), Ok(EDITED));
            assert_eq!(lists(&store, UNKNOWN, &search), expected, "{search} with {element}");
        }
    }
}

#[test]
fn all_that_a_hit_tells() {
    let mut store = Store::with_records(5).unwrap();
    store.add_model(4).unwrap();
    let zinc = NewAtom {
        serial_number: 12,
        name: " zn1 ",
        x: 1.5,
        y: -2.25,
        z: 0.125,
        occupancy: 0.75,
        b_factor: 31.5,
        element: Some(Element::Zn),
        charge: -2,
        hetero: true,
    };
    store.add_atom(0, zinc, " x ", (-3, Some("b")), ("zn", Some("c"))).unwrap();
    let hit = store.find(Term::Hetero).unwrap().next().unwrap();
    assert_eq!(hit.records(), [0, 1, 2, 3, 4]);
    assert_eq!(hit.model().serial_number(), 4);
    assert_eq!(hit.chain().id(), "x");
    assert_eq!((hit.residue().serial_number(), hit.residue().insertion_code()), (-3, Some("B")));
    assert_eq!(hit.residue().id(), (-3, Some("B")));
    assert_eq!((hit.conformer().name(), hit.conformer().alternative_location()), ("ZN", Some("C")));
    assert_eq!(hit.conformer().id(), ("ZN", Some("C")));
    let atom = hit.atom();
    assert_eq!((atom.serial_number(), atom.name()), (12, "ZN1"));
    assert_eq!(atom.pos(), (1.5, -2.25, 0.125));
    assert_eq!((atom.x(), atom.y(), atom.z()), atom.pos());
    assert_eq!((atom.occupancy(), atom.b_factor()), (0.75, 31.5));
    assert_eq!((atom.element(), atom.charge(), atom.hetero()), (Some(&Element::Zn), -2, true));
}

#[test]
fn hits_from_both_ends() {
    let store = example();
    let mut hits = store.find(Search::Known(true)).unwrap();
    assert_eq!(hits.len(), 6);
    assert_eq!(hits.next_back().unwrap().atom().serial_number(), 6);
    assert_eq!(hits.next().unwrap().atom().serial_number(), 1);
    let left: Vec<usize> = hits.rev().map(|h| h.atom().serial_number()).collect();
    assert_eq!(left, [5, 4, 3, 2]);
}

#[test]
fn lookup_by_serial_number() {
    let store = example();
    let residue = |serial, location| store.binary_find_atom(serial, location).unwrap().map(|h| h.residue().serial_number());
    assert_eq!(residue(2, None), Some(1));
    assert_eq!(residue(4, Some("B")), Some(2));
    assert_eq!(residue(4, None), None);
    assert_eq!(residue(4, Some("b")), None);
    assert_eq!(residue(6, None), None);
}

#[test]
fn borrowed_words() {
    let mut words = vec![7; 12 * 8 + 1];
    let mut store = Store::open(&mut words[..]).unwrap();
    store.add_model(1).unwrap();
    store.add_atom(0, NewAtom::default(), "A", (1, None), ("GLY", None)).unwrap();
    assert_eq!(words[96], 60);

    let store = Store::from_words(&words[..]).unwrap();
    assert_eq!(store.find(Search::Known(true)).unwrap().len(), 1);
    let mut store = Store::from_words(words).unwrap();
    assert_eq!(store.remove_atom([0, 0, 0, 0, 0]), removed(1));
}
