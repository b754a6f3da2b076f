// Searches from lower down: find at a position of a model, chain, residue or conformer.
use jubrelti::*;

fn text(t: &str) -> String {
    t.to_owned()
}

// Serial number, name and symbol of an atom, and where it goes.
type Row = (usize, &'static str, &'static str, &'static str, isize, &'static str);

const ROWS: [Row; 8] = [
    (1, "N", "N", "A", 1, "ALA"),
    (2, "CB", "C", "A", 1, "ALA"),
    (3, "XX", "", "A", 1, "SER"),
    (4, "CA", "C", "A", 2, "GLY"),
    (5, "O", "O", "B", 1, "HOH"),
    (6, "O", "O", "B", 2, "HOH"),
    (7, "XX", "", "B", 2, "HOH"),
    (8, "N", "N", "C", 1, "ALA"),
];

// Models 1 and 2 with the same atoms, and a third without any.
fn store() -> Store {
    let mut edits = Edits::new();
    for model in 0..2 {
        edits.add_model(model + 1);
        for (serial_number, name, symbol, chain, residue, conformer) in ROWS {
            let atom = NewAtom::new(false, serial_number, name, 0.0, 0.0, 0.0, 1.0, 0.0, symbol, 0).unwrap();
            edits.add_atom(model, atom, chain, (residue, None), (conformer, None));
        }
    }
    edits.add_model(3);
    let mut store = Store::new();
    store.apply_all(&edits).unwrap();
    store
}

// The call that stands for a position of that many indexes.
fn find_at<'a>(store: &'a Store, start: &[usize], search: impl Into<Search>) -> Result<Hits<'a>, Error> {
    match *start {
        [model] => store.model_find(model, search),
        [model, chain] => store.chain_find([model, chain], search),
        [model, chain, residue] => store.residue_find([model, chain, residue], search),
        [model, chain, residue, conformer] => store.conformer_find([model, chain, residue, conformer], search),
        _ => store.find(search),
    }
}

fn records(hits: Hits) -> Vec<[usize; 5]> {
    hits.map(|hit| hit.records()).collect()
}

// Every start that has atoms: the beginnings of their positions.
fn starts(store: &Store) -> Vec<Vec<usize>> {
    let atoms = store.find(Search::Known(true)).unwrap();
    let mut starts: Vec<Vec<usize>> = atoms.flat_map(|hit| (1..5).map(move |n| hit.position()[..n].to_vec())).collect();
    starts.sort();
    starts.dedup();
    starts
}

// The records that the whole store's find lists under a start.
fn under(store: &Store, start: &[usize], search: impl Into<Search>) -> Vec<[usize; 5]> {
    store.find(search).unwrap().filter(|hit| hit.position().starts_with(start)).map(|hit| hit.records()).collect()
}

// A term of each level that is true of no record, from the model down.
fn of_no_record() -> [Term; 5] {
    [
        Term::ModelSerialNumber(9),
        Term::ChainId(text("Z")),
        Term::ResidueSerialNumber(-9),
        Term::ConformerName(text("TRP")),
        Term::AtomName(text("SD")),
    ]
}

#[test]
fn all_atoms_under_a_start_and_no_other() {
    let store = store();
    let starts = starts(&store);
    // Of each model the model itself, 3 chains, 5 residues and 6 conformers.
    assert_eq!(starts.len(), 2 * (1 + 3 + 5 + 6));
    for start in starts {
        let listed = records(find_at(&store, &start, Search::Known(true)).unwrap());
        assert_eq!(listed, under(&store, &start, Search::Known(true)), "from {start:?}");
        assert_eq!(find_at(&store, &start, Search::Known(false)).unwrap().len(), 0);
    }
}

#[test]
fn terms_below_the_start_are_decided() {
    let store = store();
    let searches = [
        Search::from(Term::Element(Element::N)),
        !Term::Element(Element::N),
        Term::AtomName(text("XX")) ^ Term::Element(Element::C),
        Term::AtomSerialNumberRange(3, 6) & !Term::Element(Element::O),
    ];
    for start in starts(&store) {
        for search in &searches {
            let listed = records(find_at(&store, &start, search.clone()).unwrap());
            assert_eq!(listed, under(&store, &start, search.clone()), "{search} from {start:?}");
        }
    }
}

#[test]
fn terms_of_its_own_level_and_above_exclude_nothing() {
    let store = store();
    for start in starts(&store) {
        let all = under(&store, &start, Search::Known(true));
        for (level, term) in of_no_record().into_iter().enumerate() {
            let expected = if level < start.len() { &all[..] } else { &[] };
            assert_eq!(records(find_at(&store, &start, term.clone()).unwrap()), expected, "{term:?} from {start:?}");
            assert_eq!(records(find_at(&store, &start, !term).unwrap()), all);
        }
    }
}

// n(A) + n(not A) = atoms under the start + undecided ones.
#[test]
fn a_search_and_its_opposite() {
    let store = store();
    for start in starts(&store) {
        let n = |search: Search| find_at(&store, &start, search).unwrap().len();
        let unknown = n(Search::from(Term::AtomName(text("XX"))));
        assert_eq!(n(Term::Element(Element::N).into()) + n(!Term::Element(Element::N)), n(Search::Known(true)) + unknown);
    }
}

#[test]
fn backbone_by_the_atom_alone() {
    let store = store();
    let serials = |hits: Hits| hits.map(|hit| hit.atom().serial_number()).collect::<Vec<_>>();
    // Conformers ALA and HOH of the second model.
    let (ala, hoh) = ([1, 0, 0, 0], [1, 1, 1, 0]);
    assert_eq!(serials(store.conformer_find(ala, Term::Backbone).unwrap()), [1]);
    assert_eq!(serials(store.conformer_find(ala, Term::SideChain).unwrap()), [2]);
    assert_eq!(serials(store.conformer_find(hoh, Term::Backbone).unwrap()), [6]);
    assert_eq!(serials(store.conformer_find(hoh, Term::SideChain).unwrap()), [7]);
    assert_eq!(serials(store.residue_find([1, 1, 1], Term::Backbone).unwrap()), []);
    assert_eq!(serials(store.residue_find([1, 1, 1], Term::SideChain).unwrap()), []);
}

#[test]
fn hits_have_all_five_levels() {
    let store = store();
    let hit = store.conformer_find([1, 1, 1, 0], Term::Element(Element::O)).unwrap().next().unwrap();
    assert_eq!(hit.position(), [1, 1, 1, 0, 0]);
    assert_eq!(hit.to_string(), "model 2, chain B, residue 2, HOH, atom 6 O");
}

#[test]
fn a_start_without_atoms() {
    let mut store = store();
    assert_eq!(store.model_find(2, Search::Known(true)).unwrap().len(), 0);
    let mut edits = Edits::new();
    edits.remove_atom([0, 1, 1, 0, 1]).remove_atom([0, 1, 1, 0, 0]).remove_residue([0, 2, 0]);
    store.apply_all(&edits).unwrap();
    assert_eq!(store.conformer_find([0, 1, 1, 0], Search::Known(true)).unwrap().len(), 0);
    assert_eq!(store.residue_find([0, 1, 1], Search::Known(true)).unwrap().len(), 0);
    assert_eq!(store.chain_find([0, 2], Search::Known(true)).unwrap().len(), 0);
    assert_eq!(store.residue_find([0, 2, 0], Search::Known(true)).unwrap_err(), Error::NoPosition);
}

#[test]
fn positions_that_are_not_there() {
    let store = store();
    for start in starts(&store) {
        for level in 0..start.len() {
            let mut other = start.clone();
            other[level] = usize::MAX;
            assert_eq!(find_at(&store, &other, Term::Backbone).unwrap_err(), Error::NoPosition, "from {other:?}");
        }
    }
    // One past the last of each level.
    for start in [&[3][..], &[1, 3], &[1, 1, 2], &[1, 0, 0, 2], &[2, 0]] {
        assert_eq!(find_at(&store, start, Search::Known(true)).unwrap_err(), Error::NoPosition, "from {start:?}");
    }
}

#[test]
fn searches_that_have_no_tree() {
    let store = store();
    let long = (0..64).fold(Search::Known(true), |search, _| search & Search::Known(true));
    for start in [&[0][..], &[0, 0], &[0, 0, 0], &[0, 0, 0, 0]] {
        assert_eq!(find_at(&store, start, long.clone()).unwrap_err(), Error::TreeShape);
        let name = Term::AtomName(text("123456789"));
        assert_eq!(find_at(&store, start, name).unwrap_err(), Error::QueryText(text("123456789")));
    }
}

// What can't be edited can be searched.
#[test]
fn in_words_that_are_lent() {
    let store = store();
    let lent = Store::from_words(store.words()).unwrap();
    assert_eq!(records(lent.chain_find([1, 0], Term::Backbone).unwrap()), records(store.chain_find([1, 0], Term::Backbone).unwrap()));
}
