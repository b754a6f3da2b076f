// Document 01's worked cases through the bindings.
use jubrelti::*;

const SEVEN: Term = Term::Element(Element::N);

fn packed(text: &str) -> u64 {
    text.bytes().zip((0..8).rev()).map(|(b, place)| u64::from(b) << (8 * place)).sum()
}

// "Store S, 73 words", written out word by word.
fn words(conformer: &str) -> Vec<u64> {
    let mut words = vec![0; 73];
    let mut record = |number: usize, values: &[u64]| words[number * 12..][..values.len()].copy_from_slice(values);
    record(0, &[1, 1]);
    record(1, &[2, packed("A")]);
    record(2, &[3, 7]);
    record(3, &[4, packed(conformer)]);
    record(4, &[5, 0, packed("N"), 0, 0, 0, 0, 0, 7]);
    record(5, &[5, 0, packed("XX")]);
    words[72] = 72;
    words
}

fn s() -> Store {
    Store::from_words(words("ALA")).unwrap()
}

// S without atom XX, atom N with a B-factor.
fn with_b_factor(b_factor: f64) -> Store {
    let mut store = Store::with_records(5).unwrap();
    store.add_model(1).unwrap();
    let n = NewAtom { name: "N", b_factor, ..NewAtom::default() };
    store.add_atom(0, n, "A", (7, None), ("ALA", None)).unwrap();
    store
}

// The record numbers of the atoms found; the others are those of S.
fn found(store: &Store, search: impl Into<Search>) -> Vec<usize> {
    let hits = store.find(search).unwrap();
    hits.map(|hit| {
        assert_eq!(hit.records()[..4], [0, 1, 2, 3]);
        hit.records()[4]
    })
    .collect()
}

#[test]
fn edits_build_s() {
    let mut store = Store::with_records(6).unwrap();
    store.add_model(1).unwrap();
    let n = NewAtom { name: "N", element: Some(Element::N), occupancy: 0.0, ..NewAtom::default() };
    let unknown = NewAtom { name: "XX", occupancy: 0.0, ..NewAtom::default() };
    store.add_atom(0, n, "A", (7, None), ("ALA", None)).unwrap();
    store.add_atom(0, unknown, "A", (7, None), ("ALA", None)).unwrap();
    assert_eq!(store.words(), words("ALA"));
}

#[test]
fn case_1_element() {
    assert_eq!(found(&s(), SEVEN), [4, 5]);
}

#[test]
fn case_2_not_element() {
    assert_eq!(found(&s(), !SEVEN), [5]);
}

#[test]
fn case_3_name_and_element() {
    assert_eq!(found(&s(), Term::AtomName("N".to_owned()) & SEVEN), [4]);
}

#[test]
fn case_4_xor_of_undecided() {
    assert_eq!(found(&s(), SEVEN ^ SEVEN), [5]);
}

#[test]
fn case_5_backbone_and_side_chain() {
    assert_eq!(found(&s(), Term::Backbone), [4]);
    assert_eq!(found(&s(), Term::SideChain), [5]);
}

#[test]
fn case_6_no_amino_acid() {
    let store = Store::from_words(words("HOH")).unwrap();
    assert_eq!(found(&store, Term::Backbone), []);
    assert_eq!(found(&store, Term::SideChain), []);
}

#[test]
fn case_7_b_factors_that_are_close() {
    let gap = 2f64.powi(-53);
    assert_ne!(0.5, 0.5 + gap);
    assert_eq!(found(&with_b_factor(0.5), Term::BFactor(0.5 + gap)), [4]);
    assert_eq!(found(&with_b_factor(1.0), Term::BFactor(1.0 + 2f64.powi(-52))), []);
}

#[test]
fn case_8_the_difference_is_rounded() {
    assert_eq!(found(&with_b_factor(2f64.powi(-52)), Term::BFactor(2f64.powi(-200))), []);
}

#[test]
fn case_9_words_for_one_atom() {
    let mut enough = [0; 61];
    let mut store = Store::open(&mut enough[..]).unwrap();
    store.add_model(1).unwrap();
    let edited = store.add_atom(0, NewAtom::default(), "A", (7, None), ("ALA", None));
    assert_eq!(edited, Ok(Edited { found: true, removed: 0 }));

    let mut short = [0; 60];
    let mut store = Store::open(&mut short[..]).unwrap();
    store.add_model(1).unwrap();
    let before = store.words().to_vec();
    let edited = store.add_atom(0, NewAtom::default(), "A", (7, None), ("ALA", None));
    assert_eq!(edited, Err(Error::NoCapacity));
    assert_eq!(store.words(), before);
}

#[test]
fn case_10_prepared_codes() {
    let mut store = Store::with_records(10).unwrap();
    store.add_model(1).unwrap();
    for (serial_number, code) in [(1, "a"), (2, "a"), (3, "A")] {
        let n = NewAtom { serial_number, name: "N", ..NewAtom::default() };
        store.add_atom(0, n, "A", (7, Some(code)), ("ALA", None)).unwrap();
    }
    let hits: Vec<Hit> = store.find(Search::Known(true)).unwrap().collect();
    let places: Vec<_> = hits.iter().map(|h| (h.atom().serial_number(), h.residue().id(), h.records()[2])).collect();
    assert_eq!(places, [1, 2, 3].map(|serial| (serial, (7, Some("A")), 2)));
}
