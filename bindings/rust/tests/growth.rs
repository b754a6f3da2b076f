// A store that owns its words grows, and holds the same structure then; the copy is the library's own call.
use jubrelti::*;

fn atom(serial_number: usize) -> NewAtom<'static> {
    NewAtom { serial_number, name: "CA", ..NewAtom::default() }
}

// Ten atoms to a residue, a hundred residues to a chain.
fn place(serial_number: usize) -> (&'static str, (isize, Option<&'static str>)) {
    (["A", "B", "C", "D"][serial_number / 1_000], ((serial_number / 10) as isize, None))
}

const ATOMS: usize = 4_000;

fn roomy() -> Store {
    let mut store = Store::with_records(6_000).unwrap();
    store.add_model(1).unwrap();
    for serial in 0..ATOMS {
        let (chain, residue) = place(serial);
        store.add_atom(0, atom(serial), chain, residue, ("GLY", None)).unwrap();
    }
    store
}

// The words that a structure stands in, without the zeros behind it.
fn records(store: &Store) -> &[u64] {
    let words = store.words();
    &words[..words[words.len() - 1] as usize]
}

#[test]
fn edit_by_edit() {
    let mut store = Store::with_records(0).unwrap();
    store.add_model(1).unwrap();
    for serial in 0..ATOMS {
        let (chain, residue) = place(serial);
        store.add_atom(0, atom(serial), chain, residue, ("GLY", None)).unwrap();
    }
    let expected = roomy();
    assert_eq!(records(&store), records(&expected));
    // 1 + 4 + 400 + 400 + 4,000 records, in room that was doubled from 1 on.
    assert_eq!(store.words().len(), 8_192 * 12 + 1);
    assert_eq!(store.find(Search::Known(true)).unwrap().len(), ATOMS);
}

// A model and the atoms, as a list.
fn list() -> Edits {
    let mut edits = Edits::new();
    edits.add_model(1);
    for serial in 0..ATOMS {
        let (chain, residue) = place(serial);
        edits.add_atom(0, atom(serial), chain, residue, ("GLY", None));
    }
    edits
}

#[test]
fn by_a_list() {
    let edits = list();
    for room in [0, 3, 100] {
        let mut store = Store::with_records(room).unwrap();
        store.apply_all(&edits).unwrap();
        assert_eq!(records(&store), records(&roomy()));
        // The list knows what it adds, and room is made once.
        assert_eq!(store.words().len(), 4_805 * 12 + 1);
        // A store doesn't get shorter.
        store.apply_all(Edits::new().remove_chain([0, 0])).unwrap();
        assert_eq!(store.words().len(), 4_805 * 12 + 1);
    }
    let mut larger = Store::with_records(6_000).unwrap();
    assert_eq!(larger.apply(&edits).unwrap().refused().count(), 0);
    assert_eq!(larger.words(), roomy().words());
}

#[test]
fn by_a_builder() {
    let mut model = ModelBuilder::new(1);
    for serial in 0..ATOMS {
        let (chain, residue) = place(serial);
        model.add_atom(atom(serial), chain, residue, ("GLY", None));
    }
    let mut store = Store::new();
    assert_eq!(store.add_model(model), Ok(Edited { found: true, removed: 0 }));
    assert_eq!(records(&store), records(&roomy()));
}

// How many records a list makes room for in a store of two models.
fn room_made(edits: &Edits) -> usize {
    let mut store = Store::new();
    store.apply_all(Edits::new().add_model(1).add_model(2)).unwrap();
    assert_eq!(store.words().len(), 2 * 12 + 1);
    store.apply_all(edits).unwrap();
    store.words().len() / 12 - 2
}

#[test]
fn what_a_list_makes_room_for() {
    let mut edits = Edits::new();
    let mut add = |model, chain, residue, conformer| room_made(edits.add_atom(model, atom(1), chain, residue, conformer));
    assert_eq!(add(0, "A", (1, None), ("GLY", None)), 4);
    assert_eq!(add(0, "A", (1, None), ("GLY", None)), 5);
    assert_eq!(add(0, "A", (1, None), ("ALA", None)), 7);
    assert_eq!(add(0, "A", (1, None), ("ALA", Some("B"))), 9);
    assert_eq!(add(0, "A", (1, Some("B")), ("ALA", Some("B"))), 12);
    assert_eq!(add(0, "A", (2, Some("B")), ("ALA", Some("B"))), 15);
    assert_eq!(add(0, "B", (2, Some("B")), ("ALA", Some("B"))), 19);
    assert_eq!(add(1, "B", (2, Some("B")), ("ALA", Some("B"))), 23);
    // Another edit between may have removed what the next addition would go to.
    edits.remove_empty(0);
    edits.add_atom(1, atom(1), "B", (2, Some("B")), ("ALA", Some("B")));
    assert_eq!(room_made(&edits), 27);
}

// A list's count is enough where ids are given in many forms, and where an addition that was to make the parents is refused.
#[test]
fn no_more_records_than_the_list_counts_on() {
    let mut edits = Edits::new();
    edits.add_model(1);
    let refused = NewAtom { x: f64::NAN, ..atom(0) };
    for code in ["a", "A", " a", "b"] {
        edits.add_atom(0, refused.clone(), "A", (1, Some(code)), ("GLY", Some(" ")));
        for serial in 0..3 {
            edits.add_atom(0, atom(serial), "A", (1, Some(code)), ("GLY", None));
            edits.add_atom(0, atom(serial), " A", (1, Some(code)), ("gly", Some("\t")));
        }
    }
    let mut store = Store::new();
    let refusals: Vec<_> = store.apply(&edits).unwrap().refused().map(|(_, error)| error.clone()).collect();
    assert_eq!(refusals, vec![Error::BadValue; 4]);
    // A model, a chain, residues A and B with a conformer each, and the atoms.
    assert_eq!(records(&store).len(), (2 + 4 + 24) * 12);
}

#[test]
fn refusals_do_not_grow() {
    let mut store = Store::with_records(1).unwrap();
    store.add_model(1).unwrap();
    assert_eq!(store.add_atom(1, atom(1), "A", (1, None), ("GLY", None)), Err(Error::NoPosition));
    assert_eq!(store.words().len(), 13);
}

// Words that aren't a whole number of records stay as many where no room is made.
#[test]
fn odd_lengths() {
    let mut store = Store::open(vec![0; 70]).unwrap();
    store.apply_all(Edits::new().add_model(1).add_atom(0, atom(1), "A", (1, None), ("GLY", None))).unwrap();
    assert_eq!(store.words().len(), 70);
    assert_eq!(store.apply(Edits::new().remove_empty(0)).unwrap().refused().count(), 0);
    assert_eq!(store.words().len(), 70);
    store.apply_all(Edits::new().add_model(2)).unwrap();
    assert_eq!(store.words().len(), 6 * 12 + 1);
}

#[test]
fn no_edits() {
    let mut store = Store::new();
    assert_eq!(store.apply_all(&Edits::new()), Ok(Vec::new()));
    assert_eq!(store.words(), [0]);
}

#[test]
fn copies() {
    let mut store = Store::with_records(5).unwrap();
    store.add_model(1).unwrap();
    store.add_atom(0, atom(1), "A", (1, None), ("GLY", None)).unwrap();

    // Whatever the words held before.
    let longer = store.copy_into(vec![7; 100]).unwrap();
    assert_eq!(records(&longer), records(&store));
    assert!(longer.words()[60..99].iter().all(|word| *word == 0));

    let mut exact = [7; 61];
    assert_eq!(store.copy_into(&mut exact[..]).unwrap().words(), store.words());
    let mut short = [7; 60];
    assert_eq!(store.copy_into(&mut short[..]).unwrap_err(), Error::NoCapacity);
    assert_eq!(short, [7; 60]);
    assert_eq!(store.copy_into([0; 0]).unwrap_err(), Error::BadLength);
}
