// A list of edits as one call gives the answers and leaves the words of its edits one by one.
use jubrelti::*;

fn atom(serial_number: usize) -> NewAtom<'static> {
    NewAtom { serial_number, name: "CA", element: Some(Element::C), ..NewAtom::default() }
}

#[test]
fn each_edit_as_by_itself() {
    let mut edits = Edits::new();
    edits.add_model(1).add_model(2);
    for (serial, chain, residue, location) in [(1, "A", 1, None), (2, "A", 2, Some("a")), (3, " B", 1, Some("B")), (4, "B", 1, None)] {
        edits.add_atom(0, atom(serial), chain, (residue, Some("x")), ("GLY", location));
    }
    edits.add_atom(7, atom(5), "A", (1, None), ("GLY", None));
    edits.add_atom(0, NewAtom { element: None, ..atom(6) }, "B", (1, Some("x")), ("GLY", None));
    for (index, element) in [(1, Element::N), (1, Element::O), (2, Element::O)] {
        edits.set_element([0, 1, 0, 1, index], element);
    }
    edits.remove_atom([0, 0, 0, 0, 0]).remove_empty(0).remove_chain_by_id(0, "C").remove_residue_by_id([0, 0], (2, Some("X")));
    edits.remove_conformer_by_id([0, 1, 0], ("GLY", Some("B"))).remove_atom_by_serial_number([0, 1, 0, 0], 9);
    edits.join_chains([0, 1], [0, 0]).join_models(1, 0).join_residues([0, 0, 0], [0, 0, 0]).join_conformers([0; 4], [0, 0, 0, 1]);
    edits.remove_atoms_by(0, Term::Hetero).unwrap();
    edits.remove_conformer([0; 4]).remove_residue([0; 3]).remove_chain([0; 2]);

    let mut one_by_one = Store::with_records(30).unwrap();
    let s = &mut one_by_one;
    let mut answers = vec![s.add_model(1), s.add_model(2)];
    for (serial, chain, residue, location) in [(1, "A", 1, None), (2, "A", 2, Some("a")), (3, " B", 1, Some("B")), (4, "B", 1, None)] {
        answers.push(s.add_atom(0, atom(serial), chain, (residue, Some("x")), ("GLY", location)));
    }
    answers.extend([
        s.add_atom(7, atom(5), "A", (1, None), ("GLY", None)),
        s.add_atom(0, NewAtom { element: None, ..atom(6) }, "B", (1, Some("x")), ("GLY", None)),
        s.set_element([0, 1, 0, 1, 1], Element::N),
        s.set_element([0, 1, 0, 1, 1], Element::O),
        s.set_element([0, 1, 0, 1, 2], Element::O),
        s.remove_atom([0, 0, 0, 0, 0]),
        s.remove_empty(0),
        s.remove_chain_by_id(0, "C"),
        s.remove_residue_by_id([0, 0], (2, Some("X"))),
        s.remove_conformer_by_id([0, 1, 0], ("GLY", Some("B"))),
        s.remove_atom_by_serial_number([0, 1, 0, 0], 9),
        s.join_chains([0, 1], [0, 0]),
        s.join_models(1, 0),
        s.join_residues([0, 0, 0], [0, 0, 0]),
        s.join_conformers([0; 4], [0, 0, 0, 1]),
        s.remove_atoms_by(0, Term::Hetero),
        s.remove_conformer([0; 4]),
        s.remove_residue([0; 3]),
        s.remove_chain([0; 2]),
    ]);
    assert!(answers.iter().any(|a| a.is_err()) && answers.iter().any(|a| a.is_ok()));
    assert_eq!(answers[8..11], [Ok(EDITED), Ok(Edited { found: false, removed: 0 }), Err(Error::NoPosition)]);

    let mut as_one = Store::with_records(30).unwrap();
    assert_eq!(as_one.apply(&edits).unwrap().answers(), answers);
    assert_eq!(as_one.words(), one_by_one.words());
}

#[test]
fn refused_as_a_whole() {
    let mut edits = Edits::new();
    edits.add_model(1).remove_chain_by_id(0, "A".repeat(2_000));
    let mut store = Store::with_records(20).unwrap();
    let before = store.words().to_vec();
    assert_eq!(store.apply(&edits), Err(Error::BadList));
    assert_eq!(store.apply_all(&edits), Err(Error::BadList));
    assert_eq!(store.words(), before);
}

const EDITED: Edited = Edited { found: true, removed: 0 };

// A model with an atom, then an atom that is refused, then an atom; refused are edits 2 and 4.
fn with_refusals() -> Edits {
    let mut edits = Edits::new();
    edits.add_model(1).add_atom(0, atom(1), "A", (1, None), ("GLY", None));
    edits.add_atom(0, NewAtom { x: f64::NAN, ..atom(2) }, "A", (1, None), ("GLY", None));
    edits.add_atom(0, atom(3), "A", (1, None), ("GLY", None)).remove_chain([0, 9]);
    edits
}

fn of_edit(index: usize, cause: Error) -> Error {
    Error::Edit { index, cause: Box::new(cause) }
}

// A store without room for more than its model.
fn one_model() -> Store {
    let mut store = Store::with_records(1).unwrap();
    store.add_model(7).unwrap();
    store
}

#[test]
fn a_refused_edit_shows() {
    let mut store = Store::with_records(20).unwrap();
    let applied = store.apply(&with_refusals()).unwrap();
    assert_eq!(applied.refused().collect::<Vec<_>>(), [(2, &Error::BadValue), (4, &Error::NoPosition)]);
    assert_eq!(applied.clone().into_iter().filter(Result::is_ok).count(), 3);
    assert_eq!(applied.all(), Err(of_edit(2, Error::BadValue)));
    // The edits around the refused ones were made.
    assert_eq!(store.find(Search::Known(true)).unwrap().len(), 2);
    assert_eq!(store.apply(Edits::new().remove_empty(0)).unwrap().all(), Ok(vec![EDITED]));
}

#[test]
fn all_or_none_in_a_store_that_grows() {
    for mut store in [Store::new(), one_model(), Store::with_records(100).unwrap()] {
        let before = store.words().to_vec();
        let mut edits = Edits::new();
        edits.add_model(1);
        for serial in 0..50 {
            edits.add_atom(0, atom(serial), "A", (1, Some("a")), ("GLY", None));
        }
        edits.add_atom(0, atom(50), "", (1, None), ("GLY", None)).remove_chain([99, 0]);
        assert_eq!(store.apply_all(&edits), Err(of_edit(51, Error::BadIdentifier)));
        assert_eq!(store.words(), before);
    }
}

#[test]
fn all_or_none_in_lent_words() {
    let mut words = [7; 20 * 12 + 1];
    let mut store = Store::open(&mut words[..]).unwrap();
    store.add_model(7).unwrap();
    let before = store.words().to_vec();
    assert_eq!(store.apply_all(&with_refusals()), Err(of_edit(2, Error::BadValue)));
    assert_eq!(store.words(), before);

    let mut edits = Edits::new();
    edits.remove_empty(0).add_atom(0, atom(1), "A", (1, None), ("GLY", None));
    for serial in 0..16 {
        edits.add_model(serial);
    }
    assert_eq!(store.apply_all(&edits), Err(of_edit(17, Error::NoCapacity)));
    assert_eq!(store.words(), before);
    assert_eq!(store.apply_all(Edits::new().add_model(1).join_models(0, 1)), Ok(vec![EDITED; 2]));
}
