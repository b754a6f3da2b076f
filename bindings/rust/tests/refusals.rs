// Refusals as errors; a refused call changes nothing.
use jubrelti::*;

fn one_atom() -> Store {
    let mut store = Store::with_records(5).unwrap();
    store.add_model(1).unwrap();
    store.add_atom(0, NewAtom::default(), "A", (1, None), ("GLY", None)).unwrap();
    store
}

// The error of an edit on a store of one atom, which stays as it was.
fn refused(edit: impl FnOnce(&mut Store) -> Result<Edited, Error>) -> Error {
    let mut store = one_atom();
    let before = store.words().to_vec();
    let error = edit(&mut store).unwrap_err();
    assert_eq!(store.words(), before);
    error
}

#[test]
fn stores() {
    assert_eq!(Store::open(Vec::new()).unwrap_err(), Error::BadLength);
    assert_eq!(Store::open(vec![0; 1_200_002]).unwrap_err(), Error::BadLength);
    assert_eq!(Store::with_records(MAX_RECORDS).unwrap().words().len(), 1_200_001);
    assert_eq!(Store::with_records(MAX_RECORDS + 1).unwrap_err(), Error::BadLength);
    assert_eq!(Store::with_records(usize::MAX).unwrap_err(), Error::BadLength);
    assert_eq!(Store::from_words(Vec::new()).unwrap_err(), Error::BadLength);
    assert_eq!(Store::from_words(vec![7; 13]).unwrap_err(), Error::BrokenLayout);
}

#[test]
fn edits() {
    let atom = NewAtom::default();
    let add = |atom, chain: &'static str, code, name: &'static str, location| {
        refused(move |s| s.add_atom(0, atom, chain, (1, code), (name, location)))
    };
    assert_eq!(add(atom, "", None, "GLY", None), Error::BadIdentifier);
    assert_eq!(add(atom, "A\u{e5}", None, "GLY", None), Error::BadIdentifier);
    assert_eq!(add(atom, "A", Some(" "), "GLY", None), Error::BadInsertionCode);
    assert_eq!(add(atom, "A", None, "123456789", None), Error::BadConformer);
    assert_eq!(add(atom, "A", None, "GLY", Some("123456789")), Error::BadConformer);
    assert_eq!(add(NewAtom { name: "C\t\u{7f}", ..atom }, "A", None, "GLY", None), Error::BadAtomName);
    let bad = NewAtom { name: "C\u{7f}", x: f64::NAN, ..atom };
    assert_eq!(add(bad, "", Some(""), "", Some("123456789")), Error::BadIdentifier);
    assert_eq!(add(bad, "A", Some(""), "", Some("123456789")), Error::BadInsertionCode);
    assert_eq!(add(bad, "A", None, "", Some("123456789")), Error::BadConformer);
    assert_eq!(add(bad, "A", None, "GLY", None), Error::BadAtomName);
    assert_eq!(add(NewAtom { x: f64::NAN, ..atom }, "A", None, "GLY", None), Error::BadValue);
    assert_eq!(add(NewAtom { occupancy: f64::INFINITY, ..atom }, "A", None, "GLY", None), Error::BadValue);
    assert_eq!(refused(|s| s.add_atom(1, atom, "A", (1, None), ("GLY", None))), Error::NoPosition);
    assert_eq!(refused(|s| s.remove_atom([0, 0, 0, 0, 1])), Error::NoPosition);
    assert_eq!(refused(|s| s.remove_chain([usize::MAX, 0])), Error::NoPosition);
    assert_eq!(refused(|s| s.join_conformers([0; 4], [0; 4])), Error::JoinWithItself);
}

// The first and the last pattern of each class, with either sign: zero, subnormal and normal are stored as they are, the others refused.
#[test]
fn classes_of_floats() {
    use std::num::FpCategory::*;
    let ends = [
        (Zero, 0, 0),
        (Subnormal, 1, 0x000f_ffff_ffff_ffff),
        (Normal, 0x0010_0000_0000_0000, 0x7fef_ffff_ffff_ffff),
        (Infinite, 0x7ff0_0000_0000_0000, 0x7ff0_0000_0000_0000),
        (Nan, 0x7ff0_0000_0000_0001, 0x7fff_ffff_ffff_ffff),
    ];
    for (class, first, last) in ends {
        for bits in [first, last, 1 << 63 | first, 1 << 63 | last] {
            let z = f64::from_bits(bits);
            assert_eq!(z.classify(), class);
            let mut store = Store::new();
            store.add_model(1).unwrap();
            let added = store.add_atom(0, NewAtom { z, ..NewAtom::default() }, "A", (1, None), ("GLY", None));
            match class {
                Infinite | Nan => assert_eq!(added, Err(Error::BadValue)),
                _ => assert_eq!(store.atoms().next().unwrap().z().to_bits(), bits),
            }
        }
    }
}

#[test]
fn room() {
    let mut words = one_atom().words().to_vec();
    let before = words.clone();
    let mut lent = Store::from_words(&mut words).unwrap();
    assert_eq!(lent.add_model(2), Err(Error::NoCapacity));
    assert_eq!(lent.add_atom(0, NewAtom::default(), "A", (1, None), ("GLY", None)), Err(Error::NoCapacity));
    assert_eq!(lent.words(), before);

    // 100,000 models, the most that a store can hold, and each record of kind 1.
    let mut words = vec![0; 1_200_001];
    words.iter_mut().step_by(12).for_each(|word| *word = 1);
    words[1_200_000] = 1_200_000;
    let mut full = Store::from_words(words).unwrap();
    assert_eq!(full.add_model(2), Err(Error::NoCapacity));
    let applied = full.apply(Edits::new().remove_empty(99_999).add_model(2)).unwrap();
    assert_eq!(applied.answers()[1], Err(Error::NoCapacity));
}

#[test]
fn searches() {
    let all = |terms: usize| (1..terms).fold(Search::Known(true), |search, _| search & Search::Known(true));
    let store = one_atom();
    assert_eq!(store.find(all(64)).unwrap().len(), 1);
    assert_eq!(store.find(all(65)).unwrap_err(), Error::TreeShape);
    assert_eq!(refused(|s| s.remove_atoms_by(0, all(65))), Error::TreeShape);
    let long = || Term::AtomName("123456789".to_owned());
    assert_eq!(store.find(long()).unwrap_err(), Error::QueryText("123456789".to_owned()));
    assert_eq!(refused(|s| s.remove_atoms_by(0, long())), Error::QueryText("123456789".to_owned()));
}

// Nothing is left of the growing that was tried.
#[test]
fn no_room_at_the_most_records() {
    let mut words = vec![0; 99_998 * 12 + 1];
    words[..99_997 * 12].iter_mut().step_by(12).for_each(|word| *word = 1);
    words[99_998 * 12] = 99_997 * 12;
    let mut store = Store::from_words(words).unwrap();
    let before = store.words().to_vec();
    assert_eq!(store.add_atom(0, NewAtom::default(), "A", (1, None), ("GLY", None)), Err(Error::NoCapacity));
    assert_eq!(store.words(), before);
    let mut model = ModelBuilder::new(1);
    model.add_atom(NewAtom::default(), "A", (1, None), ("GLY", None));
    assert_eq!(store.add_model(model), Err(of_edit(0, Error::NoCapacity)));
    assert_eq!(store.words(), before);
    store.add_model(1).unwrap();
    store.add_model(1).unwrap();
    assert_eq!(store.words().len(), 1_200_001);
}

fn of_edit(index: usize, cause: Error) -> Error {
    Error::Edit { index, cause: Box::new(cause) }
}

#[test]
fn numbers_and_sentences() {
    let refusals = [
        (1, Error::BadLength),
        (2, Error::BrokenLayout),
        (3, Error::TreeShape),
        (4, Error::TreeNode),
        (5, Error::NoPosition),
        (6, Error::BadIdentifier),
        (7, Error::BadValue),
        (8, Error::NoCapacity),
        (9, Error::JoinWithItself),
        (10, Error::ShortOutput),
        (11, Error::BadFile),
        (12, Error::TooWide),
        (13, Error::ShortText),
        (14, Error::BadInsertionCode),
        (15, Error::BadConformer),
        (16, Error::BadAtomName),
        (17, Error::BadText),
        (17, Error::BadLine { line: 3 }),
        (22, Error::BadList),
        (23, Error::ShortAnswers),
        (99, Error::Unknown(99)),
    ];
    for (number, error) in refusals {
        assert_eq!(error.number(), Some(number));
        assert!(error.to_string().contains("; "), "{error} doesn't say what to do");
    }
}

#[test]
fn what_the_bindings_refuse() {
    let text = Error::QueryText("C\0".to_owned());
    assert!(text.to_string().starts_with("the text \"C\\0\" of the search can't be packed; "));
    let element = NewAtom::new(false, 1, "CA", 0.0, 0.0, 0.0, 1.0, 0.0, " Xx ", 0).unwrap_err();
    assert_eq!(element, Error::Element("Xx".to_owned()));
    assert!(element.to_string().starts_with("\"Xx\" is no element's symbol; "));
    let version = Error::OtherVersion { library: 1_000, package: 12_034_567 };
    assert!(version.to_string().starts_with("the linked library is version 0.1.0, and these bindings are version 12.34.567; "));
    assert_eq!((text.number(), element.number(), version.number()), (None, None, None));
}

#[test]
fn an_edit_of_a_list() {
    let error = of_edit(17, Error::BadValue);
    assert_eq!(error.number(), Some(7));
    assert!(error.to_string().starts_with("edit 17 of the list was refused (counted from 0; of a model builder it is atom 17): a coord"));
}
