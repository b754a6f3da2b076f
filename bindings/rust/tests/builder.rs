// Models with their atoms at once, as edits one by one would add them.
use jubrelti::Store as PDB;
use jubrelti::*;

fn atom(serial_number: usize) -> NewAtom<'static> {
    NewAtom { serial_number, name: "CA", element: Some(Element::C), ..NewAtom::default() }
}

// The words that a structure stands in, without the zeros behind it.
fn records<W: AsRef<[u64]>>(store: &Store<W>) -> &[u64] {
    let words = store.words();
    &words[..words[words.len() - 1] as usize]
}

fn model(serial_number: usize) -> ModelBuilder {
    let mut model = ModelBuilder::new(serial_number);
    model.add_atom(atom(1), "A", (1, None), ("GLY", None));
    model.add_atom(atom(2), String::from("B"), (-2, Some("x")), (String::from("SER"), Some("a")));
    model.add_atom(atom(3), " A ", (1, None), ("gly", None));
    model
}

#[test]
fn as_one_by_one() {
    let mut expected = PDB::new();
    for serial in [4, 5] {
        let index = serial - 4;
        expected.add_model(serial).unwrap();
        expected.add_atom(index, atom(1), "A", (1, None), ("GLY", None)).unwrap();
        expected.add_atom(index, atom(2), "B", (-2, Some("x")), ("SER", Some("a"))).unwrap();
        expected.add_atom(index, atom(3), " A ", (1, None), ("gly", None)).unwrap();
    }
    let mut store = PDB::new();
    store.add_model(model(4)).unwrap();
    store.add_model(model(5)).unwrap();
    assert_eq!(records(&store), records(&expected));

    let mut lent = [7; 300];
    let mut store = Store::open(&mut lent[..]).unwrap();
    store.add_model(model(4)).unwrap();
    store.add_model(model(5)).unwrap();
    assert_eq!(records(&store), records(&expected));
}

#[test]
fn by_a_serial_number() {
    let serial: usize = 3;
    let mut store = Store::default();
    store.add_model(1).unwrap();
    store.add_model(serial).unwrap();
    store.add_model(ModelBuilder::new(4)).unwrap();
    assert_eq!(records(&store).iter().step_by(12).collect::<Vec<_>>(), [&1; 3]);
    assert_eq!(records(&store).iter().skip(1).step_by(12).collect::<Vec<_>>(), [&1, &3, &4]);
}

#[test]
fn all_or_none() {
    let mut store = Store::new();
    store.add_model(model(1)).unwrap();
    let before = store.words().to_vec();
    let refusals = [
        (NewAtom { b_factor: f64::INFINITY, ..atom(4) }, "A", Error::BadValue),
        (NewAtom { name: "C\u{e5}", ..atom(4) }, "A", Error::BadAtomName),
        (atom(4), "", Error::BadIdentifier),
    ];
    for (refused, chain, cause) in refusals {
        let mut model = model(2);
        model.add_atom(refused, chain, (1, None), ("GLY", None));
        model.add_atom(refused, chain, (1, None), ("GLY", None));
        assert_eq!(store.add_model(model), Err(Error::Edit { index: 3, cause: Box::new(cause) }));
        assert_eq!(store.words(), before);
    }
}

#[test]
fn without_room() {
    let mut words = [0; 8 * 12 + 1];
    let mut lent = Store::open(&mut words[..]).unwrap();
    lent.add_model(1).unwrap();
    let before = lent.words().to_vec();
    // The model and one atom with its parents need five records, the second atom needs four.
    assert_eq!(lent.add_model(model(2)), Err(Error::Edit { index: 1, cause: Box::new(Error::NoCapacity) }));
    assert_eq!(lent.words(), before);

    let mut full = Store::open([0; 1]).unwrap();
    assert_eq!(full.add_model(model(1)), Err(Error::NoCapacity));
    assert_eq!(full.add_model(1), Err(Error::NoCapacity));
}

#[test]
fn new_atoms() {
    let new = NewAtom::new(true, 9, "ZN", 1.0, 2.0, 3.0, 0.5, 20.0, String::from(" zn "), -2).unwrap();
    let fields = NewAtom {
        serial_number: 9,
        name: "ZN",
        x: 1.0,
        y: 2.0,
        z: 3.0,
        occupancy: 0.5,
        b_factor: 20.0,
        element: Some(Element::Zn),
        charge: -2,
        hetero: true,
    };
    assert_eq!(new, fields);
    // pdbtbx would guess carbon from the name.
    let unknown = NewAtom::new(false, 0, "", 0.0, 0.0, 0.0, 1.0, 0.0, "", 0).unwrap();
    assert_eq!(unknown, NewAtom::default());
}

#[test]
fn what_debug_shows() {
    assert_eq!(format!("{:?}", Store::new()), "Store { models: [] }");
    assert_eq!(format!("{:?}", Edits::new().add_model(1).add_model(2)), "Edits { edits: 2 }");
}
