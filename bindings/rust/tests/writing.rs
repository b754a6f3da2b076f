// The structure as PDB lines. The library's text is proved, so these look at what the package adds: room, length, text and refusals.
use jubrelti::*;

fn atom(serial_number: usize, name: &'static str, element: Element) -> NewAtom<'static> {
    NewAtom { serial_number, name, x: 1.25, y: -0.0004, z: -12.3456, b_factor: 20.5, element: Some(element), ..NewAtom::default() }
}

fn store() -> Store {
    let mut model = ModelBuilder::new(1);
    model.add_atom(atom(1, "CA", Element::C), "A", (-7, Some("B")), ("SER", Some("A")));
    model.add_atom(NewAtom { hetero: true, charge: 2, ..atom(2, "CA", Element::Ca) }, "A", (8, None), ("CA", None));
    let mut store = Store::new();
    store.add_model(model).unwrap();
    store.add_model(2).unwrap();
    store
}

#[test]
fn lines() {
    let text = store().write_pdb().unwrap();
    let lines: Vec<&str> = text.lines().collect();
    assert!(lines.iter().all(|line| line.len() == 80) && text.ends_with('\n'));
    assert_eq!(lines[1], "ATOM      1  CA ASER A  -7B      1.250   0.000 -12.346  1.00 20.50           C  ");
    assert_eq!(lines[2], "HETATM    2 CA    CA A   8       1.250   0.000 -12.346  1.00 20.50          CA2+");
    let names: Vec<&str> = lines.iter().map(|line| line[..14].trim_end()).collect();
    assert_eq!(names, ["MODEL        1", "ATOM      1  C", "HETATM    2 CA", "ENDMDL", "MODEL        2", "ENDMDL"]);
}

#[test]
fn halves_go_to_the_even_digit() {
    let mut model = ModelBuilder::new(1);
    let halves = NewAtom { x: 0.0625, y: -0.1875, z: -0.3125, occupancy: 0.125, b_factor: -0.375, ..atom(1, "CA", Element::C) };
    model.add_atom(halves, "A", (1, None), ("GLY", None));
    let mut store = Store::new();
    store.add_model(model).unwrap();
    let text = store.write_pdb().unwrap();
    assert_eq!(&text[81 + 30..81 + 66], "   0.062  -0.188  -0.312  0.12 -0.38");
}

#[test]
fn without_models() {
    assert_eq!(Store::new().write_pdb().unwrap(), "");
    let mut store = store();
    assert_eq!(store.add_model(10_000).and_then(|_| store.write_pdb()), Err(Error::TooWide));
}

#[test]
fn what_has_no_line_is_spared() {
    let mut store = store();
    store.add_atom(0, atom(3, "N", Element::N), "LONG", (1, None), ("ALA", None)).unwrap();
    assert_eq!(store.write_pdb(), Err(Error::TooWide));
    store.remove_atom([0, 1, 0, 0, 0]).unwrap();
    assert_eq!(store.write_pdb(), self::store().write_pdb());
}
