// Structures read from PDB lines. What the library takes for a structure is proved, so these look at what the package adds: room, and the
// line at which a text stops being one.
use jubrelti::*;

const LINE: usize = 81;

fn model(serial_number: usize) -> String {
    format!("{:80}\n", format!("MODEL     {serial_number:4}"))
}

fn end() -> String {
    format!("{:80}\n", "ENDMDL")
}

// A carbon CA.
fn atom(serial_number: usize, place: &str, x: &str) -> String {
    format!("ATOM  {serial_number:5}  CA {place:14}{x:>8}   0.000   0.000  1.00  0.00           C  \n")
}

// Two models: in the first the lines of two chains and of two locations take turns.
fn text() -> String {
    let places = ["ASER A  -7B", " GLY B   1 ", "BSER A  -7B", "ASER A  -7B", " GLY A   8 "];
    let atoms = (1..).zip(places).map(|(serial, place)| atom(serial, place, "-12.346"));
    let first: String = atoms.collect();
    [model(1), first, end(), model(1), atom(9999, " GLY A   8 ", "0.001"), end()].concat()
}

fn lines(text: &str) -> usize {
    text.len() / LINE
}

// The number of the line that a text is refused by.
fn bad_line(text: &str) -> usize {
    match Store::read_pdb(text) {
        Err(Error::BadLine { line }) => line,
        other => panic!("{:?} for\n{text}", other.map(|store| store.words().to_vec())),
    }
}

// A text with other bytes from some column on, counted from 1, in the line of a number.
fn with(text: &str, line: usize, column: usize, bytes: &str) -> String {
    let at = (line - 1) * LINE + column - 1;
    [&text[..at], bytes, &text[at + bytes.len()..]].concat()
}

#[test]
fn a_structure() {
    let store = Store::read_pdb(&text()).unwrap();
    assert_eq!(store.models().map(|m| m.serial_number()).collect::<Vec<_>>(), [1, 1]);
    let atoms: Vec<String> = store.atoms_with_hierarchy().map(|h| h.to_string()).collect();
    assert_eq!(
        atoms,
        [
            "model 1, chain A, residue -7B, SER at A, atom 1 CA",
            "model 1, chain A, residue -7B, SER at A, atom 4 CA",
            "model 1, chain A, residue -7B, SER at B, atom 3 CA",
            "model 1, chain A, residue 8, GLY, atom 5 CA",
            "model 1, chain B, residue 1, GLY, atom 2 CA",
            "model 1, chain A, residue 8, GLY, atom 9999 CA",
        ]
    );
    assert_eq!((store.atom(0).unwrap().x(), store.atom(5).unwrap().x()), (-12.346, 0.001));
}

#[test]
fn written_and_read_again() {
    let values = NewAtom { serial_number: 2, name: "CA", y: -0.0004, z: 1.0 / 3.0, charge: -2, hetero: true, ..NewAtom::default() };
    let mut built = ModelBuilder::new(0);
    built.add_atom(values, "a", (-999, Some("Z")), ("DT", None));
    built.add_atom(NewAtom { element: Some(Element::Ca), ..values }, "a", (9999, None), ("CA", Some("1")));
    let mut store = Store::new();
    store.add_model(built).unwrap();
    store.add_model(7).unwrap();
    let text = store.write_pdb().unwrap();
    let again: Store = text.parse().unwrap();
    assert_eq!(again.write_pdb().unwrap(), text);
    assert_eq!((again.atom(0).unwrap().y(), again.atom(0).unwrap().z()), (0.0, 0.333));
    assert_eq!((again.atom(1).unwrap().charge(), again.atom(1).unwrap().hetero()), (-2, true));
}

#[test]
fn no_lines() {
    let mut store = Store::read_pdb("").unwrap();
    assert_eq!(store.words(), [0]);
    store.add_model(1).unwrap();
}

// Four records for an atom that doesn't stand where the one before it does are enough, whatever the order of the lines, and the store grows
// then.
#[test]
fn room() {
    let mut store = Store::read_pdb(&text()).unwrap();
    let capacity = store.words().len() / 12;
    // Of the first model itself, 2 chains, 3 residues, 4 conformers and 5 atoms; of the second 5 records.
    assert_eq!(store.words()[capacity * 12], 20 * 12);
    let residues = ["A   1 ", "A   1A", "A  11 ", "B   1 ", "A   1 ", "B   1 "].map(|id| atom(1, &format!(" GLY {id}"), "0.000"));
    let shuffled = Store::read_pdb(&[model(1), residues.concat(), end()].concat()).unwrap();
    assert_eq!((shuffled.words().len(), shuffled.words()[25 * 12]), (25 * 12 + 1, (1 + 2 + 4 + 4 + 6) * 12));
    let alike = Store::read_pdb(&[model(1), residues[0].repeat(3), end()].concat()).unwrap();
    assert_eq!((alike.words().len(), alike.words()[7 * 12]), (7 * 12 + 1, 7 * 12));
    for serial in 0..capacity {
        store.add_model(serial).unwrap();
    }
}

#[test]
fn each_line_spoilt() {
    let text = text();
    for line in 1..=lines(&text) {
        for (column, bytes) in [(1, "X"), (1, "MODEL "), (1, "ENDMDL"), (70, "\t"), (70, "\n"), (79, "é"), (80, "x\n"), (81, " ")] {
            let spoilt = with(&text, line, column, bytes);
            let stays = spoilt == text;
            assert_eq!(if stays { line } else { bad_line(&spoilt) }, line, "{bytes:?} from column {column} on");
        }
        // What comes behind the first bad line makes no difference.
        assert_eq!(bad_line(&with(&with(&text, line, 70, "x"), lines(&text), 70, "x")), line);
    }
}

#[test]
fn fields_spoilt() {
    let text = text();
    let fields = [
        (7, "00001"),
        (8, "  1 "),
        (13, "CA  "),
        (14, "ca"),
        (17, "a"),
        (18, "SE "),
        (22, " "),
        (23, " -0 "),
        (31, "  -0.000"),
        (31, " 12.3460"),
        (31, " 012.346"),
        (55, "  1.0 "),
        (77, "Ca"),
        (77, " D"),
        (79, "0+"),
        (79, "+1"),
    ];
    for (column, field) in fields {
        assert_eq!(bad_line(&with(&text, 2, column, field)), 2, "{field:?} from column {column} on");
    }
}

#[test]
fn cut_and_doubled() {
    let text = text();
    let all = lines(&text);
    for line in 1..=all {
        let (before, rest) = text.split_at((line - 1) * LINE);
        let (this, after) = rest.split_at(LINE);
        // In the middle of the line, at its newline, and before it: there a model may be open.
        assert_eq!(bad_line(&[before, &this[..40]].concat()), line);
        assert_eq!(bad_line(&[before, &this[..80]].concat()), line);
        let is_end = |lines: &str| lines.is_empty() || lines.ends_with(&end());
        if !is_end(before) {
            assert_eq!(bad_line(before), line);
        }
        // Twice the line of an atom is two atoms.
        if !this.starts_with("ATOM") {
            assert_eq!(bad_line(&[before, this, this, after].concat()), line + 1);
            // Without it, the next line or the end stands where it can't.
            assert_eq!(bad_line(&[before, after].concat()), line);
        }
    }
    assert_eq!(bad_line(&(text.clone() + "\n")), all + 1);
    assert_eq!(bad_line(&(text.clone() + &text[..40])), all + 1);
    assert_eq!(bad_line(&text.replace('\n', "\r\n")), 1);
    assert_eq!(bad_line(&text.replace(" \n", "\n")), 1);
}

#[test]
fn the_sentence() {
    let error = "END\n".parse::<Store>().err().unwrap();
    assert_eq!((&error, error.number()), (&Error::BadLine { line: 1 }, Some(17)));
    assert!(error.to_string().starts_with("line 1: the text isn't PDB lines as write_pdb writes them; "));
}

// A record more than a store can have has no room, and a bad line is said first.
#[test]
fn the_most_records() {
    let mut text = [model(1), end()].concat().repeat(MAX_RECORDS);
    assert_eq!(Store::read_pdb(&text).unwrap().words().len(), 1_200_001);
    text += &[model(2), end()].concat();
    assert_eq!(Store::read_pdb(&text).err(), Some(Error::NoCapacity));
    text.truncate(text.len() - LINE);
    assert_eq!(bad_line(&text), 200_002);
}
