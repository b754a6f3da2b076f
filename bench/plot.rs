// Cost against records, port and crate, at eight sizes: a table, and docs/cost.svg.
use super::chart::{svg, Line, Panel};
use super::{check, edits, find, store, structure};

const SIZES: [u64; 8] = [21, 42, 83, 167, 333, 666, 1_333, store::RESIDUES];
const TREES: [&str; 3] = ["ChainId & AtomName", "B range", "!(Element ^ Backbone)"];
const EDITS: [&str; 2] = ["add_atom, to the last residue", "remove_atoms_by AtomName"];

// What is timed, and its microseconds on the port and, where it has it, on the crate.
type Row = (&'static str, f64, Option<f64>);

fn us(name: &'static str, (port, of_crate): (f64, f64)) -> Row {
    (name, port / 1e3, Some(of_crate / 1e3))
}

// Find, and then the check and edits, at one size.
fn rows(residues: u64) -> [Vec<Row>; 2] {
    let words = store::words(residues, 4);
    let pdb = structure::pdb(residues);
    let trees = find::trees().into_iter().filter(|t| TREES.contains(&t.name));
    let finds = trees.map(|t| {
        let times = find::times(&words, &[], &t.search, 30, |s| pdb.find(s));
        us(t.name, (times.port, times.of_crate))
    });
    let chosen = edits::edits(residues).into_iter().filter(|e| EDITS.contains(&e.name));
    let edits = chosen.map(|e| us(e.name, edits::times(&words, &pdb, &e)));
    let check = ("layout check", check::time(&words, 50) / 1e3, None);
    [finds.collect(), std::iter::once(check).chain(edits).collect()]
}

// The i-th row of each size as one line for the port and one for the crate.
fn lines(sizes: &[(usize, Vec<Row>)], i: usize) -> Vec<Line> {
    let name = sizes[0].1[i].0;
    let line = |side: &str, dashed, of: fn(&Row) -> Option<f64>| {
        let points = sizes.iter().filter_map(|(records, rows)| Some((*records as f64, of(&rows[i])?))).collect();
        Line { name: format!("{name}: {side}"), colour: i, dashed, points }
    };
    let both = [line("port", false, |r| Some(r.1)), line("crate", true, |r| r.2)];
    both.into_iter().filter(|l| !l.points.is_empty()).collect()
}

fn panel(title: &'static str, sizes: &[(usize, Vec<Row>)]) -> Panel {
    let all = sizes[0].1.len();
    Panel { title, lines: (0..all).flat_map(|i| lines(sizes, i)).collect() }
}

pub fn draw() {
    let (mut finds, mut others) = (Vec::new(), Vec::new());
    for residues in SIZES {
        let records = store::records(residues);
        let [find, other] = rows(residues);
        println!("{:38} {:>8} {:>8}", format!("{records} records, us"), "port", "crate");
        for (name, port, of_crate) in find.iter().chain(&other) {
            println!("  {name:36} {port:8.1} {}", of_crate.map_or(format!("{:>8}", "-"), |t| format!("{t:8.1}")));
        }
        finds.push((records, find));
        others.push((records, other));
    }
    let panels = [panel("find", &finds), panel("layout check and single edits", &others)];
    std::fs::write("docs/cost.svg", svg(&panels)).expect("docs/cost.svg");
    println!("drawn: docs/cost.svg");
}
