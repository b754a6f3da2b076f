// PDB lines of structures of four sizes read, by the port into words that are lent and by gemmi's own reader, in one run and of one text:
// time per atom. Then the largest in orders that files have, or could have. The port's times include opening the words. Where a chain comes
// again, the port puts its atoms into the one that is there; gemmi begins another of the same id, and merges none.
use super::others::{self, LIBRARIES};
use super::port;
use super::store::{self, AtomAt};
use super::writing::{self, LINE, SIZES};
use std::hint::black_box;

// One in 25 records is spare.
const SPARE: usize = 25;

// An atom with its line.
type AtomLine<'a> = (&'a AtomAt, &'a [u8]);
type Order = fn(&mut [AtomLine]);

// The lines of a structure, its atoms in another order.
fn text(atoms: &[AtomAt], residues: u64, order: Order) -> Vec<u8> {
    let mut written = vec![0u8; LINE * (atoms.len() + 2)];
    assert_eq!(port::write_pdb(&writing::words(atoms, residues), &mut written).result, 0);
    let (first, rest) = written.split_at(LINE);
    let (lines, last) = rest.split_at(LINE * atoms.len());
    let mut lines: Vec<AtomLine> = atoms.iter().zip(lines.chunks(LINE)).collect();
    order(&mut lines);
    let lines: Vec<&[u8]> = lines.into_iter().map(|(_, line)| line).collect();
    [first, &lines.concat(), last].concat()
}

fn chain_by_chain(_lines: &mut [AtomLine]) {}

// As the wwPDB has them: the chains, then the ligands and waters of each chain in turn, whose numbers are above the chain's. Here these are the
// last eighth of its residues.
fn last_behind(lines: &mut [AtomLine]) {
    lines.sort_by_key(|(a, _)| a.residue * 8 > store::RESIDUES * 7);
}

// The same with numbers among the chain's.
fn hetero_behind(lines: &mut [AtomLine]) {
    lines.sort_by_key(|(a, _)| a.hetero);
}

// The chains take turns, residue by residue.
fn residues_in_turn(lines: &mut [AtomLine]) {
    lines.sort_by_key(|(a, _)| a.residue);
}

// Any order.
fn shuffled(lines: &mut [AtomLine]) {
    lines.sort_by_key(|(a, _)| a.serial.wrapping_mul(0x9e37_79b9_7f4a_7c15).rotate_left(29).wrapping_mul(0xbf58_476d_1ce4_e5b9));
}

struct Case {
    name: &'static str,
    residues: u64,
    spare: usize,
    order: Order,
    runs: usize,
}

fn row(case: &Case) {
    let atoms = store::atoms(case.residues);
    let text = text(&atoms, case.residues, case.order);
    let records = store::records(case.residues);
    let mut words = vec![0u64; (records + case.spare) * 12 + 1];
    let mut read = 0;
    let mut by_port = || assert_eq!(port::read_pdb(black_box(&text), &mut words), 0);
    let mut by_gemmi = || read = others::read_by_gemmi(black_box(&text));
    let [port, gemmi] = match case.runs {
        // What takes long isn't run in rounds.
        1 => [store::least(1, by_port), store::least(1, by_gemmi)],
        runs => store::least_each(runs, [&mut by_port, &mut by_gemmi]),
    };
    assert_eq!(words[words.len() - 1], records as u64 * 12);
    let n = atoms.len() as f64;
    print!("{:28} {n:7} {:8.1}", case.name, port / n);
    if LIBRARIES[0].is_here() {
        assert_eq!(read, atoms.len());
        print!(" {:8.1} {:11.3}", gemmi / n, port / gemmi);
    }
    println!();
}

pub fn table() {
    let beside = if LIBRARIES[0].is_here() { "    gemmi  port/gemmi" } else { "; gemmi isn't installed and is left out" };
    println!("ns per atom{:29} port{beside}", "");
    let spare = |residues| store::records(residues) / SPARE;
    for residues in SIZES {
        row(&Case { name: "chain by chain", residues, spare: spare(residues), order: chain_by_chain, runs: 10 });
    }
    let residues = store::RESIDUES;
    let largest = Case { name: "", residues, spare: spare(residues), order: chain_by_chain, runs: 10 };
    row(&Case { name: "ligands and waters behind", order: last_behind, ..largest });
    row(&Case { name: "no record to spare", spare: 0, ..largest });
    row(&Case { name: "the same, ligands behind", spare: 0, order: last_behind, ..largest });
    row(&Case { name: "ligands' numbers between", order: hetero_behind, ..largest });
    row(&Case { name: "residues of chains in turn", order: residues_in_turn, ..largest });
    row(&Case { name: "any order", order: shuffled, runs: 1, ..largest });
}
