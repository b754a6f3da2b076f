// PDB lines of structures of four sizes, the port and gemmi's own writer in one run, each into bytes that are lent: time per atom. The
// port's times include its layout check. gemmi's structure is built beforehand, and both write the same lines of atoms.
use super::others::{self, LIBRARIES};
use super::port;
use super::store::{self, AtomAt};
use std::hint::black_box;

pub const SIZES: [u64; 4] = [250, 500, 1_000, store::RESIDUES];
pub const LINE: usize = 81;

// Of a protein's size, to three decimals; the other structures here have all atoms at 0.
fn place(a: &AtomAt) -> [f64; 3] {
    [7_919, 104_729, 15_485].map(|step| (a.serial * step % 120_001) as f64 / 1_000.0 - 40.0)
}

// The benchmarks' structure with its atoms in their places.
pub fn words(atoms: &[AtomAt], residues: u64) -> Vec<u64> {
    let mut words = store::words(residues, 0);
    for (record, a) in words.chunks_exact_mut(12).filter(|record| record[0] == 5).zip(atoms) {
        record[3..6].copy_from_slice(&place(a).map(f64::to_bits));
    }
    words
}

// The lines of atoms.
fn lines(text: &[u8]) -> Vec<&[u8]> {
    text.chunks(LINE).filter(|line| line.starts_with(b"ATOM") || line.starts_with(b"HETATM")).collect()
}

pub fn table() {
    let beside = if LIBRARIES[0].is_here() { "   gemmi  port/gemmi" } else { "; gemmi isn't installed and is left out" };
    println!("ns per atom{:13} port{beside}", "");
    for residues in SIZES {
        let atoms = store::atoms(residues);
        let words = words(&atoms, residues);
        let mut ours = vec![0u8; LINE * (atoms.len() + 2)];
        let mut theirs = vec![0u8; ours.len() + 20 * LINE];
        let gemmi_is_here = others::build_in_places(&atoms, place);
        let mut written = 0;
        let mut by_port = || assert_eq!(port::write_pdb(black_box(&words), &mut ours).result, 0);
        let mut by_gemmi = || written = others::write_by_gemmi(&mut theirs);
        let [port, gemmi] = store::least_each(10, [&mut by_port, &mut by_gemmi]);
        let n = atoms.len() as f64;
        print!("{n:20} {:7.1}", port / n);
        if gemmi_is_here {
            assert!(lines(&ours) == lines(&theirs[..written]), "gemmi writes other lines");
            print!(" {:7.1} {:11.3}", gemmi / n, port / gemmi);
        }
        println!();
    }
}
