// The port's PDB lines read back by gemmi (oracle/gemmi.cpp), field by field against the structure they were written from. Structures suit
// what gemmi can tell apart.
use crate::plain::{self, pack, text_of, Atom, Chain, Conformer, Machine, Model, Residue};
use crate::random::Random;
use crate::{fitting, port};
use std::collections::HashSet;
use std::io::Write;
use std::process::{Command, Stdio};

fn first_of<T, K: std::hash::Hash + Eq>(parts: &mut Vec<T>, key: impl Fn(&T) -> K) {
    let mut seen = HashSet::new();
    parts.retain(|part| seen.insert(key(part)));
}

// gemmi refuses two models of one number; it makes one residue of those with equal numbers, names and codes, and holds two codes equal that
// differ by 32. It has the hetero flag by residue.
fn suited(mut m: Machine) -> Machine {
    first_of(&mut m, |model| model.serial);
    for model in &mut m {
        first_of(&mut model.chains, |c| c.id);
        for c in &mut model.chains {
            first_of(&mut c.residues, |r| (r.serial, r.code | pack(b" ")));
            c.residues.iter_mut().for_each(suit_residue);
        }
    }
    m
}

fn suit_residue(r: &mut Residue) {
    r.conformers.sort_by_key(|f| f.name);
    let hetero = r.serial % 2;
    r.conformers.iter_mut().flat_map(|f| &mut f.atoms).for_each(|a| a.values.hetero = hetero);
}

// gemmi's answer, a line for each model and each atom.
fn read(reader: &str, text: &[u8]) -> String {
    let mut child = Command::new(reader).stdin(Stdio::piped()).stdout(Stdio::piped()).spawn().expect("gemmi's reader");
    child.stdin.take().unwrap().write_all(text).expect("gemmi's input");
    let output = child.wait_with_output().expect("gemmi's output");
    assert!(output.status.success(), "gemmi refuses\n{}", String::from_utf8_lossy(text));
    String::from_utf8(output.stdout).unwrap()
}

fn named(word: u64) -> String {
    String::from_utf8(text_of(word)).unwrap()
}

// What a field of so many places reads as: the same where the f64 is the nearest to such a number, else at most half of the last place off.
// gemmi has occupancy and B-factor as f32, whose steps are below 0.0001 here.
fn same_float(bits: u64, read: &str, places: i32) -> bool {
    let (x, one) = (f64::from_bits(bits), 10f64.powi(places));
    let read: f64 = read.parse().unwrap();
    if (x * one).round() / one == x {
        return if places == 2 { read as f32 == x as f32 } else { read == x };
    }
    (read - x).abs() <= 0.5 / one + if places == 2 { 1e-4 } else { 1e-11 }
}

// An element that is missing is one that gemmi guesses.
fn same_atom(c: &Chain, r: &Residue, f: &Conformer, a: &Atom, read: &[&str]) -> bool {
    let v = &a.values;
    let [chain, hetero, serial, name, location, conformer, number, code, x, y, z, occupancy, b_factor, element, charge] = read else {
        return false;
    };
    let texts = [chain, name, location, conformer, code] == [c.id, a.name, f.location, f.name, r.code].map(named).each_ref();
    let numbers = [serial, number, charge].map(|n| n.parse::<i64>().unwrap()) == [v.serial, r.serial, v.charge].map(|n| n as i64);
    let floats = same_float(v.x, x, 3) && same_float(v.y, y, 3) && same_float(v.z, z, 3);
    let others = same_float(v.occupancy, occupancy, 2) && same_float(v.b_factor, b_factor, 2);
    let flags = *hetero == if v.hetero == 1 { "H" } else { "A" } && (v.element == 0 || v.element.to_string() == *element);
    texts && numbers && floats && others && flags
}

// The number of atoms.
fn compare_model<'a>(m: &Model, read: &mut impl Iterator<Item = &'a str>) -> u64 {
    assert_eq!(read.next(), Some(&*format!("model\t{}", m.serial)));
    let mut atoms = 0;
    for c in &m.chains {
        for r in &c.residues {
            for f in &r.conformers {
                for a in &f.atoms {
                    let line = read.next().unwrap_or_default();
                    assert!(same_atom(c, r, f, a, &line.split('\t').collect::<Vec<_>>()), "gemmi reads {a:?} in {f:?} in {r:?} as {line}");
                    atoms += 1;
                }
            }
        }
    }
    atoms
}

// So many random structures with a model at least.
pub fn compare(reader: &str, structures: u64, random: impl Fn(u64) -> Random) {
    let (mut tried, mut atoms) = (0, 0);
    for m in (0..structures).map(|i| suited(fitting::machine(&mut random(i), None))).filter(|m| !m.is_empty()) {
        let store = plain::lay_out(&m, plain::records(&m).len() + 1);
        let mut out = vec![0; 81 * store.len()];
        let answer = port::write_pdb(&store, &mut out);
        assert_eq!(answer.result, 0);
        let lines = read(reader, &out[..answer.length as usize]);
        let mut lines = lines.lines();
        atoms += m.iter().map(|model| compare_model(model, &mut lines)).sum::<u64>();
        assert_eq!(lines.next(), None);
        tried += 1;
    }
    println!("gemmi reads {tried} texts back, {atoms} atoms: no disagreement");
}
