// Lists of additions into an opened store as one call, and the crate's `add_atom`, in one run: time per addition at four sizes.
use super::port::{Call, NewAtom};
use super::store::{self, AtomAt};
use super::{list, port, structure};
use pdbtbx::Model;
use std::hint::black_box;

// In file order, or with the chains taken in turn: the worst order, in which no addition goes where the last one went.
fn atoms(n: usize, in_turn: bool) -> Vec<AtomAt> {
    let mut atoms = store::atoms(store::RESIDUES);
    if in_turn {
        let chain = atoms.len() / store::CHAINS as usize;
        atoms.sort_by_key(|a| ((a.serial as usize - 1) % chain, a.serial));
    }
    atoms.truncate(n);
    atoms
}

pub fn call(a: &AtomAt) -> Call {
    let values = NewAtom {
        serial: a.serial,
        occupancy: 1f64.to_bits(),
        b_factor: a.b_factor.to_bits(),
        element: a.element,
        hetero: a.hetero as u64,
        ..NewAtom::default()
    };
    Call::add_atom(0, &a.chain, a.residue, a.conformer, a.name, values)
}

pub fn table() {
    println!("ns per addition{:27} port   crate  port/crate", "");
    for (order, in_turn) in [("file order", false), ("chains in turn", true)] {
        for n in [10_000, 20_000, 40_000, 80_000] {
            let atoms = atoms(n, in_turn);
            let words: Vec<u64> = std::iter::once(Call::AddModel(1)).chain(atoms.iter().map(call)).flat_map(|c| list::words(&c)).collect();
            let runs = if n > 20_000 { 1 } else { 2 };
            let mut out = vec![0; (n + 1) * 3];
            let opened = vec![0u64; store::records(store::RESIDUES) * 12 + 1];
            let port = store::least_on(
                runs,
                || opened.clone(),
                |s| {
                    let answer = port::apply(s, &words, &mut out);
                    assert_eq!((answer.result, answer.calls), (0, n as u64 + 1));
                },
            );
            assert!(out.chunks(3).all(|a| a == [0, 1, 0]));
            let of_crate = store::least_on(
                runs,
                || (Model::new(1), atoms.iter().map(structure::atom).collect::<Vec<_>>()),
                |(model, new)| {
                    for (atom, a) in new.drain(..).zip(&atoms) {
                        structure::add(model, atom, a);
                    }
                    black_box(&model);
                },
            );
            let n = n as f64;
            println!("{:26} {:7} {:9.0} {:7.0} {:11.2}", order, n, port / n, of_crate / n, port / of_crate);
        }
    }
}
