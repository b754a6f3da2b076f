// The benchmarks' structure in the crate.
use super::store::{self, AtomAt};
use pdbtbx::{Atom, Model, PDB};

pub fn symbol(element: u64) -> &'static str {
    match element {
        0 => "",
        1 => "H",
        6 => "C",
        7 => "N",
        8 => "O",
        other => unimplemented!("element {other}"),
    }
}

pub fn atom(a: &AtomAt) -> Atom {
    Atom::new(a.hetero, a.serial as usize, a.name, 0.0, 0.0, 0.0, 1.0, a.b_factor, symbol(a.element), 0).unwrap()
}

pub fn add(model: &mut Model, atom: Atom, a: &AtomAt) {
    model.add_atom(atom, &a.chain, (a.residue as isize, None), (a.conformer, None));
}

pub fn pdb(residues: u64) -> PDB {
    models(1, residues)
}

// So many models, all alike.
pub fn models(models: usize, residues: u64) -> PDB {
    let atoms = store::atoms(residues);
    let mut pdb = PDB::new();
    for _ in 0..models {
        let mut model = Model::new(1);
        atoms.iter().for_each(|a| add(&mut model, atom(a), a));
        pdb.add_model(model);
    }
    pdb
}
