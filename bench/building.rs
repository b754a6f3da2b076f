// Structures built in file order through the Rust package and through the crate, in one run: time per atom, that of making it included.
use super::store::{self, AtomAt};
use super::structure;
use jubrelti::{Edits, ModelBuilder, NewAtom, Search, Store};
use pdbtbx::{Model, PDB};

fn atom(a: &AtomAt) -> NewAtom<'_> {
    let symbol = structure::symbol(a.element);
    NewAtom::new(a.hetero, a.serial as usize, a.name, 0.0, 0.0, 0.0, 1.0, a.b_factor, symbol, 0).unwrap()
}

fn by_builder(atoms: &[AtomAt]) -> Store {
    let mut model = ModelBuilder::new(1);
    for a in atoms {
        model.add_atom(atom(a), &a.chain, (a.residue as isize, None), (a.conformer, None));
    }
    let mut store = Store::new();
    store.add_model(model).unwrap();
    store
}

fn by_list(atoms: &[AtomAt]) -> Store {
    let mut edits = Edits::new();
    edits.add_model(1);
    for a in atoms {
        edits.add_atom(0, atom(a), &a.chain, (a.residue as isize, None), (a.conformer, None));
    }
    let mut store = Store::with_records(0).unwrap();
    store.apply_all(&edits).unwrap();
    store
}

fn by_crate(atoms: &[AtomAt]) -> PDB {
    let mut model = Model::new(1);
    for a in atoms {
        structure::add(&mut model, structure::atom(a), a);
    }
    let mut pdb = PDB::new();
    pdb.add_model(model);
    pdb
}

// The time of one run, without the time to drop what it made.
fn time<T>(make: impl Fn() -> T) -> f64 {
    store::least_on(1, || None, |made| *made = Some(make()))
}

pub fn table() {
    let all = store::atoms(store::RESIDUES);
    println!("ns per atom{:24} package   crate  package/crate", "");
    let builder = [10_000, 20_000, 40_000, 80_000].map(|n| ("builder", by_builder as fn(&[AtomAt]) -> Store, n));
    let list = [10_000, 50_000].map(|n| ("list", by_list as fn(&[AtomAt]) -> Store, n));
    for (name, build, n) in builder.into_iter().chain(list) {
        let atoms = &all[..n];
        assert_eq!(build(atoms).find(Search::Known(true)).unwrap().len(), by_crate(atoms).total_atom_count());
        // In turn, so that a spell of other load meets both.
        let mut least = [f64::INFINITY; 2];
        for _ in 0..5 {
            least = [least[0].min(time(|| build(atoms))), least[1].min(time(|| by_crate(atoms)))];
        }
        let [package, of_crate] = least.map(|time| time / n as f64);
        println!("{name:26} {n:7} {package:9.0} {of_crate:7.0} {:14.2}", package / of_crate);
    }
}
