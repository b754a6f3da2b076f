// Single edits of the largest store, the port and the crate in one run. The port's times include its layout check, which is given apart.
use super::store::{self, AtomAt};
use super::{additions, check, nodes, port, structure};
use pdbtbx::{Element, Model, Search, Term, PDB};
use port::Call;
use std::hint::black_box;

pub struct Edit {
    pub name: &'static str,
    // Made before it, untimed.
    before: Option<Box<Edit>>,
    call: Call,
    on_crate: Box<dyn Fn(&mut Model)>,
}

fn edit(name: &'static str, call: Call, on_crate: impl Fn(&mut Model) + 'static) -> Edit {
    Edit { name, before: None, call, on_crate: Box::new(on_crate) }
}

fn add(name: &'static str, atom: &'static str, element: u64, like: &AtomAt) -> Edit {
    let new = AtomAt { serial: 80_001, name: atom, element, ..like.clone() };
    edit(name, additions::call(&new), move |m| structure::add(m, structure::atom(&new), &new))
}

// Of an atom that is added behind the last; the crate guesses no element from its name.
fn set_element(name: &'static str, residues: u64, last: &AtomAt) -> Edit {
    let [chain, residue, atom] = [store::CHAINS - 1, residues - 1, store::ATOMS];
    let set = edit(name, Call::SetElement([0, chain, residue, 0, atom], 8), move |m| {
        let residue = m.chain_mut(chain as usize).unwrap().residue_mut(residue as usize).unwrap();
        let atom = residue.conformer_mut(0).unwrap().atom_mut(atom as usize).unwrap();
        assert!(atom.element().is_none());
        atom.set_element(Element::O);
    });
    Edit { before: Some(Box::new(add("", "XX", 0, last))), ..set }
}

pub fn edits(residues: u64) -> Vec<Edit> {
    let atoms = store::atoms(residues);
    let ca = || Search::Single(Term::AtomName("CA".into()));
    vec![
        add("add_atom, to the last residue", "CA", 6, atoms.last().unwrap()),
        add("add_atom, to the first residue", "CA", 6, &atoms[0]),
        edit("remove_chain, the first", Call::RemoveChain([0, 0]), |m| drop(m.remove_chain(0))),
        edit("remove_atom, the first", Call::RemoveAtom([0; 5]), |m| {
            m.chain_mut(0).unwrap().residue_mut(0).unwrap().conformer_mut(0).unwrap().remove_atom(0)
        }),
        edit("join, first chain with the last", Call::JoinChains([0, 0], [0, 3]), |m| {
            let last = m.remove_chain(3);
            m.chain_mut(0).unwrap().join(last);
        }),
        edit("remove_empty, of the full store", Call::RemoveEmpty(0), |m| m.remove_empty()),
        edit("remove_atoms_by AtomName", Call::RemoveAtomsBy(0, nodes::nodes(&ca())), move |m| {
            let search = ca();
            m.remove_atoms_by(|a| search.add_atom_info(a).complete() == Some(true));
        }),
        set_element("set_element, of the last atom", residues, atoms.last().unwrap()),
    ]
}

// The least times of the port and the crate in nanoseconds; both leave as many atoms.
pub fn times(words: &[u64], pdb: &PDB, edit: &Edit) -> (f64, f64) {
    let (mut words, mut pdb) = (words.to_vec(), pdb.clone());
    if let Some(before) = &edit.before {
        assert_eq!(port::edit(&mut words, &before.call).result, 0);
        (before.on_crate)(pdb.model_mut(0).unwrap());
    }
    let mut removed = 0;
    let port = store::least_on(
        20,
        || words.clone(),
        |w| {
            let e = port::edit(w, &edit.call);
            assert_eq!((e.result, e.found), (0, 1));
            removed = e.removed as usize;
        },
    );
    let of_crate = store::least_on(5, || pdb.clone(), |p| (edit.on_crate)(black_box(p.model_mut(0).unwrap())));
    let mut edited = pdb.clone();
    (edit.on_crate)(edited.model_mut(0).unwrap());
    let added = matches!(edit.call, Call::AddAtom { .. }) as usize;
    assert_eq!(pdb.total_atom_count() + added - removed, edited.total_atom_count());
    (port, of_crate)
}

pub fn table() {
    let words = store::words(store::RESIDUES, 4);
    let pdb = structure::pdb(store::RESIDUES);
    let check = check::time(&words, 50);
    println!("{} records; layout check {:.0} us", store::records(store::RESIDUES), check / 1e3);
    println!("us{:33} port  after check   crate  port/crate", "");
    for edit in edits(store::RESIDUES) {
        let (port, of_crate) = times(&words, &pdb, &edit);
        println!("{:33} {:7.0} {:12.0} {:7.1} {:11.2}", edit.name, port / 1e3, (port - check) / 1e3, of_crate / 1e3, port / of_crate);
    }
}
