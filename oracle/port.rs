// The port's calls through its static library, by the declarations of the Rust package. No program makes all of them.
#[allow(dead_code)]
#[path = "../bindings/rust/src/ffi.rs"]
mod ffi;

#[allow(unused_imports)]
pub use ffi::{apply, check, copy, open, read_pdb, write_pdb, Apply, Edit, Find, Lookup, NewAtom, Write};

// An optional text: its flag, and its bytes.
#[derive(Clone, Debug, PartialEq)]
pub struct Optional {
    pub flag: u64,
    pub text: Vec<u8>,
}

impl Optional {
    fn lent(&self) -> ffi::Optional<'_> {
        ffi::Optional { flag: self.flag, text: &self.text }
    }
}

pub fn binary_find_atom(store: &[u64], serial: u64, location: &Optional) -> Lookup {
    ffi::binary_find_atom(store, serial, location.lent())
}

// From a start of none to four indexes, from the model down; none is the whole store.
pub fn find(store: &[u64], start: &[u64], tree: &[u64], out: &mut [u64]) -> Find {
    match *start {
        [] => ffi::find(store, tree, out),
        [m] => ffi::model_find(store, m, tree, out),
        [m, c] => ffi::chain_find(store, [m, c], tree, out),
        [m, c, r] => ffi::residue_find(store, [m, c, r], tree, out),
        [m, c, r, f] => ffi::conformer_find(store, [m, c, r, f], tree, out),
        _ => unreachable!("a start of {} indexes", start.len()),
    }
}

// The seventeen edit calls, with the arguments other than the store.
#[derive(Clone, Debug, PartialEq)]
pub enum Call {
    AddModel(u64),
    AddAtom { model: u64, chain: Vec<u8>, residue: u64, code: Optional, conformer: Vec<u8>, location: Optional, name: Vec<u8>, values: NewAtom },
    RemoveChain([u64; 2]),
    RemoveResidue([u64; 3]),
    RemoveConformer([u64; 4]),
    RemoveAtom([u64; 5]),
    RemoveChainById(u64, Vec<u8>),
    RemoveResidueById([u64; 2], u64, Optional),
    RemoveConformerById([u64; 3], Vec<u8>, Optional),
    RemoveAtomBySerialNumber([u64; 4], u64),
    RemoveAtomsBy(u64, Vec<u64>),
    RemoveEmpty(u64),
    JoinModels(u64, u64),
    JoinChains([u64; 2], [u64; 2]),
    JoinResidues([u64; 3], [u64; 3]),
    JoinConformers([u64; 4], [u64; 4]),
    SetElement([u64; 5], u64),
}

impl Call {
    // With no insertion code and no alternative location.
    pub fn add_atom(model: u64, chain: &str, residue: u64, conformer: &str, name: &str, values: NewAtom) -> Call {
        let none = || Optional { flag: 0, text: Vec::new() };
        let (chain, conformer, name) = (chain.into(), conformer.into(), name.into());
        Call::AddAtom { model, chain, residue, code: none(), conformer, location: none(), name, values }
    }
}

pub fn edit(store: &mut [u64], call: &Call) -> Edit {
    match call {
        Call::AddModel(serial) => ffi::add_model(store, *serial),
        Call::AddAtom { model, chain, residue, code, conformer, location, name, values } => {
            let (code, location, values) = (code.lent(), location.lent(), *values);
            let new = ffi::Addition { model: *model, chain, residue: *residue, code, conformer, location, name, values };
            ffi::add_atom(store, &new)
        }
        Call::RemoveChain(p) => ffi::remove_chain(store, *p),
        Call::RemoveResidue(p) => ffi::remove_residue(store, *p),
        Call::RemoveConformer(p) => ffi::remove_conformer(store, *p),
        Call::RemoveAtom(p) => ffi::remove_atom(store, *p),
        Call::RemoveChainById(i, id) => ffi::remove_chain_by_id(store, *i, id),
        Call::RemoveResidueById(p, serial, code) => ffi::remove_residue_by_id(store, *p, *serial, code.lent()),
        Call::RemoveConformerById(p, name, location) => ffi::remove_conformer_by_id(store, *p, name, location.lent()),
        Call::RemoveAtomBySerialNumber(p, serial) => ffi::remove_atom_by_serial_number(store, *p, *serial),
        Call::RemoveAtomsBy(i, tree) => ffi::remove_atoms_by(store, *i, tree),
        Call::RemoveEmpty(i) => ffi::remove_empty(store, *i),
        Call::JoinModels(i, j) => ffi::join_models(store, *i, *j),
        Call::JoinChains(p, q) => ffi::join_chains(store, *p, *q),
        Call::JoinResidues(p, q) => ffi::join_residues(store, *p, *q),
        Call::JoinConformers(p, q) => ffi::join_conformers(store, *p, *q),
        Call::SetElement(p, element) => ffi::set_element(store, *p, *element),
    }
}
