// The C interface (include/jubrelti.h) behind safe functions on slices. The oracle includes this file too, so the declarations stand once.
//
// Why the calls are sound: the header asks that each pointer is aligned and valid for the length given with it, that no slice that is
// written overlaps another, and that no other thread touches a slice meanwhile. Each pointer here comes from a slice with that slice's own
// length, and the slice is borrowed until the call returns; one that is written is borrowed by `&mut`, so it overlaps no other and no
// other thread has it. Nothing is asked of the words, the bytes and the numbers themselves, and the library keeps no pointer.

#[repr(C)]
#[derive(Clone, Copy, Debug, PartialEq)]
pub struct Edit {
    pub result: u64,
    pub found: u64,
    pub removed: u64,
}

#[repr(C)]
#[derive(Clone, Copy, Debug, PartialEq)]
pub struct Find {
    pub result: u64,
    pub hits: u64,
}

// The header has the five record numbers as fields one after another, laid out as an array is.
#[repr(C)]
#[derive(Clone, Copy, Debug, PartialEq)]
pub struct Lookup {
    pub result: u64,
    pub found: u64,
    pub at: [u64; 5],
}

#[repr(C)]
#[derive(Clone, Copy, Debug, PartialEq)]
pub struct Write {
    pub result: u64,
    pub length: u64,
}

#[repr(C)]
#[derive(Clone, Copy, Debug, PartialEq)]
pub struct Apply {
    pub result: u64,
    pub calls: u64,
}

// A new atom's numbers; floats and the charge by their bits.
#[repr(C)]
#[derive(Clone, Copy, Debug, Default, PartialEq)]
pub struct NewAtom {
    pub serial: u64,
    pub x: u64,
    pub y: u64,
    pub z: u64,
    pub occupancy: u64,
    pub b_factor: u64,
    pub element: u64,
    pub charge: u64,
    pub hetero: u64,
}

// "An optional argument has a flag, 0 absent or 1 present"; the library refuses other flags.
#[derive(Clone, Copy, Debug, PartialEq)]
pub struct Optional<'a> {
    pub flag: u64,
    pub text: &'a [u8],
}

// What `add_atom` takes beside the store.
#[derive(Clone, Copy, Debug, PartialEq)]
pub struct Addition<'a> {
    pub model: u64,
    pub chain: &'a [u8],
    pub residue: u64,
    pub code: Optional<'a>,
    pub conformer: &'a [u8],
    pub location: Optional<'a>,
    pub name: &'a [u8],
    pub values: NewAtom,
}

type Words = *mut u64;
type Shared = *const u64;
type Bytes = *const u8;
type Text = *mut u8;

extern "C" {
    fn jubrelti_version() -> u64;
    fn jubrelti_check(store: Shared, n: usize) -> u64;
    fn jubrelti_open(store: Words, n: usize) -> u64;
    fn jubrelti_copy(from: Shared, n: usize, to: Words, m: usize) -> u64;
    fn jubrelti_find(store: Shared, n: usize, tree: Shared, t: usize, out: Words, o: usize) -> Find;
    fn jubrelti_model_find(store: Shared, n: usize, model: u64, tree: Shared, t: usize, out: Words, o: usize) -> Find;
    fn jubrelti_chain_find(store: Shared, n: usize, model: u64, chain: u64, tree: Shared, t: usize, out: Words, o: usize) -> Find;
    #[rustfmt::skip]
    fn jubrelti_residue_find(
        store: Shared,
        n: usize,
        model: u64,
        chain: u64,
        residue: u64,
        tree: Shared,
        t: usize,
        out: Words,
        o: usize,
    ) -> Find;
    #[rustfmt::skip]
    fn jubrelti_conformer_find(
        store: Shared,
        n: usize,
        model: u64,
        chain: u64,
        residue: u64,
        conformer: u64,
        tree: Shared,
        t: usize,
        out: Words,
        o: usize,
    ) -> Find;
    fn jubrelti_binary_find_atom(store: Shared, n: usize, serial: u64, flag: u64, location: Bytes, l: usize) -> Lookup;
    fn jubrelti_apply(store: Words, n: usize, list: Shared, l: usize, out: Words, o: usize) -> Apply;
    fn jubrelti_write_pdb(store: Shared, n: usize, out: Text, o: usize) -> Write;
    fn jubrelti_read_pdb(text: Bytes, t: usize, store: Words, n: usize) -> u64;
    fn jubrelti_add_model(store: Words, n: usize, serial: u64) -> Edit;
    #[rustfmt::skip]
    fn jubrelti_add_atom(
        store: Words,
        n: usize,
        model: u64,
        chain: Bytes,
        c: usize,
        residue: u64,
        code_flag: u64,
        code: Bytes,
        i: usize,
        conformer: Bytes,
        f: usize,
        location_flag: u64,
        location: Bytes,
        l: usize,
        name: Bytes,
        a: usize,
        values: NewAtom,
    ) -> Edit;
    fn jubrelti_remove_chain(store: Words, n: usize, model: u64, chain: u64) -> Edit;
    fn jubrelti_remove_residue(store: Words, n: usize, model: u64, chain: u64, residue: u64) -> Edit;
    fn jubrelti_remove_conformer(store: Words, n: usize, model: u64, chain: u64, residue: u64, conformer: u64) -> Edit;
    fn jubrelti_remove_atom(store: Words, n: usize, model: u64, chain: u64, residue: u64, conformer: u64, atom: u64) -> Edit;
    fn jubrelti_remove_chain_by_id(store: Words, n: usize, model: u64, id: Bytes, l: usize) -> Edit;
    #[rustfmt::skip]
    fn jubrelti_remove_residue_by_id(store: Words, n: usize, model: u64, chain: u64, serial: u64, flag: u64, code: Bytes, l: usize)
        -> Edit;
    #[rustfmt::skip]
    fn jubrelti_remove_conformer_by_id(
        store: Words,
        n: usize,
        model: u64,
        chain: u64,
        residue: u64,
        name: Bytes,
        m: usize,
        flag: u64,
        location: Bytes,
        l: usize,
    ) -> Edit;
    #[rustfmt::skip]
    fn jubrelti_remove_atom_by_serial_number(
        store: Words,
        n: usize,
        model: u64,
        chain: u64,
        residue: u64,
        conformer: u64,
        serial: u64,
    ) -> Edit;
    fn jubrelti_remove_atoms_by(store: Words, n: usize, model: u64, tree: Shared, t: usize) -> Edit;
    fn jubrelti_remove_empty(store: Words, n: usize, model: u64) -> Edit;
    fn jubrelti_join_models(store: Words, n: usize, first: u64, second: u64) -> Edit;
    fn jubrelti_join_chains(store: Words, n: usize, a: u64, b: u64, a2: u64, b2: u64) -> Edit;
    fn jubrelti_join_residues(store: Words, n: usize, a: u64, b: u64, c: u64, a2: u64, b2: u64, c2: u64) -> Edit;
    #[rustfmt::skip]
    fn jubrelti_join_conformers(store: Words, n: usize, a: u64, b: u64, c: u64, d: u64, a2: u64, b2: u64, c2: u64, d2: u64) -> Edit;
    fn jubrelti_set_element(store: Words, n: usize, model: u64, chain: u64, residue: u64, conformer: u64, atom: u64, element: u64) -> Edit;
}

// The linked library's version: major * 1,000,000 + minor * 1,000 + patch.
pub fn version() -> u64 {
    // SAFETY: the call takes nothing and reads nothing.
    unsafe { jubrelti_version() }
}

pub fn check(store: &[u64]) -> u64 {
    // SAFETY: one slice, read.
    unsafe { jubrelti_check(store.as_ptr(), store.len()) }
}

pub fn open(store: &mut [u64]) -> u64 {
    // SAFETY: one slice, borrowed by `&mut` and written.
    unsafe { jubrelti_open(store.as_mut_ptr(), store.len()) }
}

pub fn copy(from: &[u64], to: &mut [u64]) -> u64 {
    // SAFETY: `from` is read, and `to` is borrowed by `&mut` and written.
    unsafe { jubrelti_copy(from.as_ptr(), from.len(), to.as_mut_ptr(), to.len()) }
}

pub fn find(store: &[u64], tree: &[u64], out: &mut [u64]) -> Find {
    // SAFETY: `store` and `tree` are read, and `out` is borrowed by `&mut` and written.
    unsafe { jubrelti_find(store.as_ptr(), store.len(), tree.as_ptr(), tree.len(), out.as_mut_ptr(), out.len()) }
}

pub fn model_find(store: &[u64], model: u64, tree: &[u64], out: &mut [u64]) -> Find {
    let (s, n, t, l, w, o) = (store.as_ptr(), store.len(), tree.as_ptr(), tree.len(), out.as_mut_ptr(), out.len());
    // SAFETY: `store` and `tree` are read, and `out` is borrowed by `&mut` and written.
    unsafe { jubrelti_model_find(s, n, model, t, l, w, o) }
}

pub fn chain_find(store: &[u64], [model, chain]: [u64; 2], tree: &[u64], out: &mut [u64]) -> Find {
    let (s, n, t, l, w, o) = (store.as_ptr(), store.len(), tree.as_ptr(), tree.len(), out.as_mut_ptr(), out.len());
    // SAFETY: `store` and `tree` are read, and `out` is borrowed by `&mut` and written.
    unsafe { jubrelti_chain_find(s, n, model, chain, t, l, w, o) }
}

pub fn residue_find(store: &[u64], [model, chain, residue]: [u64; 3], tree: &[u64], out: &mut [u64]) -> Find {
    let (s, n, t, l, w, o) = (store.as_ptr(), store.len(), tree.as_ptr(), tree.len(), out.as_mut_ptr(), out.len());
    // SAFETY: `store` and `tree` are read, and `out` is borrowed by `&mut` and written.
    unsafe { jubrelti_residue_find(s, n, model, chain, residue, t, l, w, o) }
}

pub fn conformer_find(store: &[u64], [model, chain, residue, conformer]: [u64; 4], tree: &[u64], out: &mut [u64]) -> Find {
    let (s, n, t, l, w, o) = (store.as_ptr(), store.len(), tree.as_ptr(), tree.len(), out.as_mut_ptr(), out.len());
    // SAFETY: `store` and `tree` are read, and `out` is borrowed by `&mut` and written.
    unsafe { jubrelti_conformer_find(s, n, model, chain, residue, conformer, t, l, w, o) }
}

pub fn binary_find_atom(store: &[u64], serial: u64, location: Optional) -> Lookup {
    let Optional { flag, text } = location;
    // SAFETY: both slices are read.
    unsafe { jubrelti_binary_find_atom(store.as_ptr(), store.len(), serial, flag, text.as_ptr(), text.len()) }
}

pub fn apply(store: &mut [u64], list: &[u64], out: &mut [u64]) -> Apply {
    // SAFETY: `list` is read, and `store` and `out` are borrowed by `&mut` and written.
    unsafe { jubrelti_apply(store.as_mut_ptr(), store.len(), list.as_ptr(), list.len(), out.as_mut_ptr(), out.len()) }
}

pub fn write_pdb(store: &[u64], out: &mut [u8]) -> Write {
    // SAFETY: `store` is read, and `out` is borrowed by `&mut` and written.
    unsafe { jubrelti_write_pdb(store.as_ptr(), store.len(), out.as_mut_ptr(), out.len()) }
}

pub fn read_pdb(text: &[u8], store: &mut [u64]) -> u64 {
    // SAFETY: `text` is read, and `store` is borrowed by `&mut` and written.
    unsafe { jubrelti_read_pdb(text.as_ptr(), text.len(), store.as_mut_ptr(), store.len()) }
}

pub fn add_model(store: &mut [u64], serial: u64) -> Edit {
    // SAFETY: one slice, borrowed by `&mut` and written.
    unsafe { jubrelti_add_model(store.as_mut_ptr(), store.len(), serial) }
}

#[rustfmt::skip]
pub fn add_atom(store: &mut [u64], new: &Addition) -> Edit {
    let Addition { model, chain, residue, code, conformer, location, name, values } = *new;
    // SAFETY: the texts are read, and `store` is borrowed by `&mut` and written.
    unsafe {
        jubrelti_add_atom(
            store.as_mut_ptr(), store.len(), model, chain.as_ptr(), chain.len(),
            residue, code.flag, code.text.as_ptr(), code.text.len(),
            conformer.as_ptr(), conformer.len(), location.flag, location.text.as_ptr(), location.text.len(),
            name.as_ptr(), name.len(), values,
        )
    }
}

pub fn remove_chain(store: &mut [u64], [model, chain]: [u64; 2]) -> Edit {
    // SAFETY: one slice, borrowed by `&mut` and written.
    unsafe { jubrelti_remove_chain(store.as_mut_ptr(), store.len(), model, chain) }
}

pub fn remove_residue(store: &mut [u64], [model, chain, residue]: [u64; 3]) -> Edit {
    // SAFETY: one slice, borrowed by `&mut` and written.
    unsafe { jubrelti_remove_residue(store.as_mut_ptr(), store.len(), model, chain, residue) }
}

pub fn remove_conformer(store: &mut [u64], [model, chain, residue, conformer]: [u64; 4]) -> Edit {
    // SAFETY: one slice, borrowed by `&mut` and written.
    unsafe { jubrelti_remove_conformer(store.as_mut_ptr(), store.len(), model, chain, residue, conformer) }
}

pub fn remove_atom(store: &mut [u64], [model, chain, residue, conformer, atom]: [u64; 5]) -> Edit {
    // SAFETY: one slice, borrowed by `&mut` and written.
    unsafe { jubrelti_remove_atom(store.as_mut_ptr(), store.len(), model, chain, residue, conformer, atom) }
}

pub fn remove_chain_by_id(store: &mut [u64], model: u64, id: &[u8]) -> Edit {
    // SAFETY: `id` is read, and `store` is borrowed by `&mut` and written.
    unsafe { jubrelti_remove_chain_by_id(store.as_mut_ptr(), store.len(), model, id.as_ptr(), id.len()) }
}

pub fn remove_residue_by_id(store: &mut [u64], [model, chain]: [u64; 2], serial: u64, code: Optional) -> Edit {
    let (s, n, Optional { flag, text }) = (store.as_mut_ptr(), store.len(), code);
    // SAFETY: `text` is read, and `store` is borrowed by `&mut` and written.
    unsafe { jubrelti_remove_residue_by_id(s, n, model, chain, serial, flag, text.as_ptr(), text.len()) }
}

pub fn remove_conformer_by_id(store: &mut [u64], [model, chain, residue]: [u64; 3], name: &[u8], location: Optional) -> Edit {
    let (s, n, Optional { flag, text }) = (store.as_mut_ptr(), store.len(), location);
    // SAFETY: `name` and `text` are read, and `store` is borrowed by `&mut` and written.
    unsafe { jubrelti_remove_conformer_by_id(s, n, model, chain, residue, name.as_ptr(), name.len(), flag, text.as_ptr(), text.len()) }
}

pub fn remove_atom_by_serial_number(store: &mut [u64], [model, chain, residue, conformer]: [u64; 4], serial: u64) -> Edit {
    // SAFETY: one slice, borrowed by `&mut` and written.
    unsafe { jubrelti_remove_atom_by_serial_number(store.as_mut_ptr(), store.len(), model, chain, residue, conformer, serial) }
}

pub fn remove_atoms_by(store: &mut [u64], model: u64, tree: &[u64]) -> Edit {
    // SAFETY: `tree` is read, and `store` is borrowed by `&mut` and written.
    unsafe { jubrelti_remove_atoms_by(store.as_mut_ptr(), store.len(), model, tree.as_ptr(), tree.len()) }
}

pub fn remove_empty(store: &mut [u64], model: u64) -> Edit {
    // SAFETY: one slice, borrowed by `&mut` and written.
    unsafe { jubrelti_remove_empty(store.as_mut_ptr(), store.len(), model) }
}

pub fn join_models(store: &mut [u64], first: u64, second: u64) -> Edit {
    // SAFETY: one slice, borrowed by `&mut` and written.
    unsafe { jubrelti_join_models(store.as_mut_ptr(), store.len(), first, second) }
}

pub fn join_chains(store: &mut [u64], [a, b]: [u64; 2], [a2, b2]: [u64; 2]) -> Edit {
    // SAFETY: one slice, borrowed by `&mut` and written.
    unsafe { jubrelti_join_chains(store.as_mut_ptr(), store.len(), a, b, a2, b2) }
}

pub fn join_residues(store: &mut [u64], [a, b, c]: [u64; 3], [a2, b2, c2]: [u64; 3]) -> Edit {
    // SAFETY: one slice, borrowed by `&mut` and written.
    unsafe { jubrelti_join_residues(store.as_mut_ptr(), store.len(), a, b, c, a2, b2, c2) }
}

pub fn join_conformers(store: &mut [u64], [a, b, c, d]: [u64; 4], [a2, b2, c2, d2]: [u64; 4]) -> Edit {
    // SAFETY: one slice, borrowed by `&mut` and written.
    unsafe { jubrelti_join_conformers(store.as_mut_ptr(), store.len(), a, b, c, d, a2, b2, c2, d2) }
}

pub fn set_element(store: &mut [u64], [model, chain, residue, conformer, atom]: [u64; 5], element: u64) -> Edit {
    // SAFETY: one slice, borrowed by `&mut` and written.
    unsafe { jubrelti_set_element(store.as_mut_ptr(), store.len(), model, chain, residue, conformer, atom, element) }
}
