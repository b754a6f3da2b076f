//! A verified model store and atom search for protein structures.
//!
//! The store and its calls are a port of the `structs` module of [pdbtbx](https://crates.io/crates/pdbtbx) 0.12.0 in which each
//! function is proved to equal its definition. These bindings are a thin layer over its C interface: they turn Rust values
//! into words and back, let a store that owns its words grow, lend what the words hold under the crate's names, and decide
//! nothing else.
//!
//! ```
//! use jubrelti::*;
//!
//! # fn main() -> Result<(), Error> {
//! let mut model = ModelBuilder::new(1);
//! model.add_atom(NewAtom::new(false, 1, "N", 0.0, 0.0, 0.0, 1.0, 12.0, "N", 0)?, "A", (7, None), ("ALA", None));
//! model.add_atom(NewAtom::new(false, 2, "CA", 1.5, 0.0, 0.0, 1.0, 12.5, "C", 0)?, "A", (7, None), ("ALA", None));
//! let mut store = Store::new();
//! store.add_model(model)?;
//!
//! let search = Term::ChainId("A".to_owned()) & !Term::Element(Element::N);
//! for hit in store.find(search)? {
//!     assert_eq!((hit.conformer().name(), hit.atom().name()), ("ALA", "CA"));
//! }
//! # Ok(())
//! # }
//! ```
//!
//! A term that an atom can't decide (its element is missing) is neither true nor false, and such an atom is a hit: a query leaves
//! out only the atoms where it is false.
//!
//! # Reading
//!
//! A store is read as the crate's `PDB` is: [Model], [Chain], [Residue], [Conformer] and [Atom] have no lifetime of their own, and
//! what they lend lives as long as the store isn't edited.
//!
//! ```
//! use jubrelti::*;
//!
//! fn label(atom: &Atom) -> &str {
//!     atom.name()
//! }
//!
//! # fn main() -> Result<(), Error> {
//! # let mut store = Store::with_records(100)?;
//! # store.add_model(1)?;
//! # store.add_atom(0, NewAtom { name: "N", ..NewAtom::default() }, "A", (7, None), ("ALA", None))?;
//! # store.add_atom(0, NewAtom { name: "CB", ..NewAtom::default() }, "A", (7, None), ("ALA", None))?;
//! let names: Vec<&str> = store.atoms().map(label).collect();
//! assert_eq!(names, ["N", "CB"]);
//! for residue in store.residues().rev() {
//!     println!("{} {:?}: {} atoms", residue.serial_number(), residue.name(), residue.atom_count());
//! }
//! let side_chain: Vec<_> = store.atoms_with_hierarchy().filter(|h| h.is_sidechain()).collect();
//! assert_eq!(side_chain[0].to_string(), "model 1, chain A, residue 7, ALA, atom 0 CB");
//! # Ok(())
//! # }
//! ```
//!
//! The words can't be lent as texts, so the first reading after an edit reads the whole structure out of them: one pass, and
//! about four fifths of the words' memory again. The next edit drops what was read out. So collect what edits go by, such as
//! [Hit::position], before the first of them, rather than read and edit in turn. A search alone reads nothing out until a hit is
//! taken.
//!
//! What is read out knows no words, so the crate's `find` of a model, chain, residue or conformer is a method of the store that takes
//! the position: [Store::model_find], [Store::chain_find], [Store::residue_find], [Store::conformer_find].
//!
//! Searches find what the crate's find, but for hetero atoms under names of amino acids: [Term::Backbone] and [Term::SideChain] are
//! false there, so the atoms of a soaked free glycine are hits of [Term::Hetero] alone.
//!
//! ## What the crate has and this package leaves out
//!
//! - All that ends in `_mut`, each `set_..`, the constructors, `sort`, `renumber`, `apply_transformation`: words are edited by the
//!   library's proved edits alone, and a change of what was read out would be lost. [Store::set_element] fills in an element that is
//!   missing.
//! - All that begins with `par_`, and the trees of rstar: the package has no dependencies. A store is `Sync`, so threads can share
//!   its atoms.
//! - `distance_wrapping` and the four `overlaps..`: a store has no unit cell, and the package no table of radii.
//! - Remarks, bonds, matrices, unit cell, symmetry, `modification`, `database_reference`, anisotropic factors: a store has no words
//!   for them.
//! - `binary_find_atom` of a model or chain: in the crate it misses atoms that are there, and it panics on an empty chain
//!   (`docs/DIFFERENCES.md`, "Serial lookup"). [Store::binary_find_atom] has a definition that is proved.
//!
//! # Safety
//!
//! What `include/jubrelti.h` asks of a caller in C holds here by the types: each pointer comes with the length of a slice that is
//! borrowed for the call, and one that the call writes is borrowed by `&mut`, so it overlaps no other. No safe code can break this.
#![warn(missing_docs)]
#![deny(unsafe_code, clippy::undocumented_unsafe_blocks)]

mod apply;
mod atom;
mod builder;
mod chain;
mod conformer;
mod edits;
mod elements;
mod error;
#[allow(unsafe_code)]
mod ffi;
mod hierarchy;
mod lines;
mod list;
mod model;
mod new_atom;
mod reading;
mod residue;
mod search;
mod store;
mod structure;
mod tables;
mod text;
mod tree;

pub use apply::Applied;
pub use atom::Atom;
pub use builder::ModelBuilder;
pub use chain::Chain;
pub use conformer::Conformer;
pub use edits::Edited;
pub use elements::Element;
pub use error::Error;
pub use hierarchy::{AtomConformer, AtomConformerResidue, AtomConformerResidueChain, AtomConformerResidueChainModel, Hit, Hits};
pub use hierarchy::{ContainsAtomConformer, ContainsAtomConformerResidue};
pub use hierarchy::{ContainsAtomConformerResidueChain, ContainsAtomConformerResidueChainModel};
pub use list::Edits;
pub use model::Model;
pub use new_atom::NewAtom;
pub use residue::Residue;
pub use search::{Ops, Search, Term};
pub use store::{Store, Words, MAX_RECORDS};

/// The version of these bindings, and of the library that they call: major * 1,000,000 + minor * 1,000 + patch.
pub const VERSION: u64 = 10_000;

// A library of another version may lay out its words or number its refusals in another way. A patch changes neither.
fn check_version() -> Result<(), Error> {
    of_version(ffi::version())
}

fn of_version(library: u64) -> Result<(), Error> {
    if library / 1_000 == VERSION / 1_000 {
        return Ok(());
    }
    Err(Error::OtherVersion { library, package: VERSION })
}

#[cfg(test)]
mod tests {
    use super::*;

    #[test]
    fn another_library_is_refused() {
        assert_eq!(of_version(VERSION), Ok(()));
        assert_eq!(of_version(VERSION + 1), Ok(()));
        assert_eq!(of_version(1_000), Err(Error::OtherVersion { library: 1_000, package: VERSION }));
    }

    #[test]
    fn each_number_and_back() {
        assert_eq!(Error::check(0), Ok(()));
        for number in 1..100 {
            let refusal = Error::check(number).unwrap_err();
            assert_eq!(refusal.number(), Some(number));
            let known = number <= 17 || [22, 23].contains(&number);
            assert_eq!(refusal == Error::Unknown(number), !known);
        }
    }

    // Numbers that `Element` doesn't have, as C can give them.
    #[test]
    fn elements_outside_1_to_118() {
        let mut store = Store::new();
        store.add_model(1).unwrap();
        store.add_atom(0, NewAtom::default(), "A", (1, None), ("GLY", None)).unwrap();
        let mut set = |atom, element| ffi::set_element(store.words_mut(), [0, 0, 0, 0, atom], element).result;
        assert_eq!([0, 119, u64::MAX].map(|element| set(0, element)), [7; 3]);
        assert_eq!([0, 119, u64::MAX].map(|element| set(1, element)), [5; 3]);
        assert_eq!((set(0, 118), set(0, 119)), (0, 7));
    }
}
