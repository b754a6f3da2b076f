use crate::text::Text;
use crate::{Atom, AtomConformerResidue, Conformer, Residue};
use std::cmp::Ordering;
use std::fmt;

/// A chain of a model, with its residues.
#[derive(Clone, Debug, PartialEq, Eq)]
pub struct Chain {
    id: Text,
    pub(crate) residues: Vec<Residue>,
}

impl Chain {
    pub(crate) fn read(record: &[u64], residues: Vec<Residue>) -> Self {
        Chain { id: Text::read(record[1]), residues }
    }

    /// Its id.
    pub fn id(&self) -> &str {
        self.id.as_str()
    }

    /// How many residues it has.
    pub fn residue_count(&self) -> usize {
        self.residues.len()
    }

    /// How many conformers its residues have together.
    pub fn conformer_count(&self) -> usize {
        self.residues.iter().map(Residue::conformer_count).sum()
    }

    /// How many atoms its residues have together.
    pub fn atom_count(&self) -> usize {
        self.residues.iter().map(Residue::atom_count).sum()
    }

    /// Its residue at an index.
    pub fn residue(&self, index: usize) -> Option<&Residue> {
        self.residues.get(index)
    }

    /// The conformer at an index, counted through all of its residues.
    pub fn conformer(&self, index: usize) -> Option<&Conformer> {
        self.conformers().nth(index)
    }

    /// The atom at an index, counted through all of its residues.
    pub fn atom(&self, index: usize) -> Option<&Atom> {
        self.atoms().nth(index)
    }

    /// Its residues.
    pub fn residues(&self) -> impl DoubleEndedIterator<Item = &Residue> + '_ {
        self.residues.iter()
    }

    /// The conformers of its residues.
    pub fn conformers(&self) -> impl DoubleEndedIterator<Item = &Conformer> + '_ {
        self.residues().flat_map(Residue::conformers)
    }

    /// The atoms of its residues.
    pub fn atoms(&self) -> impl DoubleEndedIterator<Item = &Atom> + '_ {
        self.residues().flat_map(Residue::atoms)
    }

    /// The atoms, each with its conformer and residue.
    pub fn atoms_with_hierarchy(&self) -> impl DoubleEndedIterator<Item = AtomConformerResidue<'_>> + '_ {
        self.residues().flat_map(|r| r.atoms_with_hierarchy().map(move |h| h.extend(r)))
    }
}

impl fmt::Display for Chain {
    fn fmt(&self, f: &mut fmt::Formatter<'_>) -> fmt::Result {
        write!(f, "CHAIN ID:{}, Residues: {}", self.id(), self.residues.len())
    }
}

impl PartialOrd for Chain {
    fn partial_cmp(&self, other: &Self) -> Option<Ordering> {
        Some(self.cmp(other))
    }
}

/// By id.
impl Ord for Chain {
    fn cmp(&self, other: &Self) -> Ordering {
        self.id().cmp(other.id())
    }
}
