use crate::{Atom, AtomConformerResidueChain, Chain, Conformer, Residue};
use std::cmp::Ordering;
use std::fmt;

/// A model of the structure, with its chains.
#[derive(Clone, Debug, PartialEq, Eq)]
pub struct Model {
    serial_number: usize,
    pub(crate) chains: Vec<Chain>,
}

impl Model {
    pub(crate) fn read(record: &[u64], chains: Vec<Chain>) -> Self {
        Model { serial_number: record[1] as usize, chains }
    }

    /// Its serial number.
    pub fn serial_number(&self) -> usize {
        self.serial_number
    }

    /// How many chains it has.
    pub fn chain_count(&self) -> usize {
        self.chains.len()
    }

    /// How many residues its chains have together.
    pub fn residue_count(&self) -> usize {
        self.chains.iter().map(Chain::residue_count).sum()
    }

    /// How many conformers its chains have together.
    pub fn conformer_count(&self) -> usize {
        self.chains.iter().map(Chain::conformer_count).sum()
    }

    /// How many atoms its chains have together.
    pub fn atom_count(&self) -> usize {
        self.chains.iter().map(Chain::atom_count).sum()
    }

    /// Its chain at an index.
    pub fn chain(&self, index: usize) -> Option<&Chain> {
        self.chains.get(index)
    }

    /// The residue at an index, counted through all of its chains.
    pub fn residue(&self, index: usize) -> Option<&Residue> {
        self.residues().nth(index)
    }

    /// The conformer at an index, counted through all of its chains.
    pub fn conformer(&self, index: usize) -> Option<&Conformer> {
        self.conformers().nth(index)
    }

    /// The atom at an index, counted through all of its chains.
    pub fn atom(&self, index: usize) -> Option<&Atom> {
        self.atoms().nth(index)
    }

    /// Its chains.
    pub fn chains(&self) -> impl DoubleEndedIterator<Item = &Chain> + '_ {
        self.chains.iter()
    }

    /// The residues of its chains.
    pub fn residues(&self) -> impl DoubleEndedIterator<Item = &Residue> + '_ {
        self.chains().flat_map(Chain::residues)
    }

    /// The conformers of its chains.
    pub fn conformers(&self) -> impl DoubleEndedIterator<Item = &Conformer> + '_ {
        self.chains().flat_map(Chain::conformers)
    }

    /// The atoms of its chains.
    pub fn atoms(&self) -> impl DoubleEndedIterator<Item = &Atom> + '_ {
        self.chains().flat_map(Chain::atoms)
    }

    /// The atoms, each with its conformer, residue and chain.
    pub fn atoms_with_hierarchy(&self) -> impl DoubleEndedIterator<Item = AtomConformerResidueChain<'_>> + '_ {
        self.chains().flat_map(|c| c.atoms_with_hierarchy().map(move |h| h.extend(c)))
    }
}

impl fmt::Display for Model {
    fn fmt(&self, f: &mut fmt::Formatter<'_>) -> fmt::Result {
        write!(f, "MODEL SerialNumber:{}, Chains: {}", self.serial_number, self.chains.len())
    }
}

impl PartialOrd for Model {
    fn partial_cmp(&self, other: &Self) -> Option<Ordering> {
        Some(self.cmp(other))
    }
}

/// By serial number.
impl Ord for Model {
    fn cmp(&self, other: &Self) -> Ordering {
        self.serial_number.cmp(&other.serial_number)
    }
}
