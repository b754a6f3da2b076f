// pdbtbx's PDB, as far as it reads.
use crate::structure::Structure;
use crate::{Atom, Chain, Conformer, Hit, Model, Residue, Store};
use std::collections::HashMap;
use std::fmt;
use std::sync::OnceLock;

// A store's words read out, at the first reading after an edit. Whoever lends the words to be changed puts an empty one in its place.
#[derive(Default)]
pub struct Reading(OnceLock<Structure>);

impl Reading {
    fn of(&self, words: &[u64]) -> &Structure {
        self.0.get_or_init(|| Structure::read(words))
    }

    // The words and record numbers are the library's.
    pub fn hit(&self, words: &[u64], records: [u64; 5]) -> Hit<'_> {
        self.of(words).hit(records.map(|r| r as u32))
    }
}

/// A copied store is read out anew, if it is read at all.
impl Clone for Reading {
    fn clone(&self) -> Self {
        Reading::default()
    }
}

/// Reading, under the crate's names: what its `PDB` lends, a store lends for as long as it is not edited.
///
/// The first call after an edit reads the whole structure out of the words, in one pass; the next edit drops it.
impl<W: AsRef<[u64]>> Store<W> {
    fn structure(&self) -> &Structure {
        self.reading.of(self.words())
    }

    /// How many models there are.
    pub fn model_count(&self) -> usize {
        self.structure().models.len()
    }

    /// How many chains the first model has.
    pub fn chain_count(&self) -> usize {
        self.model(0).map_or(0, Model::chain_count)
    }

    /// How many residues the first model has.
    pub fn residue_count(&self) -> usize {
        self.model(0).map_or(0, Model::residue_count)
    }

    /// How many conformers the first model has.
    pub fn conformer_count(&self) -> usize {
        self.model(0).map_or(0, Model::conformer_count)
    }

    /// How many atoms the first model has.
    pub fn atom_count(&self) -> usize {
        self.model(0).map_or(0, Model::atom_count)
    }

    /// How many chains all models have together.
    pub fn total_chain_count(&self) -> usize {
        self.models().map(Model::chain_count).sum()
    }

    /// How many residues all models have together.
    pub fn total_residue_count(&self) -> usize {
        self.models().map(Model::residue_count).sum()
    }

    /// How many conformers all models have together.
    pub fn total_conformer_count(&self) -> usize {
        self.models().map(Model::conformer_count).sum()
    }

    /// How many atoms all models have together.
    pub fn total_atom_count(&self) -> usize {
        self.models().map(Model::atom_count).sum()
    }

    /// The model at an index.
    pub fn model(&self, index: usize) -> Option<&Model> {
        self.structure().models.get(index)
    }

    /// The chain at an index, counted through all models.
    pub fn chain(&self, index: usize) -> Option<&Chain> {
        self.chains().nth(index)
    }

    /// The residue at an index, counted through all models.
    pub fn residue(&self, index: usize) -> Option<&Residue> {
        self.residues().nth(index)
    }

    /// The conformer at an index, counted through all models.
    pub fn conformer(&self, index: usize) -> Option<&Conformer> {
        self.conformers().nth(index)
    }

    /// The atom at an index, counted through all models.
    pub fn atom(&self, index: usize) -> Option<&Atom> {
        self.atoms().nth(index)
    }

    /// The models.
    pub fn models(&self) -> impl DoubleEndedIterator<Item = &Model> + '_ {
        self.structure().models.iter()
    }

    /// The chains of all models.
    pub fn chains(&self) -> impl DoubleEndedIterator<Item = &Chain> + '_ {
        self.models().flat_map(Model::chains)
    }

    /// The residues of all models.
    pub fn residues(&self) -> impl DoubleEndedIterator<Item = &Residue> + '_ {
        self.models().flat_map(Model::residues)
    }

    /// The conformers of all models.
    pub fn conformers(&self) -> impl DoubleEndedIterator<Item = &Conformer> + '_ {
        self.models().flat_map(Model::conformers)
    }

    /// The atoms of all models.
    pub fn atoms(&self) -> impl DoubleEndedIterator<Item = &Atom> + '_ {
        self.models().flat_map(Model::atoms)
    }

    /// The atoms of all models, each with all that it stands in.
    pub fn atoms_with_hierarchy(&self) -> impl DoubleEndedIterator<Item = Hit<'_>> + '_ {
        self.structure().hits()
    }

    /// The lowest and the highest x, y and z of all atoms. Without atoms they are `f64::MAX` and `f64::MIN`.
    pub fn bounding_box(&self) -> ((f64, f64, f64), (f64, f64, f64)) {
        let (mut low, mut high) = ([f64::MAX; 3], [f64::MIN; 3]);
        for (x, y, z) in self.atoms().map(Atom::pos) {
            for (i, value) in [x, y, z].into_iter().enumerate() {
                if value < low[i] {
                    low[i] = value;
                }
                if value > high[i] {
                    high[i] = value;
                }
            }
        }
        (low.into(), high.into())
    }

    /// Of each chain id the ids of the other chains that have an atom nearer than the distance in Å to one of its atoms.
    pub fn chains_in_contact(&self, distance: f64) -> HashMap<String, Vec<String>> {
        let mut contacts = HashMap::new();
        for chain in self.chains() {
            for other in self.chains().filter(|other| other.id() != chain.id()) {
                if chain.atoms().any(|a| other.atoms().any(|b| a.distance(b) < distance)) {
                    let ids: &mut Vec<String> = contacts.entry(chain.id().to_owned()).or_default();
                    if !ids.iter().any(|id| id == other.id()) {
                        ids.push(other.id().to_owned());
                    }
                }
            }
        }
        contacts
    }

    /// The names of all conformers, each once, in the order of `str`.
    pub fn unique_conformer_names(&self) -> Vec<String> {
        let mut names: Vec<&str> = self.conformers().map(Conformer::name).collect();
        names.sort_unstable();
        names.dedup();
        names.into_iter().map(str::to_owned).collect()
    }
}

/// As the crate writes a `PDB`.
impl<W: AsRef<[u64]>> fmt::Display for Store<W> {
    fn fmt(&self, f: &mut fmt::Formatter<'_>) -> fmt::Result {
        write!(f, "PDB Models: {}", self.model_count())
    }
}

/// The structure by names and numbers, not the words.
impl<W: AsRef<[u64]>> fmt::Debug for Store<W> {
    fn fmt(&self, f: &mut fmt::Formatter<'_>) -> fmt::Result {
        f.debug_struct("Store").field("models", &self.structure().models).finish()
    }
}
