use crate::text::Text;
use crate::{tables, Atom};
use std::cmp::Ordering;
use std::fmt;

/// A conformer of a residue, with its atoms.
#[derive(Clone, Debug, PartialEq, Eq)]
pub struct Conformer {
    name: Text,
    alternative_location: Option<Text>,
    pub(crate) atoms: Vec<Atom>,
}

impl Conformer {
    pub(crate) fn read(record: &[u64], atoms: Vec<Atom>) -> Self {
        Conformer { name: Text::read(record[1]), alternative_location: Text::optional(record[2]), atoms }
    }

    /// Its name.
    pub fn name(&self) -> &str {
        self.name.as_str()
    }

    /// Its alternative location, if it has one.
    pub fn alternative_location(&self) -> Option<&str> {
        self.alternative_location.as_ref().map(Text::as_str)
    }

    /// Its name and alternative location.
    pub fn id(&self) -> (&str, Option<&str>) {
        (self.name(), self.alternative_location())
    }

    /// Whether its name is that of an amino acid.
    pub fn is_amino_acid(&self) -> bool {
        tables::is_amino_acid(self.name())
    }

    /// How many atoms it has.
    pub fn atom_count(&self) -> usize {
        self.atoms.len()
    }

    /// Its atom at an index.
    pub fn atom(&self, index: usize) -> Option<&Atom> {
        self.atoms.get(index)
    }

    /// Its atom of a serial number, by a binary search: it asks that the serial numbers rise.
    pub fn binary_find_atom(&self, serial_number: usize) -> Option<&Atom> {
        let found = self.atoms.binary_search_by_key(&serial_number, Atom::serial_number);
        found.ok().map(|i| &self.atoms[i])
    }

    /// Its atoms.
    pub fn atoms(&self) -> impl DoubleEndedIterator<Item = &Atom> + '_ {
        self.atoms.iter()
    }
}

impl fmt::Display for Conformer {
    fn fmt(&self, f: &mut fmt::Formatter<'_>) -> fmt::Result {
        write!(f, "CONFORMER ID:{:?}, Atoms:{}", self.id(), self.atoms.len())
    }
}

impl PartialOrd for Conformer {
    fn partial_cmp(&self, other: &Self) -> Option<Ordering> {
        Some(self.cmp(other))
    }
}

/// By name and alternative location.
impl Ord for Conformer {
    fn cmp(&self, other: &Self) -> Ordering {
        self.id().cmp(&other.id())
    }
}
