use crate::text::Text;
use crate::{Atom, AtomConformer, Conformer};
use std::cmp::Ordering;
use std::fmt;

/// A residue of a chain, with its conformers.
#[derive(Clone, Debug, PartialEq, Eq)]
pub struct Residue {
    serial_number: isize,
    insertion_code: Option<Text>,
    pub(crate) conformers: Vec<Conformer>,
}

impl Residue {
    pub(crate) fn read(record: &[u64], conformers: Vec<Conformer>) -> Self {
        Residue { serial_number: record[1] as isize, insertion_code: Text::optional(record[2]), conformers }
    }

    /// Its serial number.
    pub fn serial_number(&self) -> isize {
        self.serial_number
    }

    /// Its insertion code, if it has one.
    pub fn insertion_code(&self) -> Option<&str> {
        self.insertion_code.as_ref().map(Text::as_str)
    }

    /// Its serial number and insertion code.
    pub fn id(&self) -> (isize, Option<&str>) {
        (self.serial_number, self.insertion_code())
    }

    /// The name that all of its conformers have, if there are any and they have the same.
    pub fn name(&self) -> Option<&str> {
        let name = self.conformers.first()?.name();
        self.conformers.iter().all(|c| c.name() == name).then_some(name)
    }

    /// How many conformers it has.
    pub fn conformer_count(&self) -> usize {
        self.conformers.len()
    }

    /// How many atoms its conformers have together.
    pub fn atom_count(&self) -> usize {
        self.conformers.iter().map(Conformer::atom_count).sum()
    }

    /// Its conformer at an index.
    pub fn conformer(&self, index: usize) -> Option<&Conformer> {
        self.conformers.get(index)
    }

    /// The atom at an index, counted through all of its conformers.
    pub fn atom(&self, index: usize) -> Option<&Atom> {
        self.atoms().nth(index)
    }

    /// The atom of a serial number in the first conformer of an alternative location that has it. Each such conformer is searched
    /// as [Conformer::binary_find_atom] does, if its first and last serial number span the number.
    pub fn binary_find_atom(&self, serial_number: usize, alternative_location: Option<&str>) -> Option<AtomConformer<'_>> {
        let there = self.conformers.iter().filter(|c| c.alternative_location() == alternative_location);
        let mut spanning = there.filter(|c| match (c.atoms.first(), c.atoms.last()) {
            (Some(first), Some(last)) => (first.serial_number()..=last.serial_number()).contains(&serial_number),
            _ => false,
        });
        spanning.find_map(|c| c.binary_find_atom(serial_number).map(|a| AtomConformer::new(a, c)))
    }

    /// Its conformers.
    pub fn conformers(&self) -> impl DoubleEndedIterator<Item = &Conformer> + '_ {
        self.conformers.iter()
    }

    /// The atoms of its conformers.
    pub fn atoms(&self) -> impl DoubleEndedIterator<Item = &Atom> + '_ {
        self.conformers().flat_map(Conformer::atoms)
    }

    /// The atoms, each with its conformer.
    pub fn atoms_with_hierarchy(&self) -> impl DoubleEndedIterator<Item = AtomConformer<'_>> + '_ {
        self.conformers().flat_map(|c| c.atoms().map(move |a| AtomConformer::new(a, c)))
    }
}

impl fmt::Display for Residue {
    fn fmt(&self, f: &mut fmt::Formatter<'_>) -> fmt::Result {
        let code = self.insertion_code().unwrap_or("");
        write!(f, "RESIDUE Number:{}, InsertionCode:{code}, Conformers:{}", self.serial_number, self.conformers.len())
    }
}

impl PartialOrd for Residue {
    fn partial_cmp(&self, other: &Self) -> Option<Ordering> {
        Some(self.cmp(other))
    }
}

/// By serial number and insertion code.
impl Ord for Residue {
    fn cmp(&self, other: &Self) -> Ordering {
        self.id().cmp(&other.id())
    }
}
