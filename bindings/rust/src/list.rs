// Lists of edits as the library's words (docs/FORMATS.md, "List of edits").
use crate::edits::numbers;
use crate::new_atom::optional;
use crate::{ffi, Element, Error, NewAtom, Search};
use std::fmt;

const ADD_MODEL: u64 = 1;
const ADD_ATOM: u64 = 2;

/// Edits to be made one after another by [Store::apply_all](crate::Store::apply_all) or [Store::apply](crate::Store::apply). Its
/// methods are the store's own, and take the same arguments.
///
/// A list checks the store once, where edits one by one check it each time. Additions are fastest chain by chain.
///
/// ```
/// use jubrelti::*;
///
/// # fn main() -> Result<(), Error> {
/// let ca = NewAtom { serial_number: 1, name: "CA", ..NewAtom::default() };
/// let mut edits = Edits::new();
/// edits.add_model(1).add_atom(0, ca, "A", (7, None), ("ALA", None)).remove_empty(0);
/// let mut store = Store::new();
/// store.apply_all(&edits)?;
/// # Ok(())
/// # }
/// ```
#[derive(Clone, Default)]
pub struct Edits {
    words: Vec<u64>,
    calls: usize,
    // The most records that the additions can make: each counts, whether or not it is refused.
    records: usize,
    // Where the last edit stands in the words, if it is an addition of an atom.
    addition: Option<usize>,
}

enum Part<'a> {
    Text(&'a [u8]),
    Tree(&'a [u64]),
}

impl Part<'_> {
    fn len(&self) -> usize {
        match self {
            Part::Text(text) => text.len(),
            Part::Tree(tree) => tree.len(),
        }
    }
}

impl Edits {
    /// No edit yet.
    pub fn new() -> Self {
        Self::default()
    }

    pub(crate) fn words(&self) -> &[u64] {
        &self.words
    }

    pub(crate) fn calls(&self) -> usize {
        self.calls
    }

    pub(crate) fn records(&self) -> usize {
        self.records
    }

    // The same edits with each atom added to another model.
    pub(crate) fn in_model(mut self, model: usize) -> Self {
        let mut at = 0;
        while at < self.words.len() {
            if self.words[at] == ADD_ATOM {
                self.words[at + 2] = model as u64;
            }
            at += 2 + self.words[at + 1] as usize;
        }
        self
    }

    // "its code, the number n of words behind this header, and those n words: first its numbers, then its parts, each a length and
    // as many words"; "a text as given, a byte to a word"
    fn push(&mut self, code: u64, numbers: &[u64], parts: &[Part]) -> &mut Self {
        let behind = numbers.len() + parts.iter().map(|part| 1 + part.len()).sum::<usize>();
        self.words.reserve(2 + behind);
        self.words.extend([code, behind as u64]);
        self.words.extend(numbers);
        for part in parts {
            self.words.push(part.len() as u64);
            match part {
                Part::Text(text) => self.words.extend(text.iter().map(|byte| u64::from(*byte))),
                Part::Tree(tree) => self.words.extend(*tree),
            }
        }
        self.calls += 1;
        self.addition = None;
        self
    }

    fn push_addition(&mut self, new: &ffi::Addition) -> &mut Self {
        self.records += 1 + self.new_parents(new);
        let at = self.words.len();
        let ffi::NewAtom { serial, x, y, z, occupancy, b_factor, element, charge, hetero } = new.values;
        let place = [new.model, new.residue, new.code.flag, new.location.flag];
        let values = [serial, x, y, z, occupancy, b_factor, element, charge, hetero];
        let parts = [new.chain, new.code.text, new.conformer, new.location.text, new.name].map(Part::Text);
        self.push(ADD_ATOM, &[place.as_slice(), &values].concat(), &parts);
        self.addition = Some(at);
        self
    }

    // How many of its chain, residue and conformer an addition makes at most: those from the outermost on whose ids the addition before it
    // doesn't have, and all three where another edit stands before it. The flags of optional texts tell nothing more: a present code that is
    // empty is refused, and a present location that is empty is an absent one.
    fn new_parents(&self, new: &ffi::Addition) -> usize {
        let Some(at) = self.addition else { return 3 };
        let call = &self.words[at..];
        let [chain, code, conformer, location] = parents(call);
        if call[2] != new.model || !same(chain, new.chain) {
            3
        } else if call[3] != new.residue || !same(code, new.code.text) {
            2
        } else if !same(conformer, new.conformer) || !same(location, new.location.text) {
            1
        } else {
            0
        }
    }

    /// See [Store::add_model](crate::Store::add_model); the model is added without atoms.
    pub fn add_model(&mut self, serial_number: usize) -> &mut Self {
        self.records += 1;
        self.push(ADD_MODEL, &[serial_number as u64], &[])
    }

    /// See [Store::add_atom](crate::Store::add_atom).
    pub fn add_atom(
        &mut self,
        model: usize,
        new_atom: NewAtom,
        chain_id: impl AsRef<str>,
        residue_id: (isize, Option<&str>),
        conformer_id: (impl AsRef<str>, Option<&str>),
    ) -> &mut Self {
        self.push_addition(&new_atom.at(model, chain_id.as_ref(), residue_id, (conformer_id.0.as_ref(), conformer_id.1)))
    }

    /// See [Store::remove_chain](crate::Store::remove_chain).
    pub fn remove_chain(&mut self, position: [usize; 2]) -> &mut Self {
        self.push(3, &numbers(position), &[])
    }

    /// See [Store::remove_residue](crate::Store::remove_residue).
    pub fn remove_residue(&mut self, position: [usize; 3]) -> &mut Self {
        self.push(4, &numbers(position), &[])
    }

    /// See [Store::remove_conformer](crate::Store::remove_conformer).
    pub fn remove_conformer(&mut self, position: [usize; 4]) -> &mut Self {
        self.push(5, &numbers(position), &[])
    }

    /// See [Store::remove_atom](crate::Store::remove_atom).
    pub fn remove_atom(&mut self, position: [usize; 5]) -> &mut Self {
        self.push(6, &numbers(position), &[])
    }

    /// See [Store::remove_chain_by_id](crate::Store::remove_chain_by_id).
    pub fn remove_chain_by_id(&mut self, model: usize, id: impl AsRef<str>) -> &mut Self {
        self.push(7, &[model as u64], &[Part::Text(id.as_ref().as_bytes())])
    }

    /// See [Store::remove_residue_by_id](crate::Store::remove_residue_by_id).
    pub fn remove_residue_by_id(&mut self, chain: [usize; 2], id: (isize, Option<&str>)) -> &mut Self {
        let [model, chain] = numbers(chain);
        let code = optional(id.1);
        self.push(8, &[model, chain, id.0 as u64, code.flag], &[Part::Text(code.text)])
    }

    /// See [Store::remove_conformer_by_id](crate::Store::remove_conformer_by_id).
    pub fn remove_conformer_by_id(&mut self, residue: [usize; 3], id: (&str, Option<&str>)) -> &mut Self {
        let [model, chain, residue] = numbers(residue);
        let location = optional(id.1);
        self.push(9, &[model, chain, residue, location.flag], &[Part::Text(id.0.as_bytes()), Part::Text(location.text)])
    }

    /// See [Store::remove_atom_by_serial_number](crate::Store::remove_atom_by_serial_number).
    pub fn remove_atom_by_serial_number(&mut self, conformer: [usize; 4], serial_number: usize) -> &mut Self {
        let [model, chain, residue, conformer] = numbers(conformer);
        self.push(10, &[model, chain, residue, conformer, serial_number as u64], &[])
    }

    /// See [Store::remove_atoms_by](crate::Store::remove_atoms_by). A search that is too long, or whose text can't be packed, is refused
    /// here.
    pub fn remove_atoms_by(&mut self, model: usize, search: impl Into<Search>) -> Result<&mut Self, Error> {
        let tree = search.into().nodes()?;
        Ok(self.push(11, &[model as u64], &[Part::Tree(&tree)]))
    }

    /// See [Store::remove_empty](crate::Store::remove_empty).
    pub fn remove_empty(&mut self, model: usize) -> &mut Self {
        self.push(12, &[model as u64], &[])
    }

    /// See [Store::join_models](crate::Store::join_models).
    pub fn join_models(&mut self, first: usize, second: usize) -> &mut Self {
        self.push(13, &numbers([first, second]), &[])
    }

    /// See [Store::join_chains](crate::Store::join_chains).
    pub fn join_chains(&mut self, first: [usize; 2], second: [usize; 2]) -> &mut Self {
        self.push(14, &[numbers(first), numbers(second)].concat(), &[])
    }

    /// See [Store::join_residues](crate::Store::join_residues).
    pub fn join_residues(&mut self, first: [usize; 3], second: [usize; 3]) -> &mut Self {
        self.push(15, &[numbers(first), numbers(second)].concat(), &[])
    }

    /// See [Store::join_conformers](crate::Store::join_conformers).
    pub fn join_conformers(&mut self, first: [usize; 4], second: [usize; 4]) -> &mut Self {
        self.push(16, &[numbers(first), numbers(second)].concat(), &[])
    }

    /// See [Store::set_element](crate::Store::set_element).
    pub fn set_element(&mut self, position: [usize; 5], element: Element) -> &mut Self {
        let [model, chain, residue, conformer, atom] = numbers(position);
        self.push(17, &[model, chain, residue, conformer, atom, element.atomic_number() as u64], &[])
    }
}

/// How many edits there are; their words can be a million.
impl fmt::Debug for Edits {
    fn fmt(&self, f: &mut fmt::Formatter<'_>) -> fmt::Result {
        f.debug_struct("Edits").field("edits", &self.calls).finish()
    }
}

// The texts of an addition's parents in its words: chain, insertion code, conformer and location. The header's two numbers and the
// atom's thirteen stand before them.
fn parents(call: &[u64]) -> [&[u64]; 4] {
    let mut parts = &call[15..];
    [(); 4].map(|()| {
        let (text, rest) = parts[1..].split_at(parts[0] as usize);
        parts = rest;
        text
    })
}

fn same(words: &[u64], text: &[u8]) -> bool {
    words.len() == text.len() && words.iter().zip(text).all(|(word, byte)| *word == u64::from(*byte))
}
