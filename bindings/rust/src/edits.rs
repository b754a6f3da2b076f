// The edits one by one, each of which checks the whole store first.
use crate::new_atom::optional;
use crate::store::{doubled, room};
use crate::{ffi, Element, Error, NewAtom, Search, Store, Words};

/// What an accepted edit did.
#[derive(Clone, Copy, Debug, PartialEq, Eq)]
pub struct Edited {
    /// False where a removal by id found nothing, and where an element was to be set and the atom had one.
    pub found: bool,
    /// How many atoms went.
    pub removed: usize,
}

impl Edited {
    pub(crate) fn read(answer: ffi::Edit) -> Result<Self, Error> {
        Error::check(answer.result)?;
        Ok(Edited { found: answer.found == 1, removed: answer.removed as usize })
    }
}

pub(crate) fn numbers<const N: usize>(position: [usize; N]) -> [u64; N] {
    position.map(|i| i as u64)
}

/// The edits. A position is its indexes from 0, from the model down: `[model, chain, residue, conformer, atom]`.
impl<W: Words> Store<W> {
    // What has no room is tried again on longer copies, of which the one that has it is kept.
    pub(crate) fn edit(&mut self, call: impl Fn(&mut [u64]) -> ffi::Edit) -> Result<Edited, Error> {
        let mut answer = Edited::read(call(self.words_mut()));
        let mut records = room(self.words());
        while let (true, Err(Error::NoCapacity), Some(more)) = (W::GROWS, &answer, doubled(records)) {
            let mut longer = W::with_room(self.words(), more)?;
            answer = Edited::read(call(longer.as_mut()));
            records = more;
            if answer.is_ok() {
                self.replace(longer);
            }
        }
        answer
    }

    /// Adds an atom to the first chain, the last residue in it and the first conformer in that with these ids; what is missing is
    /// made. Insertion code and alternative location are trimmed and raised to capitals, then looked for; a bad or
    /// blank location is an absent one.
    ///
    /// Each addition by this call checks the whole store, so that 50,000 atoms one by one take some 33 s. A
    /// [ModelBuilder](crate::ModelBuilder) or a list ([Edits](crate::Edits)) checks it once, and is fastest where the additions go chain
    /// by chain.
    pub fn add_atom(
        &mut self,
        model: usize,
        new_atom: NewAtom,
        chain_id: impl AsRef<str>,
        residue_id: (isize, Option<&str>),
        conformer_id: (impl AsRef<str>, Option<&str>),
    ) -> Result<Edited, Error> {
        let new = new_atom.at(model, chain_id.as_ref(), residue_id, (conformer_id.0.as_ref(), conformer_id.1));
        self.edit(|store| ffi::add_atom(store, &new))
    }

    /// Removes a chain.
    pub fn remove_chain(&mut self, position: [usize; 2]) -> Result<Edited, Error> {
        self.edit(|store| ffi::remove_chain(store, numbers(position)))
    }

    /// Removes a residue.
    pub fn remove_residue(&mut self, position: [usize; 3]) -> Result<Edited, Error> {
        self.edit(|store| ffi::remove_residue(store, numbers(position)))
    }

    /// Removes a conformer.
    pub fn remove_conformer(&mut self, position: [usize; 4]) -> Result<Edited, Error> {
        self.edit(|store| ffi::remove_conformer(store, numbers(position)))
    }

    /// Removes an atom.
    pub fn remove_atom(&mut self, position: [usize; 5]) -> Result<Edited, Error> {
        self.edit(|store| ffi::remove_atom(store, numbers(position)))
    }

    /// Removes the first chain of a model with this id, compared as given.
    pub fn remove_chain_by_id(&mut self, model: usize, id: impl AsRef<str>) -> Result<Edited, Error> {
        self.edit(|store| ffi::remove_chain_by_id(store, model as u64, id.as_ref().as_bytes()))
    }

    /// Removes the first residue of a chain with this serial number and insertion code, compared as given.
    pub fn remove_residue_by_id(&mut self, chain: [usize; 2], id: (isize, Option<&str>)) -> Result<Edited, Error> {
        self.edit(|store| ffi::remove_residue_by_id(store, numbers(chain), id.0 as u64, optional(id.1)))
    }

    /// Removes the first conformer of a residue with this name and alternative location, compared as given.
    pub fn remove_conformer_by_id(&mut self, residue: [usize; 3], id: (&str, Option<&str>)) -> Result<Edited, Error> {
        self.edit(|store| ffi::remove_conformer_by_id(store, numbers(residue), id.0.as_bytes(), optional(id.1)))
    }

    /// Removes the first atom of a conformer with this serial number.
    pub fn remove_atom_by_serial_number(&mut self, conformer: [usize; 4], serial_number: usize) -> Result<Edited, Error> {
        self.edit(|store| ffi::remove_atom_by_serial_number(store, numbers(conformer), serial_number as u64))
    }

    /// Removes the atoms of a model where the search is true by what the atom alone tells. Terms of the levels above are undecided
    /// then, and an undecided atom stays.
    pub fn remove_atoms_by(&mut self, model: usize, search: impl Into<Search>) -> Result<Edited, Error> {
        let tree = search.into().nodes()?;
        self.edit(|store| ffi::remove_atoms_by(store, model as u64, &tree))
    }

    /// Removes the conformers, residues and chains of a model that hold no atoms.
    pub fn remove_empty(&mut self, model: usize) -> Result<Edited, Error> {
        self.edit(|store| ffi::remove_empty(store, model as u64))
    }

    /// Puts the second's chains after the first's, and removes the second. Nothing is merged.
    pub fn join_models(&mut self, first: usize, second: usize) -> Result<Edited, Error> {
        self.edit(|store| ffi::join_models(store, first as u64, second as u64))
    }

    /// Puts the second's residues after the first's, and removes the second. Nothing is merged.
    pub fn join_chains(&mut self, first: [usize; 2], second: [usize; 2]) -> Result<Edited, Error> {
        self.edit(|store| ffi::join_chains(store, numbers(first), numbers(second)))
    }

    /// Puts the second's conformers after the first's, and removes the second. Nothing is merged.
    pub fn join_residues(&mut self, first: [usize; 3], second: [usize; 3]) -> Result<Edited, Error> {
        self.edit(|store| ffi::join_residues(store, numbers(first), numbers(second)))
    }

    /// Puts the second's atoms after the first's, and removes the second. Nothing is merged.
    pub fn join_conformers(&mut self, first: [usize; 4], second: [usize; 4]) -> Result<Edited, Error> {
        self.edit(|store| ffi::join_conformers(store, numbers(first), numbers(second)))
    }

    /// Sets an atom's element where it is missing. Where the atom has one, nothing changes and [Edited::found] is false: no edit
    /// overwrites an element.
    ///
    /// A search then lists the same atoms as before, or all of them but this one. No record moves, so the positions of other atoms
    /// stay as they are.
    ///
    /// ```
    /// use jubrelti::*;
    ///
    /// # fn main() -> Result<(), Error> {
    /// # let mut store = Store::new();
    /// # store.add_model(1)?;
    /// # store.add_atom(0, NewAtom { name: "N", element: Some(Element::N), ..NewAtom::default() }, "A", (7, None), ("LIG", None))?;
    /// # store.add_atom(0, NewAtom { name: "X1", ..NewAtom::default() }, "A", (7, None), ("LIG", None))?;
    /// // An atom without an element is a hit of such a term and of its opposite, and no other atom is a hit of both.
    /// let unknown = Term::Element(Element::S) & !Term::Element(Element::S);
    /// let positions: Vec<[usize; 5]> = store.find(unknown.clone())?.map(|hit| hit.position()).collect();
    /// for position in positions {
    ///     assert!(store.set_element(position, Element::S)?.found);
    ///     assert!(!store.set_element(position, Element::Se)?.found);
    /// }
    /// assert_eq!(store.find(unknown)?.len(), 0);
    /// # assert_eq!(store.atoms().map(|a| a.element().copied()).collect::<Vec<_>>(), [Some(Element::N), Some(Element::S)]);
    /// # Ok(())
    /// # }
    /// ```
    pub fn set_element(&mut self, position: [usize; 5], element: Element) -> Result<Edited, Error> {
        self.edit(|store| ffi::set_element(store, numbers(position), element.atomic_number() as u64))
    }
}
