use crate::edits::Edited;
use crate::{ffi, Edits, Error, NewAtom, Store, Words};

/// A model to be added with all its atoms, by [Store::add_model]. Its calls are those of pdbtbx's `Model`.
///
/// The store is checked once for the whole model, where [Store::add_atom] checks it for each atom: 50,000 atoms one by one take some 33 s.
/// Additions are fastest chain by chain. Nothing is checked before the model is added, and then all its atoms are added or none.
///
/// ```
/// use jubrelti::*;
///
/// # fn main() -> Result<(), Error> {
/// let mut model = ModelBuilder::new(1);
/// model.add_atom(NewAtom::new(false, 1, "N", 0.0, 0.0, 0.0, 1.0, 12.0, "N", 0)?, "A", (7, None), ("ALA", None));
/// model.add_atom(NewAtom::new(false, 2, "CA", 1.5, 0.0, 0.0, 1.0, 12.5, "C", 0)?, "A", (7, None), ("ALA", None));
///
/// let mut store = Store::new();
/// store.add_model(model)?;
/// assert_eq!(store.find(Search::Known(true))?.len(), 2);
/// # Ok(())
/// # }
/// ```
#[derive(Clone, Debug)]
#[must_use = "the model is in no store before Store::add_model takes it"]
pub struct ModelBuilder {
    serial_number: usize,
    // The model itself is the first edit, and each other adds an atom.
    edits: Edits,
}

impl ModelBuilder {
    /// A model without atoms.
    pub fn new(serial_number: usize) -> Self {
        let mut edits = Edits::new();
        edits.add_model(serial_number);
        ModelBuilder { serial_number, edits }
    }

    /// Adds an atom to the first chain, the last residue in it and the first conformer in that with these ids, as [Store::add_atom]
    /// does. A bad id or value is refused when the model is added to a store.
    pub fn add_atom(
        &mut self,
        new_atom: NewAtom,
        chain_id: impl AsRef<str>,
        residue_id: (isize, Option<&str>),
        conformer_id: (impl AsRef<str>, Option<&str>),
    ) {
        self.edits.add_atom(0, new_atom, chain_id, residue_id, conformer_id);
    }
}

/// A model of this serial number without atoms.
impl From<usize> for ModelBuilder {
    fn from(serial_number: usize) -> Self {
        ModelBuilder::new(serial_number)
    }
}

impl<W: Words> Store<W> {
    /// Adds a model after the others: one with all its atoms, or an empty one by its serial number.
    ///
    /// All atoms are added or none. The first that is refused is [Error::Edit] with its index in the builder, from 0.
    ///
    /// ```
    /// use jubrelti::*;
    ///
    /// # fn main() -> Result<(), Error> {
    /// let mut store = Store::new();
    /// store.add_model(1)?;
    ///
    /// let mut model = ModelBuilder::new(2);
    /// model.add_atom(NewAtom::default(), "A", (1, None), ("GLY", None));
    /// model.add_atom(NewAtom { x: f64::NAN, ..NewAtom::default() }, "A", (1, None), ("GLY", None));
    /// assert_eq!(store.add_model(model), Err(Error::Edit { index: 1, cause: Box::new(Error::BadValue) }));
    /// # Ok(())
    /// # }
    /// ```
    pub fn add_model(&mut self, model: impl Into<ModelBuilder>) -> Result<Edited, Error> {
        let ModelBuilder { serial_number, edits } = model.into();
        if edits.calls() == 1 {
            return self.edit(|store| ffi::add_model(store, serial_number as u64));
        }
        let edited = self.apply_all(&edits.in_model(self.of_kind(1))).map_err(of_atom)?;
        Ok(edited[0])
    }
}

// The refusal of an edit as that of its atom, whose index is one lower since the model is the first edit.
fn of_atom(refused: Error) -> Error {
    match refused {
        Error::Edit { index: 0, cause } => *cause,
        Error::Edit { index, cause } => Error::Edit { index: index - 1, cause },
        whole => whole,
    }
}
