use crate::edits::numbers;
use crate::new_atom::optional;
use crate::reading::Reading;
use crate::{check_version, ffi, Error, Hit, Hits, Search};

// "A record is 12 words"
pub(crate) const RECORD: usize = 12;

/// The most records that a store can hold.
pub const MAX_RECORDS: usize = 100_000;

/// Words in which a structure can be edited.
pub trait Words: AsRef<[u64]> + AsMut<[u64]> + Sized {
    /// Whether an edit that needs more records than the words have room for gets longer ones.
    const GROWS: bool = false;

    /// A copy of a store with room for so many records, and no less than it has.
    #[doc(hidden)]
    fn with_room(_store: &[u64], _records: usize) -> Result<Self, Error> {
        Err(Error::NoCapacity)
    }
}

impl<T: AsRef<[u64]> + AsMut<[u64]> + ?Sized> Words for &mut T {}
impl<const N: usize> Words for [u64; N] {}
impl Words for Box<[u64]> {}

/// These grow, up to [MAX_RECORDS]: a list of edits makes room for what it adds, and a single edit doubles the room.
impl Words for Vec<u64> {
    const GROWS: bool = true;

    fn with_room(store: &[u64], records: usize) -> Result<Self, Error> {
        if records <= room(store) {
            return Ok(store.to_vec());
        }
        check_version()?;
        let mut words = vec![0; records * RECORD + 1];
        Error::check(ffi::copy(store, &mut words))?;
        Ok(words)
    }
}

// How many records a store has room for.
pub(crate) fn room(store: &[u64]) -> usize {
    (store.len() - 1) / RECORD
}

// How many records a store holds: its last word is the index at which they end.
pub(crate) fn records(store: &[u64]) -> usize {
    store[store.len() - 1] as usize / RECORD
}

// The next room of a store that grows, if there can be more.
pub(crate) fn doubled(room: usize) -> Option<usize> {
    Some((room * 2).clamp(1, MAX_RECORDS)).filter(|more| *more > room)
}

/// A structure in a slice of words: models, their chains, residues, conformers and atoms.
///
/// `Store` owns its words, and grows where an edit needs more records than it has room for. `Store<&mut [u64]>` borrows them and stays as
/// long as it is, and `Store<&[u64]>` can only be searched. A structure is built by a [ModelBuilder](crate::ModelBuilder) or a list
/// ([Edits](crate::Edits)), or read from PDB lines ([Store::read_pdb]): single additions check the whole store each time.
///
/// ```
/// use jubrelti::*;
///
/// # fn main() -> Result<(), Error> {
/// let mut owned = Store::with_records(1)?;
/// owned.add_model(1)?;
/// owned.add_model(2)?; // there is room for two now
///
/// let mut words = [0; 13];
/// let mut borrowed = Store::open(&mut words[..])?;
/// borrowed.add_model(1)?;
/// assert_eq!(borrowed.add_model(2), Err(Error::NoCapacity));
/// # Ok(())
/// # }
/// ```
#[derive(Clone)]
pub struct Store<W = Vec<u64>> {
    words: W,
    pub(crate) reading: Reading,
}

impl Store {
    /// An empty structure, which grows. This calls nothing of the library: its version is compared when the store first grows.
    pub fn new() -> Self {
        Store::of(vec![0])
    }

    /// An empty structure with room for `records` models, chains, residues, conformers and atoms together, before it grows.
    pub fn with_records(records: usize) -> Result<Self, Error> {
        if records > MAX_RECORDS {
            return Err(Error::BadLength);
        }
        Store::open(vec![0; records * RECORD + 1])
    }
}

impl Default for Store {
    fn default() -> Self {
        Store::new()
    }
}

impl<W: Words> Store<W> {
    /// An empty structure in the given words, which are all set to 0. They need 12 for each record and one more.
    pub fn open(words: W) -> Result<Self, Error> {
        check_version()?;
        let mut store = Store::of(words);
        Error::check(ffi::open(store.words_mut()))?;
        Ok(store)
    }

    // Every change of the words goes through this call or the next: what was read out of them holds no longer.
    pub(crate) fn words_mut(&mut self) -> &mut [u64] {
        self.reading = Reading::default();
        self.words.as_mut()
    }

    pub(crate) fn replace(&mut self, words: W) {
        *self = Store::of(words);
    }
}

impl<W> Store<W> {
    pub(crate) fn of(words: W) -> Self {
        Store { words, reading: Reading::default() }
    }
}

impl<W: AsRef<[u64]>> Store<W> {
    /// The structure that the words hold, once their layout is checked.
    pub fn from_words(words: W) -> Result<Self, Error> {
        check_version()?;
        let store = Store::of(words);
        Error::check(ffi::check(store.words()))?;
        Ok(store)
    }

    /// The words, laid out as `docs/FORMATS.md` says.
    pub fn words(&self) -> &[u64] {
        self.words.as_ref()
    }

    /// The same structure in the given words, whatever they hold. They may have room for more records, or for fewer.
    pub fn copy_into<V: Words>(&self, mut words: V) -> Result<Store<V>, Error> {
        Error::check(ffi::copy(self.words(), words.as_mut()))?;
        Ok(Store::of(words))
    }

    /// The atoms where the search isn't false.
    ///
    /// ```
    /// use jubrelti::*;
    ///
    /// # fn main() -> Result<(), Error> {
    /// let mut store = Store::with_records(10)?;
    /// store.add_model(1)?;
    /// let n = NewAtom { serial_number: 1, name: "N", element: Some(Element::N), ..NewAtom::default() };
    /// let unknown = NewAtom { serial_number: 2, name: "XX", ..NewAtom::default() };
    /// store.add_atom(0, n, "A", (7, None), ("ALA", None))?;
    /// store.add_atom(0, unknown, "A", (7, None), ("ALA", None))?;
    ///
    /// // An atom without an element may be nitrogen or not, so both searches list it.
    /// assert_eq!(store.find(Term::Element(Element::N))?.len(), 2);
    /// let others: Vec<Hit> = store.find(!Term::Element(Element::N))?.collect();
    /// assert_eq!(others.len(), 1);
    /// assert_eq!(others[0].atom().name(), "XX");
    /// # Ok(())
    /// # }
    /// ```
    pub fn find(&self, search: impl Into<Search>) -> Result<Hits<'_>, Error> {
        self.hits(search.into(), ffi::find)
    }

    /// The atoms of a model where the search isn't false. Terms of models are undecided.
    pub fn model_find(&self, model: usize, search: impl Into<Search>) -> Result<Hits<'_>, Error> {
        self.hits(search.into(), |words, tree, out| ffi::model_find(words, model as u64, tree, out))
    }

    /// The atoms of a chain, `[model, chain]`, where the search isn't false. Terms of models and chains are undecided, as in the
    /// crate's `Chain::find`, so a chain's id excludes nothing.
    ///
    /// ```
    /// use jubrelti::*;
    ///
    /// # fn main() -> Result<(), Error> {
    /// let mut store = Store::new();
    /// store.add_model(1)?;
    /// for (serial_number, name, chain) in [(1, "N", "A"), (2, "CB", "A"), (3, "CB", "B")] {
    ///     store.add_atom(0, NewAtom { serial_number, name, ..NewAtom::default() }, chain, (7, None), ("ALA", None))?;
    /// }
    /// let in_a: Vec<Hit> = store.chain_find([0, 0], Term::SideChain)?.collect();
    /// assert_eq!(in_a.len(), 1);
    /// assert_eq!((in_a[0].chain().id(), in_a[0].position()), ("A", [0, 0, 0, 0, 1]));
    /// assert_eq!(store.chain_find([0, 0], Term::ChainId("B".to_owned()))?.len(), 2);
    /// assert_eq!(store.chain_find([0, 2], Term::SideChain).unwrap_err(), Error::NoPosition);
    /// # Ok(())
    /// # }
    /// ```
    pub fn chain_find(&self, chain: [usize; 2], search: impl Into<Search>) -> Result<Hits<'_>, Error> {
        self.hits(search.into(), |words, tree, out| ffi::chain_find(words, numbers(chain), tree, out))
    }

    /// The atoms of a residue, `[model, chain, residue]`, where the search isn't false. Terms of models, chains and residues are
    /// undecided.
    pub fn residue_find(&self, residue: [usize; 3], search: impl Into<Search>) -> Result<Hits<'_>, Error> {
        self.hits(search.into(), |words, tree, out| ffi::residue_find(words, numbers(residue), tree, out))
    }

    /// The atoms of a conformer, `[model, chain, residue, conformer]`, where the search isn't false. Terms of all levels but the atom's
    /// are undecided, and [Term::Backbone](crate::Term::Backbone) and [Term::SideChain](crate::Term::SideChain) go by the atom
    /// alone, its name and whether it is hetero.
    pub fn conformer_find(&self, conformer: [usize; 4], search: impl Into<Search>) -> Result<Hits<'_>, Error> {
        self.hits(search.into(), |words, tree, out| ffi::conformer_find(words, numbers(conformer), tree, out))
    }

    // A find's hits, from the store's words and the search's.
    fn hits(&self, search: Search, find: impl FnOnce(&[u64], &[u64], &mut [u64]) -> ffi::Find) -> Result<Hits<'_>, Error> {
        let words = self.words();
        let tree = search.nodes()?;
        // Each hit is a record, so this is enough for all.
        let mut out = vec![0; words.len() / RECORD * 5];
        let found = find(words, &tree, &mut out);
        Error::check(found.result)?;
        Ok(Hits::new(words, &self.reading, out, found.hits as usize))
    }

    /// The atom of a serial number and alternative location in the first model.
    ///
    /// It is looked for in the first chain and residue whose first to last serial number spans it, as in a structure whose
    /// serial numbers rise.
    pub fn binary_find_atom(&self, serial_number: usize, alternative_location: Option<&str>) -> Result<Option<Hit<'_>>, Error> {
        let words = self.words();
        let answer = ffi::binary_find_atom(words, serial_number as u64, optional(alternative_location));
        Error::check(answer.result)?;
        Ok((answer.found == 1).then(|| self.reading.hit(words, answer.at)))
    }

    /// The structure as PDB lines: MODEL and ENDMDL around the atoms of each model, 80 columns and a newline each
    /// (`docs/FORMATS.md`, "PDB lines"). Values are rounded to nearest, exact halves to the even digit.
    ///
    /// ```
    /// use jubrelti::*;
    ///
    /// # fn main() -> Result<(), Error> {
    /// let mut model = ModelBuilder::new(1);
    /// model.add_atom(NewAtom::new(false, 1, "N", 1.5, 0.0, -0.25, 1.0, 12.0, "N", 0)?, "A", (7, None), ("ALA", None));
    /// let mut store = Store::new();
    /// store.add_model(model)?;
    /// let text = store.write_pdb()?;
    /// let atom = text.lines().nth(1);
    /// assert_eq!(atom, Some("ATOM      1  N   ALA A   7       1.500   0.000  -0.250  1.00 12.00           N  "));
    /// # Ok(())
    /// # }
    /// ```
    pub fn write_pdb(&self) -> Result<String, Error> {
        // 81 bytes for each atom, and for each model twice.
        let mut text = vec![0; (self.of_kind(1) * 2 + self.of_kind(5)) * 81];
        let written = ffi::write_pdb(self.words(), &mut text);
        Error::check(written.result)?;
        text.truncate(written.length as usize);
        Ok(String::from_utf8(text).expect("the lines are ASCII"))
    }

    // How many records of a kind there are. To read the structure out would take longer.
    pub(crate) fn of_kind(&self, kind: u64) -> usize {
        let words = self.words();
        words.chunks_exact(RECORD).take(records(words)).filter(|record| record[0] == kind).count()
    }
}
