// pdbtbx's hierarchy.rs without what is mutable: an atom with what it stands in.
use crate::reading::Reading;
use crate::{Atom, Chain, Conformer, Model, Residue};
use std::fmt;
use std::ops::Range;

/// An atom and its conformer.
#[derive(Clone, Copy)]
pub struct AtomConformer<'a> {
    atom: &'a Atom,
    conformer: &'a Conformer,
}

/// An atom, its conformer and its residue.
#[derive(Clone, Copy)]
pub struct AtomConformerResidue<'a> {
    atom: &'a Atom,
    conformer: &'a Conformer,
    residue: &'a Residue,
}

/// An atom, its conformer, residue and chain.
#[derive(Clone, Copy)]
pub struct AtomConformerResidueChain<'a> {
    atom: &'a Atom,
    conformer: &'a Conformer,
    residue: &'a Residue,
    chain: &'a Chain,
}

/// An atom with all that it stands in, which the crate calls [AtomConformerResidueChainModel].
///
/// What it lends lives as long as the structure, not only as long as the hit:
///
/// ```
/// # use jubrelti::*;
/// fn names(store: &Store) -> Result<Vec<&str>, Error> {
///     Ok(store.find(Term::Backbone)?.map(|hit| hit.atom().name()).collect())
/// }
/// ```
#[derive(Clone, Copy)]
pub struct Hit<'a> {
    pub(crate) records: [u32; 5],
    pub(crate) position: [u32; 5],
    pub(crate) model: &'a Model,
    pub(crate) chain: &'a Chain,
    pub(crate) residue: &'a Residue,
    pub(crate) conformer: &'a Conformer,
    pub(crate) atom: &'a Atom,
}

/// The crate's name of a [Hit].
pub type AtomConformerResidueChainModel<'a> = Hit<'a>;

impl<'a> AtomConformer<'a> {
    pub(crate) fn new(atom: &'a Atom, conformer: &'a Conformer) -> Self {
        AtomConformer { atom, conformer }
    }

    pub(crate) fn extend(self, residue: &'a Residue) -> AtomConformerResidue<'a> {
        AtomConformerResidue { atom: self.atom, conformer: self.conformer, residue }
    }
}

impl<'a> AtomConformerResidue<'a> {
    pub(crate) fn extend(self, chain: &'a Chain) -> AtomConformerResidueChain<'a> {
        AtomConformerResidueChain { atom: self.atom, conformer: self.conformer, residue: self.residue, chain }
    }
}

impl Hit<'_> {
    /// The record numbers in the store, from the model down.
    pub fn records(&self) -> [usize; 5] {
        self.records.map(|r| r as usize)
    }

    /// The indexes from the model down, as the edits take them. A removal moves what stands behind it, so these go from the last to
    /// the first:
    ///
    /// ```
    /// # use jubrelti::*;
    /// # fn main() -> Result<(), Error> {
    /// # let mut store = Store::with_records(10)?;
    /// # store.add_model(1)?;
    /// # store.add_atom(0, NewAtom { name: "N", ..NewAtom::default() }, "A", (7, None), ("ALA", None))?;
    /// # store.add_atom(0, NewAtom { name: "CB", ..NewAtom::default() }, "A", (7, None), ("ALA", None))?;
    /// # store.add_atom(0, NewAtom { name: "CA", ..NewAtom::default() }, "A", (7, None), ("ALA", None))?;
    /// let positions: Vec<[usize; 5]> = store.find(Term::Backbone)?.map(|hit| hit.position()).collect();
    /// for position in positions.into_iter().rev() {
    ///     store.remove_atom(position)?;
    /// }
    /// # assert_eq!(store.atoms().map(|a| a.name()).collect::<Vec<_>>(), ["CB"]);
    /// # Ok(())
    /// # }
    /// ```
    pub fn position(&self) -> [usize; 5] {
        self.position.map(|i| i as usize)
    }
}

/// What has an atom and its conformer.
pub trait ContainsAtomConformer {
    /// The atom.
    fn atom(&self) -> &Atom;

    /// The conformer.
    fn conformer(&self) -> &Conformer;

    /// Whether the atom belongs to the backbone of an amino acid, by its name and the conformer's, as in pdbtbx. So it may be a hetero
    /// atom, which [Term::Backbone](crate::Term::Backbone) leaves out.
    fn is_backbone(&self) -> bool {
        self.conformer().is_amino_acid() && self.atom().is_backbone()
    }

    /// Whether the atom belongs to the side chain of an amino acid, by the two names alone too.
    fn is_sidechain(&self) -> bool {
        self.conformer().is_amino_acid() && !self.atom().is_backbone()
    }
}

/// What has a residue too.
pub trait ContainsAtomConformerResidue: ContainsAtomConformer {
    /// The residue.
    fn residue(&self) -> &Residue;
}

/// What has a chain too.
pub trait ContainsAtomConformerResidueChain: ContainsAtomConformerResidue {
    /// The chain.
    fn chain(&self) -> &Chain;
}

/// What has a model too.
pub trait ContainsAtomConformerResidueChainModel: ContainsAtomConformerResidueChain {
    /// The model.
    fn model(&self) -> &Model;
}

// The crate's traits lend for as long as the hierarchy lives; the types' own methods lend for as long as the structure does.
macro_rules! lends {
    ($trait:ident: $($part:ident $level:ident),*; $($type:ident)*) => {
        lends!(@ $trait [$($part $level),*] $($type)*);
    };
    (@ $trait:ident $parts:tt $($type:ident)*) => {
        $(lends!(@@ $trait $type $parts);)*
    };
    (@@ $trait:ident $type:ident [$($part:ident $level:ident),*]) => {
        impl<'a> $type<'a> {
            $(#[doc = concat!("The ", stringify!($part), ".")]
            pub fn $part(&self) -> &'a $level {
                self.$part
            })*
        }

        impl $trait for $type<'_> {
            $(fn $part(&self) -> &$level {
                self.$part
            })*
        }
    };
}

lends!(ContainsAtomConformer: atom Atom, conformer Conformer;
    AtomConformer AtomConformerResidue AtomConformerResidueChain Hit);
lends!(ContainsAtomConformerResidue: residue Residue; AtomConformerResidue AtomConformerResidueChain Hit);
lends!(ContainsAtomConformerResidueChain: chain Chain; AtomConformerResidueChain Hit);
lends!(ContainsAtomConformerResidueChainModel: model Model; Hit);

// Debug shows a line of names and numbers: a derived one would print all that the levels hold.
macro_rules! compared_and_shown {
    ($($type:ident)*) => {
        $(
            /// By the atom's serial number and the conformer's alternative location, as in the crate.
            impl PartialEq for $type<'_> {
                fn eq(&self, other: &Self) -> bool {
                    self.atom.serial_number() == other.atom.serial_number()
                        && self.conformer.alternative_location() == other.conformer.alternative_location()
                }
            }

            impl Eq for $type<'_> {}

            impl fmt::Debug for $type<'_> {
                fn fmt(&self, f: &mut fmt::Formatter<'_>) -> fmt::Result {
                    write!(f, "{}({self})", stringify!($type))
                }
            }
        )*
    };
}

compared_and_shown!(AtomConformer AtomConformerResidue AtomConformerResidueChain Hit);

impl fmt::Display for AtomConformer<'_> {
    fn fmt(&self, f: &mut fmt::Formatter<'_>) -> fmt::Result {
        f.write_str(self.conformer.name())?;
        if let Some(location) = self.conformer.alternative_location() {
            write!(f, " at {location}")?;
        }
        write!(f, ", atom {} {}", self.atom.serial_number(), self.atom.name())
    }
}

impl fmt::Display for AtomConformerResidue<'_> {
    fn fmt(&self, f: &mut fmt::Formatter<'_>) -> fmt::Result {
        let (number, code) = self.residue.id();
        write!(f, "residue {number}{}, {}", code.unwrap_or(""), AtomConformer::new(self.atom, self.conformer))
    }
}

impl fmt::Display for AtomConformerResidueChain<'_> {
    fn fmt(&self, f: &mut fmt::Formatter<'_>) -> fmt::Result {
        let below = AtomConformer::new(self.atom, self.conformer).extend(self.residue);
        write!(f, "chain {}, {below}", self.chain.id())
    }
}

/// One line, as `model 1, chain A, residue 7B, ALA at A, atom 2 CA`.
impl fmt::Display for Hit<'_> {
    fn fmt(&self, f: &mut fmt::Formatter<'_>) -> fmt::Result {
        let below = AtomConformer::new(self.atom, self.conformer).extend(self.residue).extend(self.chain);
        write!(f, "model {}, {below}", self.model.serial_number())
    }
}

/// The hits of a search, in hierarchy order and each once. They borrow the store, since the next edit may move its records:
///
/// ```compile_fail,E0502
/// # use jubrelti::*;
/// # let mut store = Store::with_records(10).unwrap();
/// let hits = store.find(Term::Backbone).unwrap();
/// store.add_model(1).unwrap();
/// println!("{}", hits.len());
/// ```
///
/// The structure is read out when the first hit is taken, so the number of hits alone doesn't cost that.
#[derive(Clone)]
pub struct Hits<'a> {
    store: &'a [u64],
    reading: &'a Reading,
    words: Vec<u64>,
    left: Range<usize>,
}

impl<'a> Hits<'a> {
    // "Five words for each"
    pub(crate) fn new(store: &'a [u64], reading: &'a Reading, words: Vec<u64>, count: usize) -> Self {
        Hits { store, reading, words, left: 0..count }
    }

    fn hit(&self, i: usize) -> Hit<'a> {
        self.reading.hit(self.store, std::array::from_fn(|word| self.words[i * 5 + word]))
    }
}

impl fmt::Debug for Hits<'_> {
    fn fmt(&self, f: &mut fmt::Formatter<'_>) -> fmt::Result {
        f.debug_list().entries(self.clone()).finish()
    }
}

impl<'a> Iterator for Hits<'a> {
    type Item = Hit<'a>;

    fn next(&mut self) -> Option<Hit<'a>> {
        self.left.next().map(|i| self.hit(i))
    }

    fn size_hint(&self) -> (usize, Option<usize>) {
        self.left.size_hint()
    }
}

impl DoubleEndedIterator for Hits<'_> {
    fn next_back(&mut self) -> Option<Self::Item> {
        self.left.next_back().map(|i| self.hit(i))
    }
}

impl ExactSizeIterator for Hits<'_> {}
