// Structures read from PDB lines, and the line at which a text stops being one.
use crate::store::RECORD;
use crate::{check_version, ffi, Error, Store, MAX_RECORDS};
use std::str::FromStr;

// 80 columns and a newline.
const LINE: usize = 81;

impl Store {
    /// The structure of PDB lines, in a store that has room for it and grows.
    ///
    /// It takes exactly the texts that [Store::write_pdb] could write, the empty one too (`docs/FORMATS.md`, "PDB lines"). The models and
    /// atoms are added in the text's order, as by [Store::add_model] and [Store::add_atom]: so equal ids share a chain, a residue and a
    /// conformer. A decimal is the `f64` nearest to it. Any other text is [Error::BadLine], which says where it stops being one.
    ///
    /// ```
    /// use jubrelti::*;
    ///
    /// # fn main() -> Result<(), Error> {
    /// # let mut model = ModelBuilder::new(1);
    /// # model.add_atom(NewAtom::new(false, 1, "N", 1.5, 0.0, -0.25, 1.0, 12.0, "N", 0)?, "A", (7, None), ("ALA", None));
    /// # let mut store = Store::new();
    /// # store.add_model(model)?;
    /// let text = store.write_pdb()?;
    /// let again = Store::read_pdb(&text)?;
    /// assert_eq!(again.atom(0).unwrap().pos(), (1.5, 0.0, -0.25));
    /// assert_eq!(again.write_pdb()?, text);
    ///
    /// let spoilt = text.replace("1.500", "1.5  ");
    /// assert_eq!(Store::read_pdb(&spoilt).unwrap_err(), Error::BadLine { line: 2 });
    /// # Ok(())
    /// # }
    /// ```
    pub fn read_pdb(text: &str) -> Result<Self, Error> {
        check_version()?;
        let text = text.as_bytes();
        let mut words = vec![0; records_enough(text).min(MAX_RECORDS) * RECORD + 1];
        match Error::check(ffi::read_pdb(text, &mut words)) {
            Ok(()) => Ok(Store::of(words)),
            Err(Error::BadText) => Err(Error::BadLine { line: bad_line(text) }),
            Err(refused) => Err(refused),
        }
    }
}

/// By [Store::read_pdb].
impl FromStr for Store {
    type Err = Error;

    fn from_str(text: &str) -> Result<Self, Error> {
        Store::read_pdb(text)
    }
}

// Records enough for the models and atoms of a text. An atom that doesn't stand where the one before it does begins at most a chain, a
// residue and a conformer: so the library needs no exact count, which takes longer where residues are left and come again, unless so many
// exceed a store's limit.
fn records_enough(text: &[u8]) -> usize {
    let mut records = 0;
    let mut last: &[u8] = &[];
    for line in text.chunks_exact(LINE) {
        match line[0] {
            b'M' => {
                records += 1;
                last = &[];
            }
            b'E' => {}
            _ => {
                records += if &line[16..27] == last { 1 } else { 4 };
                last = &line[16..27];
            }
        }
    }
    records
}

// The number of the first line at which a text that the library doesn't take stops being one that it takes. The lines before it are the
// most that are taken once an ENDMDL line closes the model that is open; fewer lines of such a text are taken too.
fn bad_line(text: &[u8]) -> usize {
    let (mut taken, mut most) = (0, text.len() / LINE);
    while taken < most {
        let lines = taken + (most - taken).div_ceil(2);
        if is_taken(&text[..lines * LINE]) {
            taken = lines;
        } else {
            most = lines - 1;
        }
    }
    taken + 1
}

// Whether the library takes some lines, with one that closes their last model.
fn is_taken(lines: &[u8]) -> bool {
    let mut text = lines.to_vec();
    if lines[lines.len() - LINE] != b'E' {
        text.extend(format!("{:80}\n", "ENDMDL").bytes());
    }
    // A store without room is enough to ask, since a bad text is refused before a lack of room.
    Error::check(ffi::read_pdb(&text, &mut [0])) != Err(Error::BadText)
}
