// Lists of edits made in one call.
use crate::store::{records, room};
use crate::{ffi, Edited, Edits, Error, Store, Words, MAX_RECORDS};

/// The answers of a list's edits, in their order.
///
/// A list doesn't stop at a refused edit, so the answers say what was lost. The compiler warns where nobody asks them:
///
/// ```compile_fail
/// #![deny(unused_must_use)]
/// # use jubrelti::*;
/// # fn main() -> Result<(), Error> {
/// let mut store = Store::new();
/// store.apply(Edits::new().add_model(1))?;
/// # Ok(())
/// # }
/// ```
///
/// ```
/// #![deny(unused_must_use)]
/// # use jubrelti::*;
/// # fn main() -> Result<(), Error> {
/// let mut store = Store::new();
/// store.apply(Edits::new().add_model(1))?.all()?;
/// # Ok(())
/// # }
/// ```
#[derive(Clone, Debug, PartialEq, Eq)]
#[must_use = "a refused edit of the list shows here alone; `.all()?` makes it an error"]
pub struct Applied {
    answers: Vec<Result<Edited, Error>>,
}

impl Applied {
    /// What each edit did, or the first refusal as [Error::Edit].
    pub fn all(self) -> Result<Vec<Edited>, Error> {
        let by_index = self.answers.into_iter().enumerate();
        by_index.map(|(index, answer)| answer.map_err(|cause| Error::Edit { index, cause: Box::new(cause) })).collect()
    }

    /// The refused edits: the index of each in the list, from 0, and why it was refused.
    pub fn refused(&self) -> impl Iterator<Item = (usize, &Error)> + '_ {
        self.answers.iter().enumerate().filter_map(|(index, answer)| Some((index, answer.as_ref().err()?)))
    }

    /// The answer of each edit.
    pub fn answers(&self) -> &[Result<Edited, Error>] {
        &self.answers
    }
}

impl IntoIterator for Applied {
    type Item = Result<Edited, Error>;
    type IntoIter = std::vec::IntoIter<Self::Item>;

    fn into_iter(self) -> Self::IntoIter {
        self.answers.into_iter()
    }
}

impl<W: Words> Store<W> {
    /// Makes all edits in their order, or none: at a refusal the store is as it was, and the error is [Error::Edit] with the edit's
    /// index.
    ///
    /// ```
    /// use jubrelti::*;
    ///
    /// # fn main() -> Result<(), Error> {
    /// let mut store = Store::new();
    /// let mut edits = Edits::new();
    /// edits.add_model(1).add_atom(0, NewAtom::default(), "too long a chain", (1, None), ("GLY", None));
    /// let refused = store.apply_all(&edits);
    /// assert_eq!(refused, Err(Error::Edit { index: 1, cause: Box::new(Error::BadIdentifier) }));
    /// assert_eq!(store.words(), [0]);
    /// # Ok(())
    /// # }
    /// ```
    pub fn apply_all(&mut self, edits: &Edits) -> Result<Vec<Edited>, Error> {
        if W::GROWS {
            let (words, applied) = self.apply_to_copy(edits)?;
            let edited = applied.all()?;
            self.replace(words);
            return Ok(edited);
        }
        let before = self.words().to_vec();
        let edited = apply_once(self.words_mut(), edits)?.all();
        if edited.is_err() {
            self.words_mut().copy_from_slice(&before);
        }
        edited
    }

    /// Makes the edits in their order and gives the answer of each; a refused one changes nothing, and the next follows. Where all of
    /// them are to be made or none, [Store::apply_all] is the call.
    ///
    /// A store that can grow makes room for the list's additions first.
    pub fn apply(&mut self, edits: &Edits) -> Result<Applied, Error> {
        if !W::GROWS {
            return apply_once(self.words_mut(), edits);
        }
        let (words, applied) = self.apply_to_copy(edits)?;
        self.replace(words);
        Ok(applied)
    }

    // A copy that has room for the list, with the edits made, and their answers.
    fn apply_to_copy(&self, edits: &Edits) -> Result<(W, Applied), Error> {
        let needed = (records(self.words()) + edits.records()).clamp(room(self.words()), MAX_RECORDS);
        let mut words = W::with_room(self.words(), needed)?;
        let applied = apply_once(words.as_mut(), edits)?;
        Ok((words, applied))
    }
}

fn apply_once(store: &mut [u64], edits: &Edits) -> Result<Applied, Error> {
    let mut out = vec![0; edits.calls() * 3];
    let applied = ffi::apply(store, edits.words(), &mut out);
    Error::check(applied.result)?;
    // "An answer is three words in the output, in the order of the calls: result, found, removed."
    let answers = out.chunks_exact(3).map(|a| Edited::read(ffi::Edit { result: a[0], found: a[1], removed: a[2] })).collect();
    Ok(Applied { answers })
}
