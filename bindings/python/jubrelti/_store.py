"""The store: words that it owns, and the calls on them."""

from __future__ import annotations

import ctypes
import sys
from array import array
from collections.abc import Sequence as SequenceABC
from typing import Any, NamedTuple, Optional, Sequence, Tuple, Union

from . import _library as library
from . import _values as values
from ._edits import Applied, Edited, Editing, Edits, Position
from ._errors import NUMBERS, Error, LineError, check, refusal
from ._hierarchy import HIT, RECORD, Atom, Chain, Conformer, Hit, Hits, Model, Parts, Residue
from ._lines import LINE, bad_line, records_enough
from ._search import Search, tree

MAX_RECORDS = 100_000

# How a buffer's format may say that its words are in this machine's order.
_NATIVE = "@=<" if sys.byteorder == "little" else "@=>"


class Counts(NamedTuple):
    """How many parts of each level a store holds."""

    models: int
    chains: int
    residues: int
    conformers: int
    atoms: int


def _zeros(words: int) -> "array[int]":
    return array("Q", bytes(8 * words))


def _room(words: "array[int]") -> int:
    """The capacity: how many records the words have room for."""
    return (len(words) - 1) // RECORD


def _length(records: int) -> int:
    """The words of a store with room for so many records. More than a store can have are refused before they are made."""
    if records > MAX_RECORDS:
        raise Error(NUMBERS["BadLength"])
    return records * RECORD + 1


def _longer(words: "array[int]", needed: int = 0) -> int:
    """The length with twice the room, or with room for the records needed if that is more, as far as a store can have it."""
    return _length(min(max(_room(words) * 2, 1, needed), MAX_RECORDS))


def _copied(words: "array[int]", length: int) -> "array[int]":
    """The structure in other words of a length, which has room for it."""
    to = _zeros(length)
    check(library.copy_store(*library.lend(words), *library.lend(to)))
    return to


def _own(words: Any) -> "array[int]":
    """The one copy of words that are given."""
    try:
        view = memoryview(words)
    except TypeError:
        if isinstance(words, str) or not isinstance(words, SequenceABC):
            raise TypeError(
                f"the words of a store are a buffer of 64-bit words or a sequence of whole numbers, not {type(words).__name__}"
            ) from None
        return _numbers(words)
    if view.itemsize != 8 or view.ndim != 1:
        raise TypeError(
            f"words have 8 bytes each and stand in a row, and these have {view.itemsize} in {view.ndim} dimensions; give bytes as "
            "memoryview(them).cast('Q')"
        )
    # Unsigned words of this machine are copied as they are. Others are read as numbers, of which some have no word.
    if not view.contiguous or view.format.lstrip(_NATIVE) not in ("Q", "L"):
        return _numbers(words)
    own = array("Q")
    own.frombytes(view.cast("B"))
    return own


def _numbers(words: Sequence[Any]) -> "array[int]":
    return array("Q", [values.number(word, "a word of a store") for word in words])


def _applied(words: "array[int]", edits: Edits) -> "array[int]":
    """Makes a list of edits on the words. "An answer is three words in the output: result, found, removed." """
    out = _zeros(3 * len(edits))
    check(library.apply(*library.lend(words), *library.lend(edits._words), *library.lend(out)).result)
    return out


def _answer(result: int, found: int, removed: int) -> Union[Edited, Error]:
    return refusal(result) if result else Edited(found == 1, removed)


class Store(Editing[Edited]):
    """A structure: models, their chains, residues, conformers and atoms.

    It owns its words and grows where an edit needs more records than it has room for: the room is doubled, up to 100,000 records.
    `Store(records)` is empty, with room for so many records before it grows.

    A single edit checks the whole store first. Build a structure by a list of edits, which checks it once: see `Edits`.

    Stores are equal when they hold the same records, whatever room they have. One thread at a time may use a store.
    """

    __slots__ = ("_words", "_edition", "__weakref__")

    def __init__(self, records: int = 0) -> None:
        self._take(_zeros(_length(values.number(records, "the number of records"))))
        check(library.open_store(*library.lend(self._words)))

    def _take(self, words: "array[int]") -> None:
        self._words = words
        # Hits remember this object and are stale once there is another. No copy of a store or of a hit can have the same by chance, as
        # it could a number.
        self._edition = object()

    @classmethod
    def _of(cls, words: "array[int]") -> Store:
        store = cls.__new__(cls)
        store._take(words)
        return store

    @classmethod
    def from_words(cls, words: Any) -> Store:
        """The structure that the words hold, once their layout is checked: a buffer of 64-bit words, as an `array('Q')` or a NumPy
        array, or a sequence of whole numbers. They are copied once.
        """
        own = _own(words)
        check(library.check_store(*library.lend(own)))
        return cls._of(own)

    def copy(self, records: int = 0) -> Store:
        """A store of its own with the same structure, and room for so many records or as many as it holds."""
        room = max(values.number(records, "the number of records"), self._used())
        return self._of(_copied(self._words, _length(room)))

    def __reduce__(self) -> Any:
        return Store.from_words, (self._words[:],)

    def __eq__(self, other: object) -> bool:
        if not isinstance(other, Store):
            return NotImplemented
        return self._records_in_use() == other._records_in_use()

    def __repr__(self) -> str:
        counted = ", ".join(f"{level} {count:,}" for level, count in zip(Counts._fields, self.counts))
        return f"<Store: {counted}; room for {self.capacity:,} records>"

    # ---- what it holds

    def _used(self) -> int:
        """The trailer holds the word index at which the records end."""
        return self._words[-1] // RECORD

    def _records_in_use(self) -> memoryview:
        return memoryview(self._words)[: self._words[-1]]

    @property
    def capacity(self) -> int:
        """How many records there is room for before the store grows."""
        return _room(self._words)

    @property
    def words(self) -> memoryview:
        """The words, laid out as docs/FORMATS.md says: a read-only view of format 'Q', without a copy.

        It shows the words as they are edited in place. After the store grew, or took a list of edits, it shows those from before.
        """
        return memoryview(self._words).toreadonly()

    @property
    def records(self) -> Any:
        """The records in use as a NumPy array of n rows of 12 words, uint64: a read-only view, as `words` is, without a copy."""
        try:
            import numpy
        except ImportError as error:
            raise ImportError("records is a NumPy array, and NumPy isn't installed; install it, or use words") from error
        return numpy.frombuffer(self.words, dtype=numpy.uint64, count=self._words[-1]).reshape(-1, RECORD)

    @property
    def counts(self) -> Counts:
        """How many parts of each level it holds."""
        kinds = self._words[: self._words[-1] : RECORD]
        return Counts(*(kinds.count(kind) for kind in range(1, 6)))

    @property
    def models(self) -> Parts[Model]:
        """Its models."""
        return Parts(self, self._edition, (), Model)

    @property
    def chains(self) -> Parts[Chain]:
        """The chains of all models."""
        return Parts(self, self._edition, (), Chain)

    @property
    def residues(self) -> Parts[Residue]:
        """The residues of all models."""
        return Parts(self, self._edition, (), Residue)

    @property
    def conformers(self) -> Parts[Conformer]:
        """The conformers of all models."""
        return Parts(self, self._edition, (), Conformer)

    @property
    def atoms(self) -> Parts[Atom]:
        """The atoms of all models."""
        return Parts(self, self._edition, (), Atom)

    # ---- searches

    def find(self, search: Search) -> Hits:
        """The atoms where the search isn't false, in hierarchy order.

        Undecided counts as a hit: an atom without an element may be nitrogen or not, so `Element("N")` and `~Element("N")` both list
        it. `Element("N") & AtomName("N")` leaves it out where its name is another.
        """
        return self._find((), search)

    def model_find(self, model: int, search: Search) -> Hits:
        """The atoms of a model where the search isn't false. Terms of models are undecided."""
        return self._find((values.number(model, "the model's index"),), search)

    def chain_find(self, chain: Position, search: Search) -> Hits:
        """The atoms of a chain, `(model, chain)`, where the search isn't false. Terms of models and chains are undecided, so a
        chain's id excludes nothing.
        """
        return self._find(values.position(chain, "a chain", 2), search)

    def residue_find(self, residue: Position, search: Search) -> Hits:
        """The atoms of a residue, `(model, chain, residue)`, where the search isn't false. Terms of models, chains and residues are
        undecided.
        """
        return self._find(values.position(residue, "a residue", 3), search)

    def conformer_find(self, conformer: Position, search: Search) -> Hits:
        """The atoms of a conformer, `(model, chain, residue, conformer)`, where the search isn't false. Terms of all levels but the
        atom's are undecided, and `Backbone()` and `SideChain()` go by the atom alone, its name and whether it is hetero.
        """
        return self._find(values.position(conformer, "a conformer", 4), search)

    def _find(self, start: Tuple[int, ...], search: Search) -> Hits:
        nodes = tree(search)
        # Each hit is a record, so this is enough for all.
        out = _zeros(self._used() * HIT)
        found = library.FINDS[len(start)](*library.lend(self._words), *start, *library.lend(nodes), *library.lend(out))
        check(found.result)
        return Hits(self, self._edition, out[: found.hits * HIT])

    def binary_find_atom(self, serial_number: int, alternative_location: Optional[str] = None) -> Optional[Hit]:
        """The atom of a serial number and alternative location in the first model, or None.

        It is looked for in the first chain and residue whose first to last serial number spans it, as in a structure whose serial
        numbers rise.
        """
        serial = values.number(serial_number, "the atom's serial number")
        flag, location = values.optional(alternative_location, "the alternative location")
        answer = library.binary_find_atom(*library.lend(self._words), serial, flag, location, len(location))
        check(answer.result)
        return Hit(self, self._edition, tuple(answer.records)) if answer.found else None

    # ---- lines

    def write_pdb(self) -> str:
        """The structure as PDB lines: MODEL and ENDMDL around the atoms of each model, 80 columns and a newline each (docs/FORMATS.md,
        "PDB lines"). Values are rounded to nearest, exact halves to the even digit.
        """
        counts = self.counts
        # A line for each atom, and for each model two.
        out = (ctypes.c_uint8 * ((2 * counts.models + counts.atoms) * LINE))()
        written = library.write_pdb(*library.lend(self._words), out, len(out))
        check(written.result)
        return bytes(out[: written.length]).decode("ascii")

    @classmethod
    def read_pdb(cls, text: str) -> Store:
        """The structure of PDB lines, in a store that has room for it and grows.

        It takes exactly the texts that `write_pdb` could write, the empty one too. The models and atoms are added in the text's order,
        so equal ids share a chain, a residue and a conformer. A decimal is the float nearest to it. Any other text is a `LineError`,
        which says at which line it stops being one.
        """
        if not isinstance(text, str):
            raise TypeError(f"PDB lines are a text, not {type(text).__name__}")
        # What isn't ASCII stands in no line, and the library says so, of a lone surrogate too.
        given = text.encode(errors="surrogatepass")
        words = _zeros(_length(min(records_enough(given), MAX_RECORDS)))
        result = library.read_pdb(given, len(given), *library.lend(words))
        if result == NUMBERS["BadText"]:
            raise LineError(bad_line(given))
        check(result)
        return cls._of(words)

    # ---- edits

    def _edit(self, code: int, numbers: Sequence[int], parts: Sequence[Any] = ()) -> Edited:
        arguments = library.edit_arguments(code, numbers, parts)
        answer = library.EDITS[code](*library.lend(self._words), *arguments)
        # A refusal has changed nothing, so what has no room is tried again on a longer copy.
        while answer.result == NUMBERS["NoCapacity"] and self.capacity < MAX_RECORDS:
            self._words = _copied(self._words, _longer(self._words))
            answer = library.EDITS[code](*library.lend(self._words), *arguments)
        check(answer.result)
        if answer.found:
            self._edition = object()
        return Edited(answer.found == 1, answer.removed)

    def apply_all(self, edits: Edits) -> Tuple[Edited, ...]:
        """Makes all edits of a list in their order, or none: if one is refused, the store is as before, and `EditError` says which one
        and why. A list that is refused as a whole, with an edit of over 1,024 words, is an `Error`.
        """
        words, applied = self._made(edits)
        answers = applied.all()
        self._keep(words, applied)
        return answers

    def apply(self, edits: Edits) -> Applied:
        """Makes the edits of a list in their order and gives the answer of each; a refused one changes nothing, and the next follows."""
        words, applied = self._made(edits)
        self._keep(words, applied)
        return applied

    def _keep(self, words: "array[int]", applied: Applied) -> None:
        self._words = words
        if any(isinstance(answer, Edited) and answer.found for answer in applied.answers):
            self._edition = object()

    def _made(self, edits: Edits) -> Tuple["array[int]", Applied]:
        """The words of a copy with room for the list's additions, on which the list was made."""
        if not isinstance(edits, Edits):
            raise TypeError(f"a list of edits is an Edits, not {edits!r}")
        needed = self._used() + edits._records
        words = _copied(self._words, len(self._words) if needed <= self.capacity else _longer(self._words, needed))
        answers = _applied(words, edits)
        return words, Applied(tuple(map(_answer, answers[::3], answers[1::3], answers[2::3])))
