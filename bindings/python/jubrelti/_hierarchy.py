"""The parts of a structure, read out of the store's words, and hits, which name one of each level.

All of them read the store when they are asked. They know the edition of the store that they were made for, and after an edit they raise
`StaleHitError` instead, since other records may stand in their place.
"""

from __future__ import annotations

import operator
from array import array
from itertools import islice
from typing import TYPE_CHECKING, Any, Generic, Iterator, Optional, Sequence, Tuple, Type, TypeVar, Union, overload

from . import _values as values
from ._errors import StaleHitError

if TYPE_CHECKING:
    from ._store import Store

# "A record is 12 words"
RECORD = 12
# "A hit is five words"
HIT = 5


class _Records:
    """Record numbers from the model down, in a store of one edition."""

    __slots__ = ("_store", "_edition", "_records")

    def __init__(self, store: Store, edition: object, records: Tuple[int, ...]) -> None:
        self._store = store
        self._edition = edition
        self._records = records

    def _words(self) -> "array[int]":
        if self._store._edition is not self._edition:
            raise StaleHitError
        return self._store._words

    def _word(self, index: int) -> int:
        return self._words()[self._records[-1] * RECORD + index]

    @property
    def records(self) -> Tuple[int, ...]:
        """The record numbers in the store, from the model down."""
        self._words()
        return self._records

    @property
    def position(self) -> Tuple[int, ...]:
        """The indexes that the edits take, from the model down."""
        words = self._words()
        # A part's index is the number of its level's records between its parent's and its own.
        spans = zip((0, *self._records), self._records)
        return tuple(words[start * RECORD : end * RECORD : RECORD].count(kind) for kind, (start, end) in enumerate(spans, 1))

    def __eq__(self, other: object) -> bool:
        if not isinstance(other, _Records) or type(self) is not type(other):
            return NotImplemented
        return self._edition is other._edition and self._records == other._records

    def __hash__(self) -> int:
        return hash((type(self), self._records))

    def __repr__(self) -> str:
        if self._store._edition is not self._edition:
            return f"<{type(self).__name__} of a store that was edited since>"
        return f"<{type(self).__name__} {self._label()}>"

    def _label(self) -> str:
        raise NotImplementedError


class _Part(_Records):
    __slots__ = ()

    def _parts(self, kind: Type[P]) -> Parts[P]:
        return Parts(self._store, self._edition, self._records, kind)


P = TypeVar("P", bound=_Part)


class Atom(_Part):
    """An atom in the store."""

    __slots__ = ()

    @property
    def serial_number(self) -> int:
        """Its serial number."""
        return self._word(1)

    @property
    def name(self) -> str:
        """Its name."""
        return values.as_text(self._word(2))

    @property
    def x(self) -> float:
        """X in Å."""
        return values.as_float(self._word(3))

    @property
    def y(self) -> float:
        """Y in Å."""
        return values.as_float(self._word(4))

    @property
    def z(self) -> float:
        """Z in Å."""
        return values.as_float(self._word(5))

    @property
    def pos(self) -> Tuple[float, float, float]:
        """X, y and z in Å."""
        return self.x, self.y, self.z

    @property
    def occupancy(self) -> float:
        """Its occupancy."""
        return values.as_float(self._word(6))

    @property
    def b_factor(self) -> float:
        """Its B-factor."""
        return values.as_float(self._word(7))

    @property
    def element(self) -> Optional[str]:
        """The symbol of its element, or None where it is missing."""
        return values.as_element(self._word(8))

    @property
    def charge(self) -> int:
        """Its charge."""
        return values.as_signed(self._word(9))

    @property
    def hetero(self) -> bool:
        """Whether it is a hetero atom."""
        return self._word(10) == 1

    def _label(self) -> str:
        return f"{self.name!r}, serial number {self.serial_number}"


class Conformer(_Part):
    """A conformer in the store."""

    __slots__ = ()

    @property
    def name(self) -> str:
        """Its name."""
        return values.as_text(self._word(1))

    @property
    def alternative_location(self) -> Optional[str]:
        """Its alternative location, if it has one."""
        return values.as_optional(self._word(2))

    @property
    def id(self) -> Tuple[str, Optional[str]]:
        """Its name and alternative location."""
        return self.name, self.alternative_location

    @property
    def atoms(self) -> Parts[Atom]:
        """Its atoms."""
        return self._parts(Atom)

    def _label(self) -> str:
        return repr(self.id)


class Residue(_Part):
    """A residue in the store."""

    __slots__ = ()

    @property
    def serial_number(self) -> int:
        """Its serial number."""
        return values.as_signed(self._word(1))

    @property
    def insertion_code(self) -> Optional[str]:
        """Its insertion code, if it has one."""
        return values.as_optional(self._word(2))

    @property
    def id(self) -> Tuple[int, Optional[str]]:
        """Its serial number and insertion code."""
        return self.serial_number, self.insertion_code

    @property
    def conformers(self) -> Parts[Conformer]:
        """Its conformers."""
        return self._parts(Conformer)

    @property
    def atoms(self) -> Parts[Atom]:
        """Its atoms."""
        return self._parts(Atom)

    def _label(self) -> str:
        return repr(self.id)


class Chain(_Part):
    """A chain in the store."""

    __slots__ = ()

    @property
    def id(self) -> str:
        """Its id."""
        return values.as_text(self._word(1))

    @property
    def residues(self) -> Parts[Residue]:
        """Its residues."""
        return self._parts(Residue)

    @property
    def conformers(self) -> Parts[Conformer]:
        """Its conformers."""
        return self._parts(Conformer)

    @property
    def atoms(self) -> Parts[Atom]:
        """Its atoms."""
        return self._parts(Atom)

    def _label(self) -> str:
        return repr(self.id)


class Model(_Part):
    """A model in the store."""

    __slots__ = ()

    @property
    def serial_number(self) -> int:
        """Its serial number."""
        return self._word(1)

    @property
    def chains(self) -> Parts[Chain]:
        """Its chains."""
        return self._parts(Chain)

    @property
    def residues(self) -> Parts[Residue]:
        """Its residues."""
        return self._parts(Residue)

    @property
    def conformers(self) -> Parts[Conformer]:
        """Its conformers."""
        return self._parts(Conformer)

    @property
    def atoms(self) -> Parts[Atom]:
        """Its atoms."""
        return self._parts(Atom)

    def _label(self) -> str:
        return str(self.serial_number)


KINDS = {Model: 1, Chain: 2, Residue: 3, Conformer: 4, Atom: 5}


class Parts(Generic[P]):
    """The parts of one level in a store or in a part of it, in hierarchy order. They are read as they are asked for: `len` counts them,
    and an index goes through those before it.
    """

    __slots__ = ("_parent", "_kind")

    def __init__(self, store: Store, edition: object, records: Tuple[int, ...], kind: Type[P]) -> None:
        self._parent = _Records(store, edition, records)
        self._kind = kind

    def _span(self) -> Tuple[int, int]:
        """The records below the parent: they end at the first of its own level or above."""
        words = self._parent._words()
        path = self._parent._records
        end = words[-1] // RECORD
        if not path:
            return 0, end
        record = path[-1] + 1
        while record < end and words[record * RECORD] > len(path):
            record += 1
        return path[-1] + 1, record

    def __len__(self) -> int:
        start, end = self._span()
        return self._parent._words()[start * RECORD : end * RECORD : RECORD].count(KINDS[self._kind])

    def __iter__(self) -> Iterator[P]:
        parent, wanted = self._parent, KINDS[self._kind]
        path = list(parent._records)
        for record in range(*self._span()):
            # Each step asks again, since the store may be edited between two of them.
            level = parent._words()[record * RECORD]
            path[level - 1 :] = [record]
            if level == wanted:
                yield self._kind(parent._store, parent._edition, tuple(path))

    def __getitem__(self, index: int) -> P:
        place = operator.index(index)
        if place < 0:
            place += len(self)
        part = next(islice(self, place, None), None) if place >= 0 else None
        if part is None:
            raise IndexError(f"there is no {self._kind.__name__.lower()} at index {index}")
        return part

    def __repr__(self) -> str:
        return f"<Parts of type {self._kind.__name__}>"


class Hit(_Records):
    """An atom with what it stands in, pdbtbx's `AtomConformerResidueChainModel`."""

    __slots__ = ()

    def _part(self, kind: Type[P]) -> P:
        self._words()
        return kind(self._store, self._edition, self._records[: KINDS[kind]])

    @property
    def model(self) -> Model:
        """The model."""
        return self._part(Model)

    @property
    def chain(self) -> Chain:
        """The chain."""
        return self._part(Chain)

    @property
    def residue(self) -> Residue:
        """The residue."""
        return self._part(Residue)

    @property
    def conformer(self) -> Conformer:
        """The conformer."""
        return self._part(Conformer)

    @property
    def atom(self) -> Atom:
        """The atom."""
        return self._part(Atom)

    def _label(self) -> str:
        parts = (self.model, self.chain, self.residue, self.conformer, self.atom)
        return ", ".join(f"{level} {part._label()}" for level, part in zip(values.LEVELS, parts))


class Hits(Sequence[Hit]):
    """The hits of a search, in hierarchy order and each once."""

    __slots__ = ("_store", "_edition", "_numbers")

    def __init__(self, store: Store, edition: object, numbers: "array[int]") -> None:
        self._store = store
        self._edition = edition
        self._numbers = numbers

    def __len__(self) -> int:
        return len(self._numbers) // HIT

    @overload
    def __getitem__(self, index: int) -> Hit: ...

    @overload
    def __getitem__(self, index: slice) -> Hits: ...

    def __getitem__(self, index: Union[int, slice]) -> Any:
        chosen = range(len(self))[index]
        if isinstance(chosen, int):
            return Hit(self._store, self._edition, tuple(self._numbers[chosen * HIT : chosen * HIT + HIT]))
        numbers = array("Q")
        for hit in chosen:
            numbers.extend(self._numbers[hit * HIT : hit * HIT + HIT])
        return Hits(self._store, self._edition, numbers)

    @property
    def numbers(self) -> memoryview:
        """The record numbers, five for each hit from the model down, as a read-only view of format 'Q'."""
        if self._store._edition is not self._edition:
            raise StaleHitError
        return memoryview(self._numbers).toreadonly()

    def __repr__(self) -> str:
        return f"<Hits: {len(self):,}>"
