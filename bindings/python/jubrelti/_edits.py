"""The seventeen edits: their arguments as words, for a call of its own or for a list of edits (docs/FORMATS.md, "List of edits")."""

from __future__ import annotations

import copy
from abc import ABC, abstractmethod
from array import array
from dataclasses import dataclass
from typing import Any, Generic, NamedTuple, Optional, Sequence, Tuple, TypeVar, Union

from . import _values as values
from ._errors import EditError, Error
from ._search import Search, tree

Answer = TypeVar("Answer")
Position = Sequence[int]
ResidueIdentifier = Tuple[int, Optional[str]]
ConformerIdentifier = Tuple[str, Optional[str]]


class Edited(NamedTuple):
    """What an accepted edit did: `found` is False where a removal by id found nothing, and where an element was to be set and the
    atom had one; `removed` is how many atoms went.
    """

    found: bool
    removed: int


@dataclass
class NewAtom:
    """An atom to be added. The element is a symbol, an atomic number, or None for missing."""

    serial_number: int
    name: str
    x: float = 0.0
    y: float = 0.0
    z: float = 0.0
    occupancy: float = 1.0
    b_factor: float = 0.0
    element: Union[str, int, None] = None
    charge: int = 0
    hetero: bool = False

    def _numbers(self) -> Tuple[int, ...]:
        return (
            values.number(self.serial_number, "the atom's serial number"),
            values.float_bits(self.x, "the atom's x"),
            values.float_bits(self.y, "the atom's y"),
            values.float_bits(self.z, "the atom's z"),
            values.float_bits(self.occupancy, "the atom's occupancy"),
            values.float_bits(self.b_factor, "the atom's B-factor"),
            0 if self.element is None else values.element(self.element, "the atom's element"),
            values.signed(self.charge, "the atom's charge"),
            values.truth(self.hetero, "the atom's hetero"),
        )


class Editing(ABC, Generic[Answer]):
    """The edits. A position is its indexes from 0, from the model down: `(model, chain, residue, conformer, atom)`."""

    __slots__ = ()

    @abstractmethod
    def _edit(self, code: int, numbers: Sequence[int], parts: Sequence[Any] = ()) -> Answer:
        """Takes an edit whose numbers and parts stand in the order of a list of edits."""

    def _join(self, code: int, what: str, depth: int, first: Position, second: Position) -> Answer:
        return self._edit(code, values.position(first, what, depth) + values.position(second, what, depth))

    def add_model(self, serial_number: int) -> Answer:
        """Adds a model after the others."""
        return self._edit(1, (values.number(serial_number, "the model's serial number"),))

    def add_atom(
        self, model: int, atom: NewAtom, chain_id: str, residue_id: ResidueIdentifier, conformer_id: ConformerIdentifier
    ) -> Answer:
        """Adds an atom to the first chain, the last residue in it and the first conformer in that with these ids; what is missing is
        made. Insertion code and alternative location are trimmed and raised to capitals, then looked for; a bad or blank location is an
        absent one.

        The ids are `(serial number, insertion code or None)` and `(name, alternative location or None)`.
        """
        if not isinstance(atom, NewAtom):
            raise TypeError(f"the atom to be added is a NewAtom, not {atom!r}")
        serial, code = values.pair(residue_id, "the residue's id")
        name, location = values.pair(conformer_id, "the conformer's id")
        code_flag, code_text = values.optional(code, "the insertion code")
        location_flag, location_text = values.optional(location, "the alternative location")
        place = (values.number(model, "the model's index"), values.signed(serial, "the residue's serial number"), code_flag, location_flag)
        parts = (
            values.text(chain_id, "the chain's id"),
            code_text,
            values.text(name, "the conformer's name"),
            location_text,
            values.text(atom.name, "the atom's name"),
        )
        return self._edit(2, place + atom._numbers(), parts)

    def remove_chain(self, position: Position) -> Answer:
        """Removes a chain."""
        return self._edit(3, values.position(position, "a chain", 2))

    def remove_residue(self, position: Position) -> Answer:
        """Removes a residue."""
        return self._edit(4, values.position(position, "a residue", 3))

    def remove_conformer(self, position: Position) -> Answer:
        """Removes a conformer."""
        return self._edit(5, values.position(position, "a conformer", 4))

    def remove_atom(self, position: Position) -> Answer:
        """Removes an atom."""
        return self._edit(6, values.position(position, "an atom", 5))

    def remove_chain_by_id(self, model: int, id: str) -> Answer:
        """Removes the first chain of a model with this id, compared as given."""
        return self._edit(7, (values.number(model, "the model's index"),), (values.text(id, "the chain's id"),))

    def remove_residue_by_id(self, chain: Position, id: ResidueIdentifier) -> Answer:
        """Removes the first residue of a chain with this serial number and insertion code, compared as given."""
        serial, code = values.pair(id, "the residue's id")
        flag, text = values.optional(code, "the insertion code")
        place = values.position(chain, "a chain", 2)
        return self._edit(8, (*place, values.signed(serial, "the residue's serial number"), flag), (text,))

    def remove_conformer_by_id(self, residue: Position, id: ConformerIdentifier) -> Answer:
        """Removes the first conformer of a residue with this name and alternative location, compared as given."""
        name, location = values.pair(id, "the conformer's id")
        flag, text = values.optional(location, "the alternative location")
        place = values.position(residue, "a residue", 3)
        return self._edit(9, (*place, flag), (values.text(name, "the conformer's name"), text))

    def remove_atom_by_serial_number(self, conformer: Position, serial_number: int) -> Answer:
        """Removes the first atom of a conformer with this serial number."""
        place = values.position(conformer, "a conformer", 4)
        return self._edit(10, (*place, values.number(serial_number, "the atom's serial number")))

    def remove_atoms_by(self, model: int, search: Search) -> Answer:
        """Removes the atoms of a model where the search is true by what the atom alone tells. Terms of the levels above are undecided
        then, and an undecided atom stays.
        """
        return self._edit(11, (values.number(model, "the model's index"),), (tree(search),))

    def remove_empty(self, model: int) -> Answer:
        """Removes the conformers, residues and chains of a model that hold no atoms."""
        return self._edit(12, (values.number(model, "the model's index"),))

    def join_models(self, first: int, second: int) -> Answer:
        """Puts the second's chains after the first's, and removes the second. Nothing is merged."""
        return self._join(13, "a model", 1, (first,), (second,))

    def join_chains(self, first: Position, second: Position) -> Answer:
        """Puts the second's residues after the first's, and removes the second. Nothing is merged."""
        return self._join(14, "a chain", 2, first, second)

    def join_residues(self, first: Position, second: Position) -> Answer:
        """Puts the second's conformers after the first's, and removes the second. Nothing is merged."""
        return self._join(15, "a residue", 3, first, second)

    def join_conformers(self, first: Position, second: Position) -> Answer:
        """Puts the second's atoms after the first's, and removes the second. Nothing is merged."""
        return self._join(16, "a conformer", 4, first, second)

    def set_element(self, position: Position, element: Union[str, int]) -> Answer:
        """Sets an atom's element, a symbol or an atomic number, where it is missing. Where the atom has one, nothing changes and `found`
        is False: no edit overwrites an element.

        A search then lists the same atoms as before, or all of them but this one. `hit.position` is the position of a hit, and
        `Element("S") & ~Element("S")` lists the atoms without an element.
        """
        place = values.position(position, "an atom", 5)
        return self._edit(17, (*place, values.element(element, "the atom's element")))


class Edits(Editing["Edits"]):
    """Edits to be made one after another by `Store.apply_all` or `Store.apply`. Its methods are the store's own, take the same
    arguments, and answer the list, so that they can be chained.

    A single edit checks the whole store first, a list checks it once: build a structure by a list. Chain by chain is fastest.
    """

    __slots__ = ("_words", "_calls", "_records", "_place")

    def __init__(self) -> None:
        self._words = array("Q")
        self._calls = 0
        # The most records that the list can add, and the place of its last edit if that is an addition.
        self._records = 0
        self._place: Optional[Tuple[Any, ...]] = None

    def _edit(self, code: int, numbers: Sequence[int], parts: Sequence[Any] = ()) -> Edits:
        # "first its numbers, then its parts, each a length and as many words"
        behind = list(numbers)
        for part in parts:
            behind.append(len(part))
            behind.extend(part)
        self._words.extend((code, len(behind)))
        self._words.fromlist(behind)
        self._calls += 1
        if code == 2:
            self._count_atom(numbers, parts)
            return self
        self._place = None
        if code == 1:
            self._records += 1
        return self

    def _count_atom(self, numbers: Sequence[int], parts: Sequence[bytes]) -> None:
        """An atom may need its chain, residue and conformer too, from the outermost on that isn't the last addition's."""
        model, residue, code_flag, location_flag = numbers[:4]
        chain, code, conformer, location = parts[:4]
        place = ((model, chain), (residue, code_flag, code), (conformer, location_flag, location))
        last = self._place or (None, None, None)
        same = next((level for level in range(3) if place[level] != last[level]), 3)
        self._records += 1 + 3 - same
        self._place = place

    def __len__(self) -> int:
        return self._calls

    def __copy__(self) -> Edits:
        return copy.deepcopy(self)

    def __repr__(self) -> str:
        return f"<Edits: {self._calls:,}>"


class Applied:
    """What the edits of a list did, each by itself: `answers` has an `Edited` for each that was made, an `Error` for a refused one."""

    __slots__ = ("answers",)

    def __init__(self, answers: Tuple[Union[Edited, Error], ...]) -> None:
        self.answers = answers

    @property
    def refused(self) -> Tuple[Tuple[int, Error], ...]:
        """The refused edits: their indexes in the list, from 0, and why."""
        return tuple((index, answer) for index, answer in enumerate(self.answers) if isinstance(answer, Error))

    def all(self) -> Tuple[Edited, ...]:
        """The answers, if every edit was made; else the first refusal is raised as an `EditError`."""
        refused = self.refused
        if refused:
            raise EditError(*refused[0])
        return tuple(answer for answer in self.answers if isinstance(answer, Edited))

    def __repr__(self) -> str:
        return f"<Applied: {len(self.answers):,} edits, {len(self.refused):,} refused>"
