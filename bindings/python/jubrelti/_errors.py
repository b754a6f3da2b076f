"""Refusals as exceptions. Their numbers, names and sentences are those of the tables."""

from __future__ import annotations

from typing import Optional

from ._tables import REFUSALS

_REFUSALS = {number: (name, sentence) for number, name, _, sentence in REFUSALS}
NUMBERS = {name: number for number, name, _, _ in REFUSALS}


class Error(Exception):
    """Why a call was refused. A refused call has changed nothing.

    `number` is the refusal's number in docs/API.md and `name` its name there; the text says what was wrong and what to do.
    """

    number: Optional[int]
    name: str

    def __init__(self, number: int) -> None:
        super().__init__(number)
        self.number = number
        self.name, self._sentence = _REFUSALS[number]

    def __str__(self) -> str:
        return self._sentence


class QueryTextError(Error):
    """A text of a search that can't be packed. The package refuses it itself, so it has no number."""

    def __init__(self, text: str) -> None:
        Exception.__init__(self, text)
        self.number = None
        self.name = "QueryText"
        self.text = text
        self._sentence = (
            f"the text {text!r} of the search can't be packed; use at most 8 printable ASCII characters, and None for a code or "
            "location that is absent"
        )


class EditError(Error):
    """The first refused edit of a list: `index` is its place in the list, from 0, and `cause` the refusal."""

    def __init__(self, index: int, cause: Error) -> None:
        Exception.__init__(self, index, cause)
        self.number = cause.number
        self.name = cause.name
        self.index = index
        self.cause = cause
        self._sentence = f"edit {index} of the list is refused: {cause}"


class LineError(Error):
    """A text that `Store.read_pdb` doesn't take: `line` is the number, from 1, of the line at which it stops being PDB lines as
    `write_pdb` writes them. It is one past the last line where the text ends before an ENDMDL line.
    """

    def __init__(self, line: int) -> None:
        Exception.__init__(self, line)
        self.number = NUMBERS["BadText"]
        self.name, sentence = _REFUSALS[self.number]
        self.line = line
        self._sentence = f"line {line}: {sentence}"


class StaleHitError(RuntimeError):
    """A hit, or a part of the structure, was read after the store was edited. Its record numbers may name others by now."""

    def __str__(self) -> str:
        return "the store was edited since this was found, so its records may be others now; find it again"


def refusal(result: int) -> Error:
    """The refusal of a number above 0."""
    if result not in _REFUSALS:
        raise RuntimeError(f"refusal {result} is unknown: the library is of another version than this package")
    return Error(result)


def check(result: int) -> None:
    """A result is 0 with its fields, or the number of a refusal."""
    if result:
        raise refusal(result)
