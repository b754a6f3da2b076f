"""PDB lines that are read: how many records are enough, and the line at which a text stops being one."""

from __future__ import annotations

from array import array

from . import _library as library
from ._errors import NUMBERS

# 80 columns and a newline.
LINE = 81
_END = b"%-80s\n" % b"ENDMDL"


def records_enough(text: bytes) -> int:
    """Records enough for the models and atoms of a text. An atom that doesn't stand where the one before it does begins at most a
    chain, a residue and a conformer: so the library needs no exact count, which takes longer where residues are left and come again,
    unless so many exceed a store's limit.
    """
    records = 0
    last = b""
    for at in range(0, len(text) // LINE * LINE, LINE):
        kind = text[at : at + 1]
        if kind == b"M":
            records += 1
            last = b""
        elif kind != b"E":
            place = text[at + 16 : at + 27]
            records += 1 if place == last else 4
            last = place
    return records


def bad_line(text: bytes) -> int:
    """The number of the first line at which a text that the library doesn't take stops being one that it takes. The lines before it
    are the most that are taken once an ENDMDL line closes the model that is open; fewer lines of such a text are taken too.
    """
    taken, most = 0, len(text) // LINE
    while taken < most:
        lines = (taken + most + 1) // 2
        if _is_taken(text[: lines * LINE]):
            taken = lines
        else:
            most = lines - 1
    return taken + 1


def _is_taken(lines: bytes) -> bool:
    """Whether the library takes some lines, with one that closes their last model. A store without room is enough to ask, since a
    bad text is refused before a lack of room.
    """
    text = lines if lines[-LINE:].startswith(b"E") else lines + _END
    return library.read_pdb(text, len(text), *library.lend(array("Q", [0]))) != NUMBERS["BadText"]
