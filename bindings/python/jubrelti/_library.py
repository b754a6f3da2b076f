"""The shared library and its calls, declared as include/jubrelti.h declares them.

What the header asks of a caller holds by construction. Each slice is a buffer that Python keeps alive through the call, given with its
own length. A slice that a call writes is the store's own array, which nobody else can write, or one made for the call, so it overlaps
no other. The library is loaded so that a call keeps the interpreter's lock: no other Python thread runs meanwhile.
"""

from __future__ import annotations

import contextlib
import ctypes
import ctypes.util
import os
from array import array
from pathlib import Path
from typing import Any, List, Sequence, Tuple

from . import __version__

FILE = "libjubrelti.so"
FOLDER_VARIABLE = "JUBRELTI_LIB_DIR"

_U64 = ctypes.c_uint64
_SLICE = (ctypes.POINTER(_U64), ctypes.c_size_t)
_TEXT = (ctypes.c_char_p, ctypes.c_size_t)


class _Answer(ctypes.Structure):
    _fields_ = [("result", _U64), ("found", _U64), ("removed", _U64)]


class _Found(ctypes.Structure):
    _fields_ = [("result", _U64), ("hits", _U64)]


class _Lookup(ctypes.Structure):
    _fields_ = [("result", _U64), ("found", _U64), ("records", _U64 * 5)]


class _Written(ctypes.Structure):
    _fields_ = [("result", _U64), ("length", _U64)]


class _Applied(ctypes.Structure):
    _fields_ = [("result", _U64), ("calls", _U64)]


class AtomValues(ctypes.Structure):
    """JubreltiNewAtom."""

    _fields_ = [
        (field, _U64) for field in ("serial", "x", "y", "z", "occupancy", "b_factor", "element", "charge", "hetero")
    ]


def _folders() -> List[Path]:
    """The folders that may hold the library: of a checkout, then of a dist folder. The variable takes the place of both."""
    named = os.environ.get(FOLDER_VARIABLE)
    if named:
        return [Path(named)]
    package = Path(__file__).resolve().parent
    return [(package / folder).resolve() for folder in ("../../../target/dist/lib", "../../lib")]


def _opened() -> ctypes.PyDLL:
    folders = _folders()
    for folder in folders:
        if (folder / FILE).is_file():
            return _open(str(folder / FILE))
    if not os.environ.get(FOLDER_VARIABLE):
        # The first finds a library by its recorded name, which it may lack; the loader itself goes by the file's.
        with contextlib.suppress(ImportError):
            return _open(ctypes.util.find_library("jubrelti") or FILE)
    looked = ", ".join(str(folder) for folder in folders)
    raise ImportError(
        f"{FILE} isn't in {looked}; build it with bindings/dist, or name its folder in the environment variable {FOLDER_VARIABLE}"
    )


def _open(path: str) -> ctypes.PyDLL:
    try:
        return ctypes.PyDLL(path)
    except OSError as error:
        raise ImportError(f"the library {path} can't be loaded: {error}") from error


def version_number(version: str) -> int:
    """What jubrelti_version answers for a version: major, minor and patch, three decimals each."""
    major, minor, patch = (int(part) for part in version.split("."))
    return major * 1_000_000 + minor * 1_000 + patch


def check_version(answered: int, path: str) -> None:
    """Another version may have other calls under the same names, so it isn't used. A patch changes neither calls nor words."""
    if answered // 1_000 != version_number(__version__) // 1_000:
        version = f"{answered // 1_000_000}.{answered // 1_000 % 1_000}.{answered % 1_000}"
        raise ImportError(f"the library {path} is version {version}, and this package is version {__version__}; use the same of both")


def _load() -> ctypes.PyDLL:
    library = _opened()
    if not hasattr(library, "jubrelti_version"):
        raise ImportError(f"the library {library._name} has no version, so it is older than this package, version {__version__}")
    check_version(_declared(library, "jubrelti_version", _U64)(), library._name)
    return library


def _declared(library: ctypes.PyDLL, name: str, answer: Any, *arguments: Any) -> Any:
    function = getattr(library, name)
    function.restype = answer
    function.argtypes = arguments
    return function


def _edit(name: str, *arguments: Any) -> Any:
    return _declared(_LIBRARY, "jubrelti_" + name, _Answer, *_SLICE, *arguments)


_LIBRARY = _load()

check_store = _declared(_LIBRARY, "jubrelti_check", _U64, *_SLICE)
open_store = _declared(_LIBRARY, "jubrelti_open", _U64, *_SLICE)
copy_store = _declared(_LIBRARY, "jubrelti_copy", _U64, *_SLICE, *_SLICE)
# Find from a start of none to four indexes.
FINDS = tuple(
    _declared(_LIBRARY, "jubrelti_" + name, _Found, *_SLICE, *[_U64] * indexes, *_SLICE, *_SLICE)
    for indexes, name in enumerate(("find", "model_find", "chain_find", "residue_find", "conformer_find"))
)
binary_find_atom = _declared(_LIBRARY, "jubrelti_binary_find_atom", _Lookup, *_SLICE, _U64, _U64, *_TEXT)
write_pdb = _declared(_LIBRARY, "jubrelti_write_pdb", _Written, *_SLICE, ctypes.POINTER(ctypes.c_uint8), ctypes.c_size_t)
read_pdb = _declared(_LIBRARY, "jubrelti_read_pdb", _U64, *_TEXT, *_SLICE)
apply = _declared(_LIBRARY, "jubrelti_apply", _Applied, *_SLICE, *_SLICE, *_SLICE)

# The texts and flags of an atom's place and name, as the header has them.
_PLACE = (*_TEXT, _U64, _U64, *_TEXT, *_TEXT, _U64, *_TEXT, *_TEXT)

EDITS = {
    1: _edit("add_model", _U64),
    2: _edit("add_atom", _U64, *_PLACE, AtomValues),
    3: _edit("remove_chain", *[_U64] * 2),
    4: _edit("remove_residue", *[_U64] * 3),
    5: _edit("remove_conformer", *[_U64] * 4),
    6: _edit("remove_atom", *[_U64] * 5),
    7: _edit("remove_chain_by_id", _U64, *_TEXT),
    8: _edit("remove_residue_by_id", *[_U64] * 4, *_TEXT),
    9: _edit("remove_conformer_by_id", *[_U64] * 3, *_TEXT, _U64, *_TEXT),
    10: _edit("remove_atom_by_serial_number", *[_U64] * 5),
    11: _edit("remove_atoms_by", _U64, *_SLICE),
    12: _edit("remove_empty", _U64),
    13: _edit("join_models", *[_U64] * 2),
    14: _edit("join_chains", *[_U64] * 4),
    15: _edit("join_residues", *[_U64] * 6),
    16: _edit("join_conformers", *[_U64] * 8),
    17: _edit("set_element", *[_U64] * 6),
}


def lend(words: "array[int]") -> Tuple[Any, int]:
    """The two arguments of a slice of words. The first keeps the array's buffer alive and in its place."""
    return (_U64 * len(words)).from_buffer(words), len(words)


def edit_arguments(code: int, numbers: Sequence[int], parts: Sequence[Any]) -> Tuple[Any, ...]:
    """An edit's numbers and parts, which stand in the order of a list (docs/FORMATS.md), in the order of its C call."""
    slices = [lend(part) if isinstance(part, array) else (part, len(part)) for part in parts]
    if code == 2:
        model, residue, code_flag, location_flag, *values = numbers
        chain, insertion, conformer, location, name = slices
        place = (*chain, residue, code_flag, *insertion, *conformer, location_flag, *location, *name)
        return (model, *place, AtomValues(*values))
    if code == 9:
        name, location = slices
        return (*numbers[:3], *name, numbers[3], *location)
    return (*numbers, *(argument for pair in slices for argument in pair))
