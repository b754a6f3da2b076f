"""Python values as words, and back. Whatever has no word is a TypeError or ValueError here, before any call: nothing wraps."""

from __future__ import annotations

import struct
from numbers import Integral, Real
from typing import Any, Optional, Sequence, Tuple

from ._errors import QueryTextError

U64_MAX = 2**64 - 1
I64_MAX = 2**63 - 1

ELEMENTS = tuple(
    """
    H He Li Be B C N O F Ne Na Mg Al Si P S Cl Ar K Ca Sc Ti V Cr Mn Fe Co Ni Cu Zn Ga Ge As Se Br Kr Rb Sr Y Zr Nb Mo Tc Ru Rh Pd Ag
    Cd In Sn Sb Te I Xe Cs Ba La Ce Pr Nd Pm Sm Eu Gd Tb Dy Ho Er Tm Yb Lu Hf Ta W Re Os Ir Pt Au Hg Tl Pb Bi Po At Rn Fr Ra Ac Th Pa U
    Np Pu Am Cm Bk Cf Es Fm Md No Lr Rf Db Sg Bh Hs Mt Ds Rg Cn Nh Fl Mc Lv Ts Og
    """.split()
)
_ATOMIC_NUMBERS = {symbol.upper(): number for number, symbol in enumerate(ELEMENTS, 1)}

LEVELS = ("model", "chain", "residue", "conformer", "atom")


def _whole(value: Any, what: str, low: int, high: int) -> int:
    # A bool is an int to Python; here it is a mistake, since no number of a structure is a truth value. The type is asked first, since
    # it is nearly always this one and the other two questions take ten times as long.
    if type(value) is not int and (isinstance(value, bool) or not isinstance(value, Integral)):
        raise TypeError(f"{what} is a whole number, not {value!r}")
    whole = int(value)
    if not low <= whole <= high:
        raise ValueError(f"{what} is a whole number from {low:,} to {high:,}, not {whole}")
    return whole


def number(value: Any, what: str) -> int:
    """The word of an unsigned number."""
    return _whole(value, what, 0, U64_MAX)


def signed(value: Any, what: str) -> int:
    """The word of a signed number, in two's complement."""
    return _whole(value, what, -I64_MAX - 1, I64_MAX) & U64_MAX


def as_signed(word: int) -> int:
    return word - 2**64 if word > I64_MAX else word


def float_bits(value: Any, what: str) -> int:
    """The word of a float: its bits."""
    if type(value) is not float and (isinstance(value, bool) or not isinstance(value, Real)):
        raise TypeError(f"{what} is a number, not {value!r}")
    try:
        return int.from_bytes(struct.pack("<d", float(value)), "little")
    except OverflowError:
        raise ValueError(f"{what} is too large for a float") from None


def as_float(word: int) -> float:
    value: float = struct.unpack("<d", struct.pack("<Q", word))[0]
    return value


def truth(value: Any, what: str) -> int:
    """The word of a truth value. What equals 1 or 0 counts too, since NumPy's truth values aren't Python's."""
    if value == 0 or value == 1:
        return int(value)
    raise TypeError(f"{what} is True or False, not {value!r}")


def element(value: Any, what: str) -> int:
    """The word of an element, given by its symbol in any case or by its atomic number."""
    if isinstance(value, str):
        found = _ATOMIC_NUMBERS.get(value.upper()) if value.isascii() else None
        if found is None:
            raise ValueError(f"{what} has the symbol {value!r}, which no element has; a missing element is None")
        return found
    return _whole(value, what, 1, len(ELEMENTS))


def as_element(word: int) -> Optional[str]:
    return ELEMENTS[word - 1] if word else None


def text(value: Any, what: str) -> bytes:
    """The bytes of a text as given."""
    if not isinstance(value, str):
        raise TypeError(f"{what} is a text, not {value!r}")
    try:
        return value.encode()
    except UnicodeEncodeError:
        raise ValueError(f"{what} {value!r} has a lone surrogate, which has no bytes") from None


def optional(value: Any, what: str) -> Tuple[int, bytes]:
    """An optional text: the flag, 0 absent or 1 present, and the bytes."""
    return (0, b"") if value is None else (1, text(value, what))


def pair(value: Any, what: str) -> Sequence[Any]:
    """An id of two values. A text isn't taken apart into two letters."""
    if not isinstance(value, (tuple, list)) or len(value) != 2:
        raise TypeError(f"{what} is a pair, not {value!r}")
    return value


def position(value: Any, what: str, depth: int) -> Tuple[int, ...]:
    """The indexes of a position, from the model down."""
    levels = ", ".join(LEVELS[:depth])
    if not isinstance(value, (tuple, list)):
        raise TypeError(f"the position of {what} is the indexes ({levels}), not {value!r}")
    if len(value) != depth:
        raise ValueError(f"the position of {what} has {depth} indexes ({levels}), not {len(value)}")
    return tuple(number(index, f"an index of the position of {what}") for index in value)


def pack(value: Any, what: str) -> int:
    """The word of a text of a search: "query texts that can be packed as given"."""
    if not isinstance(value, str):
        raise TypeError(f"{what} is a text, not {value!r}")
    if len(value) > 8 or any(not " " <= letter <= "~" for letter in value):
        raise QueryTextError(value)
    return int.from_bytes(value.encode("ascii").ljust(8, b"\0"), "big")


def pack_optional(value: Any, what: str) -> int:
    """ "An absent code or location is 0; a present empty one lies outside the domain." """
    if value is None:
        return 0
    if value == "":
        raise QueryTextError(value)
    return pack(value, what)


def as_text(word: int) -> str:
    return word.to_bytes(8, "big").rstrip(b"\0").decode("ascii")


def as_optional(word: int) -> Optional[str]:
    return as_text(word) if word else None
