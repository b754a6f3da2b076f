"""Searches: pdbtbx's terms, combined by & | ^ ~, as the nodes of a tree in postfix order (docs/FORMATS.md)."""

from __future__ import annotations

import math
from array import array
from typing import Any, Callable, Dict, List, Tuple

from . import _values as values
from ._tables import OPERATORS, TERMS

Node = Tuple[int, int, int]

# A tree has at most so many nodes. The library refuses a longer one by its length alone, so one node more is kept of it, and what
# comes after can't matter. So a search of any depth takes little room, and needs no recursion.
_MOST_NODES = 127

_TERMS = {name: (code, kinds) for code, name, kinds in TERMS}
_NAMES = {code: (name, kinds) for code, name, kinds in TERMS}
_OPERATORS = {name: code for code, name in OPERATORS}

_WORD: Dict[str, Callable[[Any, str], int]] = {
    "number": values.number,
    "signed": values.signed,
    "text": values.pack,
    "optional": values.pack_optional,
    "element": values.element,
    "float": values.float_bits,
}


def _float_text(word: int) -> str:
    value = values.as_float(word)
    return repr(value) if math.isfinite(value) else f"float({str(value)!r})"


_TEXT: Dict[str, Callable[[int], str]] = {
    "number": repr,
    "signed": lambda word: repr(values.as_signed(word)),
    "text": lambda word: repr(values.as_text(word)),
    "optional": lambda word: repr(values.as_optional(word)),
    "element": lambda word: repr(values.as_element(word)),
    "float": _float_text,
}


class Search:
    """Terms combined by `&`, `|`, `^` and `~`, at most 127 terms and operators. It is built from the terms and `Known`.

    Searches are equal when they are the same terms and operators in the same order. One that is too long equals only itself.
    """

    __slots__ = ("_nodes", "_count")

    def __init__(self, nodes: Tuple[Node, ...], count: int) -> None:
        self._nodes = nodes
        self._count = count

    def _with(self, other: Tuple[Node, ...], count: int, operator: str) -> Search:
        nodes = self._nodes
        if len(nodes) <= _MOST_NODES:
            nodes = (nodes + other + ((_OPERATORS[operator], 0, 0),))[: _MOST_NODES + 1]
        return Search(nodes, self._count + count + 1)

    def __and__(self, other: Search) -> Search:
        return self._with(other._nodes, other._count, "And") if isinstance(other, Search) else NotImplemented

    def __or__(self, other: Search) -> Search:
        return self._with(other._nodes, other._count, "Or") if isinstance(other, Search) else NotImplemented

    def __xor__(self, other: Search) -> Search:
        return self._with(other._nodes, other._count, "Xor") if isinstance(other, Search) else NotImplemented

    def __invert__(self) -> Search:
        return self._with((), 0, "Not")

    def __bool__(self) -> bool:
        raise TypeError("a search is neither true nor false before it is made; use & | ^ ~ in place of and, or, not")

    def __eq__(self, other: object) -> bool:
        if not isinstance(other, Search):
            return NotImplemented
        return self is other or (self._count <= _MOST_NODES and self._nodes == other._nodes)

    def __hash__(self) -> int:
        return hash(self._nodes)

    def __repr__(self) -> str:
        if self._count > _MOST_NODES:
            return f"<Search of {self._count:,} terms and operators, over {_MOST_NODES}>"
        return _expression(self._nodes)

    def nodes(self) -> "array[int]":
        """The search as words for the C interface. Of one that is too long they are the first 128 nodes, which no call accepts."""
        return array("Q", [word for node in self._nodes for word in node])


# Python's own precedence: an operand that binds less than its operator stands in parentheses.
_SYMBOLS = {_OPERATORS["Or"]: (" | ", 1), _OPERATORS["Xor"]: (" ^ ", 2), _OPERATORS["And"]: (" & ", 3)}
_NOT_BINDS, _TERM_BINDS = 4, 5


def _expression(nodes: Tuple[Node, ...]) -> str:
    """The Python expression of a search. `operands` is what a postfix order leaves on its way: texts, and how they bind."""
    operands: List[Tuple[str, int]] = []
    for node in nodes:
        if node[0] in _SYMBOLS:
            symbol, binds = _SYMBOLS[node[0]]
            right = _operand(operands.pop(), binds + 1)
            left = _operand(operands.pop(), binds)
            operands.append((left + symbol + right, binds))
        elif node[0] == _OPERATORS["Not"]:
            operands.append(("~" + _operand(operands.pop(), _NOT_BINDS), _NOT_BINDS))
        else:
            operands.append((_leaf(node), _TERM_BINDS))
    return operands.pop()[0]


def _operand(operand: Tuple[str, int], binds: int) -> str:
    return operand[0] if operand[1] >= binds else f"({operand[0]})"


def _leaf(node: Node) -> str:
    code, *words = node
    if code not in _NAMES:
        return f"Known({code == _OPERATORS['KnownTrue']})"
    name, kinds = _NAMES[code]
    return f"{name}({', '.join(_TEXT[kind](word) for kind, word in zip(kinds, words))})"


def Known(value: bool) -> Search:
    """A known value: `Known(True)` lists every atom."""
    if not isinstance(value, bool):
        raise TypeError(f"Known takes True or False, not {value!r}")
    return Search(((_OPERATORS["KnownTrue" if value else "KnownFalse"], 0, 0),), 1)


def _term(name: str, doc: str) -> Callable[..., Search]:
    """The function of a term. Its code and the kinds of its values are the table's."""
    code, kinds = _TERMS[name]

    def term(*given: Any) -> Search:
        if len(given) != len(kinds):
            raise TypeError(f"{name} takes {len(kinds)} values ({', '.join(kinds)}), not {len(given)}")
        words = [_WORD[kind](value, f"a value of {name}") for kind, value in zip(kinds, given)]
        p, q = (words + [0, 0])[:2]
        return Search(((code, p, q),), 1)

    term.__name__ = term.__qualname__ = name
    term.__doc__ = f"{name}({', '.join(kinds)}): {doc}"
    return term


ModelSerialNumber = _term("ModelSerialNumber", "the model serial number.")
ModelSerialNumberRange = _term("ModelSerialNumberRange", "model serial numbers, both ends included.")
ChainId = _term("ChainId", "the chain id, as 'A'.")
ChainIdRange = _term("ChainIdRange", "chain ids in the order of str, both ends included.")
ResidueSerialNumber = _term("ResidueSerialNumber", "the residue serial number.")
ResidueSerialNumberRange = _term("ResidueSerialNumberRange", "residue serial numbers, both ends included.")
ResidueInsertionCode = _term("ResidueInsertionCode", "the residue insertion code, as 'A', or None for absent.")
ResidueId = _term("ResidueId", "the residue serial number and insertion code.")
ConformerName = _term("ConformerName", "the conformer name, as 'ALA'.")
ConformerAlternativeLocation = _term("ConformerAlternativeLocation", "the alternative location, as 'A', or None for absent.")
ConformerId = _term("ConformerId", "the conformer name and alternative location.")
AtomSerialNumber = _term("AtomSerialNumber", "the atom serial number.")
AtomSerialNumberRange = _term("AtomSerialNumberRange", "atom serial numbers, both ends included.")
AtomName = _term("AtomName", "the atom name, as 'CA'.")
Element = _term("Element", "the element, as 'N' or 7; undecided, and so a hit, on an atom without one.")
BFactor = _term("BFactor", "the B-factor, to within a rounded difference below 2^-52.")
BFactorRange = _term("BFactorRange", "B-factors, both ends included.")
Occupancy = _term("Occupancy", "the occupancy, to within a rounded difference below 2^-52.")
OccupancyRange = _term("OccupancyRange", "occupancies, both ends included.")
Backbone = _term("Backbone", "backbone atoms of amino acids, none of them hetero.")
SideChain = _term("SideChain", "side chain atoms of amino acids, none of them hetero.")
Hetero = _term("Hetero", "hetero atoms.")


def tree(search: Any) -> "array[int]":
    """The words of a search's tree."""
    if not isinstance(search, Search):
        raise TypeError(f"a search is built from terms, as ChainId('A') & ~Hetero(), and isn't {search!r}")
    return search.nodes()
