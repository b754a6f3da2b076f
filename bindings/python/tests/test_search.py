"""Terms, operators, their nodes and expressions."""

import pickle
import unittest

import jubrelti
from jubrelti import *
from jubrelti._tables import OPERATORS, TERMS

from .samples import rich, serials

A, B, ALA = 0x41 << 56, 0x42 << 56, 0x414C41 << 40
HALF, ONE = 0x3FE << 52, 0x3FF << 52

# Each term, its node, and the atoms of the store `rich` that it lists. Atom 6 has no element.
EACH = [
    (ModelSerialNumber(5), [1, 5, 0], [7]),
    (ModelSerialNumberRange(0, 4), [2, 0, 4], [1, 2, 3, 4, 5, 6]),
    (ChainId("B"), [3, B, 0], [5]),
    (ChainIdRange("A", "B"), [4, A, B], [1, 2, 3, 4, 5, 7]),
    (ResidueSerialNumber(-3), [5, 2**64 - 3, 0], [1, 2]),
    (ResidueSerialNumberRange(-3, 3), [6, 2**64 - 3, 3], [1, 2, 7]),
    (ResidueInsertionCode("B"), [7, B, 0], [3, 4]),
    (ResidueInsertionCode(None), [7, 0, 0], [1, 2, 5, 6, 7]),
    (ResidueId(4, None), [8, 4, 0], [5]),
    (ResidueId(4, "B"), [8, 4, B], [3, 4]),
    (ResidueId(-3, None), [8, 2**64 - 3, 0], [1, 2]),
    (ConformerName("ALA"), [9, ALA, 0], [1, 2]),
    (ConformerAlternativeLocation("B"), [10, B, 0], [4]),
    (ConformerAlternativeLocation(None), [10, 0, 0], [1, 2, 5, 6, 7]),
    (ConformerId("ALA", None), [11, ALA, 0], [1, 2]),
    (AtomSerialNumber(3), [12, 3, 0], [3]),
    (AtomSerialNumberRange(3, 5), [13, 3, 5], [3, 4, 5]),
    (AtomName("N"), [14, 0x4E << 56, 0], [1, 3]),
    (AtomName(""), [14, 0, 0], []),
    (Element("c"), [15, 6, 0], [2, 6, 7]),
    (Element(26), [15, 26, 0], [5, 6]),
    (BFactor(30), [16, 0x403E << 48, 0], [3]),
    (BFactorRange(0.5, 20), [17, HALF, 0x4034 << 48], [1, 2]),
    (Occupancy(0.5), [18, HALF, 0], [2, 3]),
    (OccupancyRange(0.5, 1.0), [19, HALF, ONE], [1, 2, 3, 5, 6, 7]),
    (Backbone(), [20, 0, 0], [1, 3, 7]),
    (SideChain(), [21, 0, 0], [2, 4]),
    (Hetero(), [22, 0, 0], [5]),
    (Known(False), [27, 0, 0], []),
    (Known(True), [28, 0, 0], [1, 2, 3, 4, 5, 6, 7]),
]


class Terms(unittest.TestCase):
    def test_each(self):
        store = rich()
        for search, node, listed in EACH:
            with self.subTest(search):
                self.assertEqual(search.nodes().tolist(), node)
                self.assertEqual(serials(store, search), listed)
                self.assertEqual(eval(repr(search)), search)
        self.assertEqual({search.nodes()[0] for search, _, _ in EACH}, {*range(1, 23), 27, 28})

    def test_hetero_atoms_are_in_neither_term(self):
        # A soaked glycine in one conformer with others of that name; from a conformer its name isn't looked at.
        for name, listed in (("GLY", [[1], [2]]), ("HOH", [[], []])):
            edits = Edits().add_model(1)
            for n, atom in enumerate(("CA", "CB", "CA", "CB"), 1):
                edits.add_atom(0, NewAtom(n, atom, element="C", hetero=n > 2), "A", (1, None), (name, None))
            store = Store()
            store.apply_all(edits)
            sides = (Backbone(), SideChain())
            self.assertEqual([serials(store, term) for term in sides], listed)
            self.assertEqual(serials(store, Hetero()), [3, 4])
            alone = [[hit.atom.serial_number for hit in store.conformer_find((0, 0, 0, 0), term)] for term in sides]
            self.assertEqual(alone, [[1], [2]])
            self.assertEqual([store.remove_atoms_by(0, term).removed for term in sides], [1, 1])

    def test_the_tables_are_all_there(self):
        for code, name, kinds in TERMS:
            self.assertIn(name, jubrelti.__all__)
            self.assertTrue(getattr(jubrelti, name).__doc__.startswith(f"{name}({', '.join(kinds)}): "))
        self.assertEqual([code for code, _, _ in TERMS] + [code for code, _ in OPERATORS], list(range(1, 29)))

    def test_texts_that_cannot_be_packed(self):
        self.assertEqual(AtomName(" 234567~").nodes()[1].to_bytes(8, "big"), b" 234567~")
        for text in ("123456789", "C\0", "\x1f", "\x7f", "\u00c5", "\ud800"):
            with self.assertRaises(QueryTextError) as caught:
                AtomName(text)
            self.assertEqual((caught.exception.number, caught.exception.name, caught.exception.text), (None, "QueryText", text))
            self.assertTrue(str(caught.exception).startswith(f"the text {text!r} of the search can't be packed; use at most 8 "))
        for term in (lambda: ResidueInsertionCode(""), lambda: ConformerId("ALA", ""), lambda: ResidueId(1, "123456789")):
            self.assertRaises(QueryTextError, term)

    def test_values_without_word(self):
        bad = [
            (TypeError, lambda: ChainId(None)),
            (TypeError, lambda: ChainId(b"A")),
            (TypeError, lambda: ConformerId(None, "A")),
            (TypeError, lambda: ResidueInsertionCode(5)),
            (TypeError, lambda: AtomSerialNumber("1")),
            (TypeError, lambda: AtomSerialNumber(True)),
            (ValueError, lambda: AtomSerialNumber(-1)),
            (ValueError, lambda: ModelSerialNumberRange(0, 2**64)),
            (ValueError, lambda: ResidueSerialNumber(2**63)),
            (ValueError, lambda: Element("Xx")),
            (ValueError, lambda: Element(0)),
            (TypeError, lambda: Element(None)),
            (TypeError, lambda: BFactor("1")),
            (TypeError, lambda: BFactorRange(1.0)),
            (TypeError, lambda: Backbone(1)),
            (TypeError, lambda: Known(1)),
        ]
        for kind, term in bad:
            self.assertRaises(kind, term)

    def test_elements(self):
        self.assertEqual([ELEMENTS.index(symbol) + 1 for symbol in "He Ne Ar Kr Xe Rn Og".split()], [2, 10, 18, 36, 54, 86, 118])
        for number, symbol in enumerate(ELEMENTS, 1):
            self.assertEqual(Element(symbol.upper()), Element(number))
        self.assertEqual(len(ELEMENTS), 118)


class Operators(unittest.TestCase):
    def test_postfix_order(self):
        search = ChainId("A") & ~Hetero() | Known(False) ^ Known(True)
        self.assertEqual(search.nodes()[::3].tolist(), [3, 22, 26, 23, 27, 28, 25, 24])
        self.assertEqual((AtomSerialNumber(1) & AtomSerialNumber(2)).nodes().tolist(), [12, 1, 0, 12, 2, 0, 23, 0, 0])

    def test_expressions(self):
        a, b, c = Hetero(), Backbone(), ChainId("A")
        searches = {
            a & b & c: "Hetero() & Backbone() & ChainId('A')",
            a & (b & c): "Hetero() & (Backbone() & ChainId('A'))",
            (a | b) & c: "(Hetero() | Backbone()) & ChainId('A')",
            a | b & c: "Hetero() | Backbone() & ChainId('A')",
            (a | b) ^ c: "(Hetero() | Backbone()) ^ ChainId('A')",
            a ^ (b ^ c): "Hetero() ^ (Backbone() ^ ChainId('A'))",
            ~(a ^ b) | ~~c: "~(Hetero() ^ Backbone()) | ~~ChainId('A')",
            BFactorRange(-0.5, float("inf")): "BFactorRange(-0.5, float('inf'))",
        }
        self.assertEqual(len(searches), 8)
        for search, expression in searches.items():
            self.assertEqual(repr(search), expression)
            self.assertEqual(eval(expression), search)
            self.assertEqual(pickle.loads(pickle.dumps(search)), search)
        self.assertEqual(repr(BFactor(float("nan"))), "BFactor(float('nan'))")

    def test_no_truth_value(self):
        for mistake in (lambda: ChainId("A") and Hetero(), lambda: Hetero() or Known(True), lambda: not Hetero()):
            with self.assertRaisesRegex(TypeError, "use & | \\^ ~"):
                mistake()
        for mistake in (lambda: Hetero() & True, lambda: True | Hetero(), lambda: Hetero() ^ 1):
            self.assertRaises(TypeError, mistake)

    def test_undecided(self):
        store = rich()
        self.assertEqual(serials(store, ~Element("C")), [1, 3, 4, 5, 6])
        self.assertEqual(serials(store, Element("C") ^ Element("C")), [6])
        self.assertEqual(serials(store, Element("C") & AtomName("CA")), [7])

    def test_a_million_deep(self):
        store = rich()
        search = Hetero()
        for _ in range(1_000_000):
            search = ~search
        left = right = Known(True)
        for _ in range(100_000):
            left, right = left & Hetero(), Hetero() | right
        for long in (search, left, right):
            with self.assertRaises(Error) as refused:
                store.find(long)
            self.assertEqual(refused.exception.name, "TreeShape")
            self.assertRaises(Error, store.remove_atoms_by, 0, long)
        self.assertEqual(repr(search), "<Search of 1,000,001 terms and operators, over 127>")
        self.assertEqual((search == search, search == ~~search, left == right), (True, False, False))

    def test_the_longest(self):
        search = Known(True)
        for _ in range(63):
            search = Known(True) & search
        self.assertEqual(len(search.nodes()), 127 * 3)
        self.assertEqual(len(rich().find(search)), 7)
        self.assertEqual(eval(repr(search)), search)
        with self.assertRaises(Error):
            rich().find(~search)
