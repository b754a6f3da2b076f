"""Every edit by itself, as a method and in a list, and what it answers."""

import unittest

from jubrelti import *

from .samples import records, rich, serials

EVERY = Known(True)

# Each edit on the store `rich`, what it answers, and the serial numbers of the atoms after it.
EDITS = [
    (lambda s: s.add_model(9), (True, 0), [1, 2, 3, 4, 5, 6, 7]),
    (lambda s: s.add_atom(0, NewAtom(8, "C"), "A", (4, "B"), ("SER", "A")), (True, 0), [1, 2, 3, 8, 4, 5, 6, 7]),
    (lambda s: s.remove_chain((0, 1)), (True, 1), [1, 2, 3, 4, 6, 7]),
    (lambda s: s.remove_residue((0, 0, 1)), (True, 2), [1, 2, 5, 6, 7]),
    (lambda s: s.remove_conformer((0, 0, 1, 1)), (True, 1), [1, 2, 3, 5, 6, 7]),
    (lambda s: s.remove_atom((0, 0, 0, 0, 1)), (True, 1), [1, 3, 4, 5, 6, 7]),
    (lambda s: s.remove_atom([1, 0, 0, 0, 0]), (True, 1), [1, 2, 3, 4, 5, 6]),
    (lambda s: s.remove_chain_by_id(0, "C"), (True, 1), [1, 2, 3, 4, 5, 7]),
    (lambda s: s.remove_chain_by_id(0, "c"), (False, 0), [1, 2, 3, 4, 5, 6, 7]),
    (lambda s: s.remove_residue_by_id((0, 0), (-3, None)), (True, 2), [3, 4, 5, 6, 7]),
    (lambda s: s.remove_residue_by_id((0, 0), (4, None)), (False, 0), [1, 2, 3, 4, 5, 6, 7]),
    (lambda s: s.remove_residue_by_id((0, 0), (4, "B")), (True, 2), [1, 2, 5, 6, 7]),
    (lambda s: s.remove_conformer_by_id((0, 0, 1), ("SER", "B")), (True, 1), [1, 2, 3, 5, 6, 7]),
    (lambda s: s.remove_conformer_by_id((0, 0, 1), ("SER", None)), (False, 0), [1, 2, 3, 4, 5, 6, 7]),
    (lambda s: s.remove_conformer_by_id((0, 0, 0), ("ALA", None)), (True, 2), [3, 4, 5, 6, 7]),
    (lambda s: s.remove_atom_by_serial_number((0, 0, 0, 0), 2), (True, 1), [1, 3, 4, 5, 6, 7]),
    (lambda s: s.remove_atom_by_serial_number((0, 0, 0, 0), 3), (False, 0), [1, 2, 3, 4, 5, 6, 7]),
    # The chain is undecided by the atom alone, so its atoms stay.
    (lambda s: s.remove_atoms_by(0, ChainId("A")), (True, 0), [1, 2, 3, 4, 5, 6, 7]),
    (lambda s: s.remove_atoms_by(0, AtomName("N") | Hetero()), (True, 3), [2, 4, 6, 7]),
    (lambda s: s.remove_empty(0), (True, 0), [1, 2, 3, 4, 5, 6, 7]),
    (lambda s: s.join_models(1, 0), (True, 0), [7, 1, 2, 3, 4, 5, 6]),
    (lambda s: s.join_chains((0, 1), (0, 0)), (True, 0), [5, 1, 2, 3, 4, 6, 7]),
    (lambda s: s.join_residues((1, 0, 0), (0, 0, 1)), (True, 0), [1, 2, 5, 6, 7, 3, 4]),
    (lambda s: s.join_conformers((0, 0, 1, 1), (0, 0, 1, 0)), (True, 0), [1, 2, 4, 3, 5, 6, 7]),
    (lambda s: s.set_element((0, 2, 0, 0, 0), "Se"), (True, 0), [1, 2, 3, 4, 5, 6, 7]),
    (lambda s: s.set_element([0, 0, 0, 0, 0], 8), (False, 0), [1, 2, 3, 4, 5, 6, 7]),
]


class Each(unittest.TestCase):
    def test_by_itself_and_in_a_list(self):
        for number, (edit, answer, left) in enumerate(EDITS):
            with self.subTest(number):
                store = rich()
                self.assertEqual(edit(store), answer)
                self.assertEqual(serials(store, EVERY), left)
                listed, edits = rich(), Edits()
                self.assertIs(edit(edits), edits)
                self.assertEqual(listed.apply_all(edits), (answer,))
                self.assertEqual(listed, store)

    def test_in_one_list(self):
        """Many of these are refused by then; each gets the answer that it gets by itself."""
        edits, store, answers = Edits(), rich(), []
        for edit, _, _ in EDITS:
            edit(edits)
            try:
                answers.append(edit(store))
            except Error as error:
                answers.append(error.number)
        listed = rich()
        applied = listed.apply(edits)
        given = [answer.number if isinstance(answer, Error) else answer for answer in applied.answers]
        self.assertEqual(given, answers)
        self.assertTrue(any(isinstance(answer, int) for answer in given))
        self.assertEqual(listed, store)
        self.assertEqual(len(edits), len(EDITS))

    def test_empty_parts_go(self):
        store = rich()
        store.remove_atoms_by(0, BFactorRange(0, 45))
        self.assertEqual(store.counts, Counts(2, 4, 5, 6, 3))
        self.assertEqual(store.remove_empty(0), Edited(True, 0))
        self.assertEqual(store.counts, Counts(2, 3, 3, 3, 3))

    def test_every_value_of_an_atom(self):
        atom = NewAtom(2**64 - 1, "o1", -1.5, 2.0**-1074, 1e308, 0.25, -0.0, "oG", -(2**63), True)
        store = Store()
        store.add_model(2**64 - 1)
        store.add_atom(0, atom, " B ", (-(2**63), "i"), ("lig", "b"))
        hit = store.find(EVERY)[0]
        self.assertEqual((hit.model.serial_number, hit.chain.id), (2**64 - 1, "B"))
        self.assertEqual((hit.residue.id, hit.residue.serial_number, hit.residue.insertion_code), ((-(2**63), "I"), -(2**63), "I"))
        self.assertEqual((hit.conformer.id, hit.conformer.name, hit.conformer.alternative_location), (("LIG", "B"), "LIG", "B"))
        found = hit.atom
        self.assertEqual((found.serial_number, found.name, found.charge, found.hetero), (2**64 - 1, "O1", -(2**63), True))
        self.assertEqual((found.pos, found.x, found.y, found.z), ((-1.5, 2.0**-1074, 1e308), -1.5, 2.0**-1074, 1e308))
        self.assertEqual((found.occupancy, str(found.b_factor), found.element), (0.25, "-0.0", "Og"))

    def test_values_by_default(self):
        store = Store()
        store.add_model(1)
        store.add_atom(0, NewAtom(3, ""), "A", (1, None), ("GLY", None))
        atom = store.atoms[0]
        self.assertEqual((atom.name, atom.pos, atom.occupancy, atom.b_factor), ("", (0.0, 0.0, 0.0), 1.0, 0.0))
        self.assertEqual((atom.element, atom.charge, atom.hetero), (None, 0, False))


class Elements(unittest.TestCase):
    # The atom of `rich` without an element.
    UNKNOWN = (0, 2, 0, 0, 0)

    def lists(self, store, search):
        """The positions that a search lists, from the whole store and from each level above the atom."""
        finds = (store.chain_find, store.residue_find, store.conformer_find)
        lower = [find(self.UNKNOWN[:indexes], search) for indexes, find in enumerate(finds, 2)]
        return [[hit.position for hit in hits] for hits in (store.find(search), store.model_find(0, search), *lower)]

    def test_where_it_is_missing(self):
        word = 12 * rich().chain_find((0, 2), EVERY)[0].records[4] + 8
        for number, symbol in enumerate(ELEMENTS, 1):
            expected = rich().words.tolist()
            expected[word] = number
            for element in (number, symbol, symbol.lower()):
                store = rich()
                self.assertEqual(store.set_element(self.UNKNOWN, element), Edited(True, 0))
                self.assertEqual(store.words.tolist(), expected)
                self.assertEqual(store.chain_find((0, 2), EVERY)[0].atom.element, symbol)

    def test_where_one_is_present(self):
        store = rich()
        hits = store.find(EVERY)
        for element in ("N", "C"):
            self.assertEqual(store.set_element((0, 0, 0, 0, 0), element), Edited(False, 0))
        self.assertEqual(store, rich())
        self.assertEqual(hits[0].atom.element, "N")
        store.set_element(self.UNKNOWN, "S")
        with self.assertRaises(StaleHitError):
            hits[0].atom
        set_once = store.words.tolist()
        self.assertEqual(store.set_element(self.UNKNOWN, "Se"), Edited(False, 0))
        self.assertEqual(store.words.tolist(), set_once)

    def test_searches_before_and_after(self):
        """A search lists what it listed before, or all of it but the atom whose element was set."""
        # With the elements that make the search false at the atom.
        searches = [
            (Element("N"), "CO"),
            (~Element("N"), "N"),
            (Element("N") & ~Element("N"), "CNO"),
            (Element("N") | ~Element("N"), ""),
            (Element("N") ^ Element("O"), "C"),
            (AtomName("XX") & ~Element("C"), "C"),
            (Hetero() & Element("C"), ""),
            (BFactor(60.0) | Element("C"), ""),
            # False at the atom's chain, but undecided from there down.
            (ChainId("A") & Element("N"), "CO"),
        ]
        for search, lost_by in searches:
            for element in "CNO":
                with self.subTest((search, element)):
                    store = rich()
                    expected = self.lists(store, search)
                    if element in lost_by:
                        self.assertIn(self.UNKNOWN, expected[4])
                        expected = [[position for position in listed if position != self.UNKNOWN] for listed in expected]
                    self.assertEqual(store.set_element(self.UNKNOWN, element), Edited(True, 0))
                    self.assertEqual(self.lists(store, search), expected)


class Lists(unittest.TestCase):
    def test_apply_all_or_none(self):
        store = rich()
        before = store.words.tolist()
        hits = store.find(EVERY)
        edits = Edits().add_model(3).remove_chain((0, 0)).remove_atom((0, 7, 0, 0, 0)).add_model(4)
        for _ in range(100):
            edits.add_model(5)
        with self.assertRaises(EditError) as refused:
            store.apply_all(edits)
        self.assertEqual((refused.exception.index, refused.exception.cause.number), (2, 5))
        self.assertEqual((refused.exception.number, refused.exception.name), (5, "NoPosition"))
        self.assertEqual(str(refused.exception), f"edit 2 of the list is refused: {Error(5)}")
        self.assertEqual(store.words.tolist(), before)
        self.assertEqual(hits[0].atom.serial_number, 1)

    def test_apply_each(self):
        store = rich()
        applied = store.apply(Edits().remove_chain((0, 7)).remove_chain((0, 0)).join_models(0, 0).add_model(4))
        self.assertEqual((applied.answers[1], applied.answers[3]), (Edited(True, 4), Edited(True, 0)))
        self.assertEqual([(index, error.number) for index, error in applied.refused], [(0, 5), (2, 9)])
        self.assertEqual(repr(applied), "<Applied: 4 edits, 2 refused>")
        with self.assertRaises(EditError) as refused:
            applied.all()
        self.assertEqual(refused.exception.index, 0)
        self.assertEqual(serials(store, EVERY), [5, 6, 7])

    def test_no_edit(self):
        store = rich()
        hits = store.find(EVERY)
        self.assertEqual((store.apply_all(Edits()), store.apply(Edits()).all()), ((), ()))
        self.assertEqual((store, hits[0].atom.serial_number), (rich(), 1))

    def test_refused_as_a_whole(self):
        store = rich()
        before = store.words.tolist()
        edits = Edits().add_model(1).remove_chain_by_id(0, "A" * 2_000)
        for call in (store.apply, store.apply_all):
            with self.assertRaises(Error) as refused:
                call(edits)
            self.assertEqual((refused.exception.number, refused.exception.name), (22, "BadList"))
            self.assertNotIsInstance(refused.exception, EditError)
        self.assertEqual(store.words.tolist(), before)
        # By itself the same edit looks for a long id, and finds none.
        self.assertEqual(store.remove_chain_by_id(0, "A" * 2_000), (False, 0))

    def test_a_list_keeps_its_edits(self):
        import copy

        edits = Edits().add_model(1)
        other = copy.copy(edits).add_model(2)
        self.assertEqual((len(edits), len(other)), (1, 2))
        for _ in range(2):
            store = Store()
            store.apply_all(edits)
            self.assertEqual(records(store)[:2], [1, 1])
        store.apply_all(other)
        self.assertEqual([model.serial_number for model in store.models], [1, 1, 2])
        store.apply_all(edits.add_model(3))
        self.assertEqual([model.serial_number for model in store.models], [1, 1, 2, 1, 3])
        self.assertEqual(repr(other), "<Edits: 2>")

    def test_a_bad_value_adds_nothing_to_a_list(self):
        edits = Edits().add_model(1)
        with self.assertRaises(TypeError):
            edits.add_atom(0, NewAtom(1, None), "A", (1, None), ("GLY", None))
        store = Store()
        self.assertEqual(store.apply_all(edits), (Edited(True, 0),))
