"""Refusals with their sentences, and values that have no word. Nothing has changed after them."""

import pickle
import unittest

from jubrelti import *
from jubrelti._errors import check
from jubrelti._tables import REFUSALS

from .samples import rich

GLY = ("GLY", None)


class Refusals(unittest.TestCase):
    def refused(self, name, edit):
        store = rich()
        before = store.words.tolist()
        with self.assertRaises(Error) as caught:
            edit(store)
        number, sentence = next((row[0], row[3]) for row in REFUSALS if row[1] == name)
        self.assertEqual((caught.exception.number, caught.exception.name, str(caught.exception)), (number, name, sentence))
        self.assertEqual(store.words.tolist(), before)

    def refused_in_a_list(self, name, edits):
        store = rich()
        self.assertEqual([error.name for _, error in store.apply(edits).refused], [name])
        self.assertEqual(store, rich())

    def test_identifiers(self):
        atom = NewAtom(1, "CA")
        bad = {
            "BadIdentifier": [("", " ", "", None), ("A\u00e5", None, "GLY", None), ("A\0", None, "GLY", None)],
            "BadInsertionCode": [("A", " ", "GLY", None), ("A", "123456789", "", None)],
            "BadConformer": [("A", None, "", None), ("A", None, "123456789", None), ("A", None, "GLY", "123456789")],
        }
        for refusal, chain, code, name, location in ((refusal, *names) for refusal, rows in bad.items() for names in rows):
            with self.subTest((refusal, chain, code, name, location)):
                self.refused(refusal, lambda s: s.add_atom(0, atom, chain, (1, code), (name, location)))
        self.refused("BadAtomName", lambda s: s.add_atom(0, NewAtom(1, "C\x7f"), "A", (1, None), GLY))

    def test_values(self):
        for field in ("x", "y", "z", "occupancy", "b_factor"):
            for value in ("nan", "inf", "-inf"):
                atom = NewAtom(1, "CA", **{field: float(value)})
                self.refused("BadValue", lambda s: s.add_atom(0, atom, "A", (1, None), GLY))

    def test_elements(self):
        """`set_element` gives no other number than an element's, so these are given as words."""
        for number in (0, 119, 2**64 - 1):
            for name, atom in (("BadValue", (0, 2, 0, 0, 0)), ("BadValue", (0, 0, 0, 0, 0)), ("NoPosition", (0, 2, 0, 0, 1))):
                self.refused(name, lambda s: s._edit(17, (*atom, number)))
                self.refused_in_a_list(name, Edits()._edit(17, (*atom, number)))

    def test_positions(self):
        self.refused("NoPosition", lambda s: s.add_atom(2, NewAtom(1, "CA"), "A", (1, None), GLY))
        self.refused("NoPosition", lambda s: s.remove_chain((0, 3)))
        self.refused("NoPosition", lambda s: s.remove_residue((0, 0, 2)))
        self.refused("NoPosition", lambda s: s.remove_conformer((0, 0, 1, 2)))
        self.refused("NoPosition", lambda s: s.remove_atom((0, 0, 0, 0, 2**64 - 1)))
        self.refused("NoPosition", lambda s: s.join_chains((0, 0), (0, 9)))
        self.refused("NoPosition", lambda s: s.set_element((0, 2, 0, 0, 1), "N"))
        self.refused("JoinWithItself", lambda s: s.join_models(1, 1))
        self.refused("JoinWithItself", lambda s: s.join_conformers((0, 0, 0, 0), (0, 0, 0, 0)))

    def test_stores(self):
        self.refused("BadLength", lambda s: Store(MAX_RECORDS + 1))
        self.refused("BadLength", lambda s: Store(2**64 - 1))
        self.refused("BadLength", lambda s: Store.from_words([]))
        self.assertEqual(len(Store(MAX_RECORDS).words), 1_200_001)

    def test_searches(self):
        self.refused("TreeShape", lambda s: s.remove_atoms_by(0, ~~(~Hetero() & Known(True)) | too_long()))
        self.refused("TreeShape", lambda s: s.find(too_long()))
        with self.assertRaises(EditError) as caught:
            rich().apply_all(Edits().remove_atoms_by(0, too_long()))
        self.assertEqual(caught.exception.name, "TreeShape")

    def test_the_table(self):
        for number, name, cause, sentence in REFUSALS:
            error = Error(number)
            self.assertEqual((error.number, error.name, str(error), repr(error)), (number, name, sentence, f"Error({number})"))
            self.assertIn("; ", sentence)
            self.assertTrue(cause)
        self.assertEqual([row[0] for row in REFUSALS], [*range(1, 18), 22, 23])
        with self.assertRaisesRegex(RuntimeError, "refusal 99 is unknown"):
            check(99)

    def test_errors_can_be_pickled(self):
        for error in (Error(5), EditError(3, Error(8)), QueryTextError("123456789"), LineError(7), StaleHitError()):
            again = pickle.loads(pickle.dumps(error))
            self.assertEqual((type(again), str(again)), (type(error), str(error)))


def too_long():
    search = Known(True)
    for _ in range(64):
        search = search & Known(True)
    return search


class WithoutWord(unittest.TestCase):
    def no_word(self, kind, sentence, edit):
        """The value is refused by the store and by a list, before any call."""
        store = rich()
        before = store.words.tolist()
        for taker in (store, Edits()):
            with self.assertRaisesRegex(kind, sentence):
                edit(taker)
        self.assertEqual(store.words.tolist(), before)

    def test_numbers(self):
        for value in (-1, 2**64):
            sentence = "the model's serial number is a whole number from 0 to 18,446,744,073,709,551,615, not "
            self.no_word(ValueError, sentence, lambda s: s.add_model(value))
            self.no_word(ValueError, "index", lambda s: s.remove_chain((0, value)))
            self.no_word(ValueError, "index", lambda s: s.remove_empty(value))
            self.no_word(ValueError, "serial number", lambda s: s.remove_atom_by_serial_number((0, 0, 0, 0), value))
        for value in (2**63, -(2**63) - 1):
            self.no_word(ValueError, "residue's serial number", lambda s: s.remove_residue_by_id((0, 0), (value, None)))
            self.no_word(ValueError, "charge", lambda s: s.add_atom(0, NewAtom(1, "C", charge=value), "A", (1, None), GLY))
        for value in (None, "1", 1.0, True, (1,)):
            self.no_word(TypeError, "the model's serial number is a whole number, not ", lambda s: s.add_model(value))

    def test_values_of_an_atom(self):
        bad = [
            (TypeError, "the atom's x is a number, not None", {"x": None}),
            (TypeError, "the atom's z is a number, not '1.0'", {"z": "1.0"}),
            (TypeError, "the atom's occupancy is a number, not True", {"occupancy": True}),
            (ValueError, "the atom's B-factor is too large", {"b_factor": 10**400}),
            (ValueError, "the symbol 'Xx', which no element has", {"element": "Xx"}),
            (ValueError, "a missing element is None", {"element": ""}),
            (ValueError, "element is a whole number from 1 to 118", {"element": 0}),
            (ValueError, "element is a whole number from 1 to 118", {"element": 119}),
            (TypeError, "element is a whole number", {"element": 7.0}),
            (TypeError, "hetero is True or False, not 2", {"hetero": 2}),
            (TypeError, "hetero is True or False, not 'yes'", {"hetero": "yes"}),
            (TypeError, "name is a text, not None", {"name": None}),
            (TypeError, "name is a text, not b'CA'", {"name": b"CA"}),
            (ValueError, "lone surrogate", {"name": "\ud800"}),
        ]
        for kind, sentence, fields in bad:
            with self.subTest(fields):
                atom = NewAtom(**{"serial_number": 1, "name": "CA", **fields})
                self.no_word(kind, sentence, lambda s: s.add_atom(0, atom, "A", (1, None), GLY))

    def test_elements(self):
        for value in (0, 119, -1):
            self.no_word(ValueError, "element is a whole number from 1 to 118", lambda s: s.set_element((0, 2, 0, 0, 0), value))
        for value in (None, 7.0, True):
            self.no_word(TypeError, "the atom's element is a whole number, not ", lambda s: s.set_element((0, 2, 0, 0, 0), value))
        self.no_word(ValueError, "the symbol 'Xx', which no element has", lambda s: s.set_element((0, 2, 0, 0, 0), "Xx"))
        self.no_word(ValueError, "the position of an atom has 5 indexes", lambda s: s.set_element((0, 2), "N"))

    def test_ids(self):
        atom = NewAtom(1, "CA")
        self.no_word(TypeError, "the chain's id is a text, not None", lambda s: s.add_atom(0, atom, None, (1, None), GLY))
        self.no_word(TypeError, "the residue's id is a pair, not 1", lambda s: s.add_atom(0, atom, "A", 1, GLY))
        self.no_word(TypeError, "the conformer's id is a pair, not 'GA'", lambda s: s.add_atom(0, atom, "A", (1, None), "GA"))
        self.no_word(TypeError, "the conformer's name is a text", lambda s: s.remove_conformer_by_id((0, 0, 0), (None, None)))
        self.no_word(TypeError, "the insertion code is a text", lambda s: s.remove_residue_by_id((0, 0), (1, 2)))
        self.no_word(TypeError, "the atom to be added is a NewAtom", lambda s: s.add_atom(0, "CA", "A", (1, None), GLY))

    def test_positions(self):
        sentence = r"the position of an atom has 5 indexes \(model, chain, residue, conformer, atom\), not 4"
        self.no_word(ValueError, sentence, lambda s: s.remove_atom((0, 0, 0, 0)))
        self.no_word(ValueError, "the position of a chain has 2", lambda s: s.remove_chain((0, 0, 0)))
        self.no_word(TypeError, "the position of a residue is the indexes", lambda s: s.remove_residue(0))
        self.no_word(TypeError, "an index of the position of a model", lambda s: s.join_models(0, None))

    def test_others(self):
        self.no_word(TypeError, "a search is built from terms", lambda s: s.remove_atoms_by(0, True))
        store = rich()
        with self.assertRaisesRegex(TypeError, "a search is built from terms"):
            store.find("ChainId('A')")
        with self.assertRaisesRegex(TypeError, "a list of edits is an Edits"):
            store.apply_all([])
        with self.assertRaisesRegex(ValueError, "the number of records"):
            Store(-1)
        with self.assertRaisesRegex(TypeError, "the alternative location is a text"):
            store.binary_find_atom(1, 2)
