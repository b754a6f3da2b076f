"""Searches from lower down: find at a position of a model, chain, residue or conformer."""

import unittest

from jubrelti import *

from .samples import rich, worked
from .test_refusals import too_long

EVERY = Known(True)

# A term of each level that is true of no record, from the model down.
OF_NO_RECORD = (ModelSerialNumber(9), ChainId("Z"), ResidueSerialNumber(-9), ConformerName("TRP"), AtomName("SD"))


def find_at(store, start, search):
    """The call that stands for a position of that many indexes."""
    if len(start) == 1:
        return store.model_find(start[0], search)
    return (None, None, store.chain_find, store.residue_find, store.conformer_find)[len(start)](start, search)


def starts(store):
    """Every start that has atoms: the beginnings of their positions."""
    return sorted({hit.position[:indexes] for hit in store.find(EVERY) for indexes in (1, 2, 3, 4)})


def under(store, start, search):
    return [hit.records for hit in store.find(search) if hit.position[: len(start)] == start]


class Starts(unittest.TestCase):
    def test_atoms_under_a_start(self):
        store = rich()
        self.assertEqual(len(starts(store)), 2 + 4 + 5 + 6)
        for start in starts(store):
            for search in (EVERY, Known(False), Element("N"), ~Element("N"), AtomSerialNumberRange(2, 5) ^ Element(7)):
                with self.subTest((start, search)):
                    self.assertEqual([hit.records for hit in find_at(store, start, search)], under(store, start, search))

    def test_terms_of_its_own_level_and_above(self):
        store = rich()
        for start in starts(store):
            every = under(store, start, EVERY)
            for level, term in enumerate(OF_NO_RECORD):
                with self.subTest((start, term)):
                    listed = [hit.records for hit in find_at(store, start, term)]
                    self.assertEqual(listed, every if level < len(start) else [])
                    self.assertEqual([hit.records for hit in find_at(store, start, ~term)], every)

    def test_the_worked_store(self):
        for start in starts(worked()):
            atoms = [[hit.records[4] for hit in find_at(worked(), start, search)] for search in (Element(7), ~Element(7), EVERY)]
            self.assertEqual(atoms, [[4, 5], [5], [4, 5]])

    def test_backbone_by_the_atom_alone(self):
        water = worked("HOH")
        names = [[hit.atom.name for hit in water.conformer_find((0, 0, 0, 0), term)] for term in (Backbone(), SideChain())]
        self.assertEqual(names, [["N"], ["XX"]])
        self.assertEqual([len(water.residue_find((0, 0, 0), term)) for term in (Backbone(), SideChain())], [0, 0])

    def test_all_five_levels(self):
        hit = rich().conformer_find((0, 0, 1, 1), EVERY)[0]
        self.assertEqual((hit.model.serial_number, hit.chain.id, hit.residue.id, hit.conformer.id), (1, "A", (4, "B"), ("SER", "B")))
        self.assertEqual((hit.atom.name, hit.position, hit.records), ("OG", (0, 0, 1, 1, 0), (0, 1, 6, 9, 10)))

    def test_without_atoms(self):
        store = rich()
        store.apply_all(Edits().add_model(8).remove_atom((0, 1, 0, 0, 0)).remove_conformer((0, 2, 0, 0)))
        empty = ((2,), (0, 1), (0, 1, 0), (0, 1, 0, 0), (0, 2), (0, 2, 0))
        self.assertEqual([len(find_at(store, start, EVERY)) for start in empty], [0] * 6)

    def test_positions_that_are_not_there(self):
        store = rich()
        for start in ((2,), (2**64 - 1,), (0, 3), (1, 1), (0, 0, 2), (2, 0, 0), (0, 0, 0, 1), (0, 0, 2, 0)):
            # A search that is too long would be refused after the position.
            for search in (EVERY, too_long()):
                with self.subTest(start), self.assertRaises(Error) as caught:
                    find_at(store, start, search)
                self.assertEqual(caught.exception.name, "NoPosition")
        with self.assertRaises(Error) as caught:
            store.chain_find((0, 0), too_long())
        self.assertEqual(caught.exception.name, "TreeShape")

    def test_values_without_a_word(self):
        store = rich()
        with self.assertRaisesRegex(ValueError, "the model's index"):
            store.model_find(-1, EVERY)
        with self.assertRaisesRegex(ValueError, r"the position of a chain has 2 indexes \(model, chain\), not 1"):
            store.chain_find((0,), EVERY)
        with self.assertRaisesRegex(TypeError, "the position of a residue is the indexes"):
            store.residue_find(0, EVERY)
        with self.assertRaisesRegex(TypeError, "a search is built from terms"):
            store.conformer_find((0, 0, 0, 0), "Backbone")

    def test_an_edit_makes_them_stale(self):
        store = rich()
        hits = store.chain_find((0, 0), EVERY)
        store.remove_chain((0, 1))
        with self.assertRaises(StaleHitError):
            hits[0].atom
