"""The worked cases of docs/SCOPE.md."""

import unittest

from jubrelti import *

from .samples import worked


def atoms(store, search):
    return [hit.records[4] for hit in store.find(search)]


class Cases(unittest.TestCase):
    def test_1_undecided_is_a_hit(self):
        self.assertEqual(atoms(worked(), Element(7)), [4, 5])

    def test_2_not(self):
        self.assertEqual([hit.records for hit in worked().find(~Element("N"))], [(0, 1, 2, 3, 5)])

    def test_3_and(self):
        self.assertEqual(atoms(worked(), AtomName("N") & Element("N")), [4])

    def test_4_xor(self):
        self.assertEqual(atoms(worked(), Element(7) ^ Element(7)), [5])

    def test_5_backbone_and_side_chain(self):
        self.assertEqual((atoms(worked(), Backbone()), atoms(worked(), SideChain())), ([4], [5]))

    def test_6_no_amino_acid(self):
        water = worked("HOH")
        self.assertEqual((atoms(water, Backbone()), atoms(water, SideChain())), ([], []))

    def test_7_and_8_rounded_gap(self):
        self.assertEqual(atoms(worked(b_factor=0.5), BFactor(0.5 + 2.0**-53)), [4, 5])
        self.assertEqual(atoms(worked(b_factor=1.0), BFactor(1 + 2.0**-52)), [])
        self.assertEqual(atoms(worked(b_factor=2.0**-52), BFactor(2.0**-200)), [])

    def test_9_room(self):
        for words, capacity in ((61, 5), (60, 4)):
            store = Store.from_words([0] * words)
            self.assertEqual(store.capacity, capacity)
            store.add_model(1)
            store.add_atom(0, NewAtom(1, "N"), "A", (1, None), ("ALA", None))
            # The shorter one refuses with 8 and has grown.
            self.assertEqual(len(store.words), 61 if words == 61 else 8 * 12 + 1)

    def test_10_prepared_codes(self):
        store = Store()
        store.add_model(1)
        for serial, code in enumerate(("a", "a", "A")):
            store.add_atom(0, NewAtom(serial, "N"), "A", (1, code), ("ALA", None))
        self.assertEqual([residue.id for residue in store.residues], [(1, "A")])
        self.assertEqual([atom.serial_number for atom in store.atoms], [0, 1, 2])
