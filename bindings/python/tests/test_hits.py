"""Hits, parts of the structure, and that none of them reads other records after an edit."""

import copy
import pickle
import unittest

from jubrelti import *

from .samples import rich

EVERY = Known(True)


class Sequences(unittest.TestCase):
    def test_hits_are_a_sequence(self):
        hits = rich().find(EVERY)
        self.assertEqual((len(hits), repr(hits)), (7, "<Hits: 7>"))
        self.assertEqual([hit.atom.serial_number for hit in hits], [1, 2, 3, 4, 5, 6, 7])
        self.assertEqual((hits[-1].atom.serial_number, hits[2].atom.serial_number), (7, 3))
        self.assertEqual([hit.atom.serial_number for hit in hits[5:0:-2]], [6, 4, 2])
        self.assertEqual([hit.atom.serial_number for hit in reversed(hits)], [7, 6, 5, 4, 3, 2, 1])
        self.assertIn(hits[3], hits[2:5])
        self.assertNotIn(hits[3], hits[4:])
        for index in (7, -8):
            with self.assertRaises(IndexError):
                hits[index]
        self.assertEqual(hits[1:3].numbers.tolist(), [*hits[1].records, *hits[2].records])
        self.assertEqual((hits.numbers.format, hits.numbers.readonly), ("Q", True))

    def test_sets(self):
        store = rich()
        both = set(store.find(Hetero() | Backbone())) & set(store.find(ChainId("B")))
        self.assertEqual(both, set(store.find(Hetero())))
        self.assertNotEqual(store.find(EVERY)[0], rich().find(EVERY)[0])

    def test_records_and_positions(self):
        store = rich()
        hits = store.find(EVERY)
        self.assertEqual(hits[3].records, (0, 1, 6, 9, 10))
        positions = [(0, 0, 0, 0, 0), (0, 0, 0, 0, 1), (0, 0, 1, 0, 0), (0, 0, 1, 1, 0), (0, 1, 0, 0, 0), (0, 2, 0, 0, 0), (1, 0, 0, 0, 0)]
        self.assertEqual([hit.position for hit in hits], positions)
        self.assertEqual([atom.position for atom in store.atoms], positions)
        # A position is what the removal takes.
        for index, hit in enumerate(hits):
            other = rich()
            other.remove_atom(hit.position)
            left = [found.atom.serial_number for found in other.find(EVERY)]
            self.assertEqual(left, [n for n in range(1, 8) if n != index + 1])

    def test_reprs(self):
        store = rich()
        hit = store.find(AtomName("OG"))[0]
        self.assertEqual(
            repr(hit), "<Hit model 1, chain 'A', residue (4, 'B'), conformer ('SER', 'B'), atom 'OG', serial number 4>"
        )
        self.assertEqual(repr(store.chains), "<Parts of type Chain>")
        self.assertEqual(
            repr(store), "<Store: models 2, chains 4, residues 5, conformers 6, atoms 7; room for 24 records>"
        )

    def test_lookup(self):
        store = rich()
        self.assertEqual(store.binary_find_atom(4, "B").records, (0, 1, 6, 9, 10))
        self.assertEqual(store.binary_find_atom(2).atom.name, "CB")
        # Atom 7 stands in the second model, and atom 4 in another location.
        self.assertEqual([store.binary_find_atom(*given) for given in ((7,), (4,), (4, "b"), (9,))], [None] * 4)


class Structure(unittest.TestCase):
    def test_from_the_top(self):
        store = rich()
        seen = [
            (model.serial_number, chain.id, residue.id, conformer.id, atom.serial_number)
            for model in store.models
            for chain in model.chains
            for residue in chain.residues
            for conformer in residue.conformers
            for atom in conformer.atoms
        ]
        hits = store.find(EVERY)
        expected = [(h.model.serial_number, h.chain.id, h.residue.id, h.conformer.id, h.atom.serial_number) for h in hits]
        self.assertEqual((seen, len(seen)), (expected, 7))

    def test_each_level(self):
        store = rich()
        self.assertEqual(store.counts, Counts(2, 4, 5, 6, 7))
        levels = (store.models, store.chains, store.residues, store.conformers, store.atoms)
        self.assertEqual(tuple(map(len, levels)), store.counts)
        self.assertEqual([len(list(level)) for level in levels], list(store.counts))
        first = store.models[0]
        self.assertEqual(tuple(map(len, (first.chains, first.residues, first.conformers, first.atoms))), (3, 4, 5, 6))
        chain = first.chains[0]
        self.assertEqual(tuple(map(len, (chain.residues, chain.conformers, chain.atoms))), (2, 3, 4))
        residue = chain.residues[-1]
        self.assertEqual((len(residue.conformers), len(residue.atoms), residue.position), (2, 2, (0, 0, 1)))
        self.assertEqual([part.id for part in store.chains], ["A", "B", "C", "A"])
        self.assertEqual([atom.serial_number for atom in store.models[1].atoms], [7])
        for index in (2, -3):
            with self.assertRaisesRegex(IndexError, f"there is no model at index {index}"):
                store.models[index]
        with self.assertRaises(TypeError):
            store.models[0:1]

    def test_parts_without_children(self):
        store = Store()
        self.assertEqual((len(store.models), list(store.atoms)), (0, []))
        store.apply_all(Edits().add_model(1).add_model(2))
        self.assertEqual([len(model.chains) for model in store.models], [0, 0])

    def test_they_are_lazy(self):
        atoms = iter(rich().atoms)
        self.assertEqual(next(atoms).serial_number, 1)
        self.assertEqual(next(atoms).serial_number, 2)


class Stale(unittest.TestCase):
    def stale(self, read):
        with self.assertRaisesRegex(StaleHitError, "edited since this was found.*find it again"):
            read()

    def test_every_way_to_read(self):
        store = rich()
        hits, parts, looked_up = store.find(EVERY), store.chains, store.binary_find_atom(1)
        hit, chain, atom = hits[0], parts[0], store.atoms[0]
        store.remove_chain((0, 0))
        for name in ("model", "chain", "residue", "conformer", "atom", "records", "position"):
            self.stale(lambda: getattr(hit, name))
            self.stale(lambda: getattr(hits[1], name))
            self.stale(lambda: getattr(looked_up, name))
        for name in ("serial_number", "name", "x", "pos", "occupancy", "b_factor", "element", "charge", "hetero", "position", "records"):
            self.stale(lambda: getattr(atom, name))
        for read in (lambda: chain.id, lambda: len(parts), lambda: list(parts), lambda: list(chain.residues), lambda: hits.numbers):
            self.stale(read)
        self.assertEqual(repr(hit), "<Hit of a store that was edited since>")
        self.assertEqual(len(hits), 7)

    def test_in_the_midst_of_an_iteration(self):
        store = rich()
        self.stale(lambda: [store.remove_atom(atom.position) for atom in store.atoms])
        self.assertEqual(store.counts.atoms, 6)
        # Nor does it go on where nothing is read.
        self.stale(lambda: [store.add_model(3) for _ in store.atoms])
        self.assertEqual(store.counts.models, 3)

    def test_by_lists_and_growth(self):
        for edit in (
            lambda s: s.apply_all(Edits().add_model(3)),
            lambda s: s.apply(Edits().remove_chain((9, 9)).add_model(3)),
            lambda s: [s.add_model(n) for n in range(100)],
        ):
            store = rich()
            hit = store.find(EVERY)[0]
            edit(store)
            self.stale(lambda: hit.atom)

    def test_what_changes_nothing_keeps_them(self):
        store = rich()
        hit = store.find(EVERY)[0]
        with self.assertRaises(Error):
            store.remove_chain((9, 9))
        store.remove_chain_by_id(0, "Z")
        store.apply(Edits().remove_chain((9, 9)).remove_chain_by_id(0, "Z"))
        with self.assertRaises(EditError):
            store.apply_all(Edits().add_model(3).remove_chain((9, 9)))
        self.assertEqual((hit.atom.name, hit.position), ("N", (0, 0, 0, 0, 0)))

    def test_copies_are_of_their_own(self):
        store = rich()
        hit = store.find(EVERY)[0]
        for other in (copy.copy(store), copy.deepcopy(store), pickle.loads(pickle.dumps(store)), store.copy()):
            self.assertEqual(other, store)
            other.remove_chain((0, 0))
            self.assertNotEqual(other, store)
        self.assertEqual(hit.atom.serial_number, 1)
        for moved in (copy.deepcopy(hit), pickle.loads(pickle.dumps(hit))):
            self.stale(lambda: moved.atom)
