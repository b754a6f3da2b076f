"""A store grows where an edit has no room, and holds the same structure then."""

import unittest

from jubrelti import *

from .samples import records

ATOMS = 2_000


def place(serial):
    """Ten atoms to a residue, fifty residues to a chain."""
    return "ABCD"[serial // 500], (serial // 10, None), ("GLY", None)


def gathered():
    edits = Edits().add_model(1)
    for serial in range(ATOMS):
        edits.add_atom(0, NewAtom(serial, "CA"), *place(serial))
    return edits


class Growth(unittest.TestCase):
    def test_edit_by_edit(self):
        store = Store()
        store.add_model(1)
        for serial in range(ATOMS):
            store.add_atom(0, NewAtom(serial, "CA"), *place(serial))
        self.assertEqual(store.counts, Counts(1, 4, 200, 200, ATOMS))
        # 2,405 records, in room that was doubled from 1 on.
        self.assertEqual(store.capacity, 4_096)
        roomy = Store(4_096)
        roomy.apply_all(gathered())
        self.assertEqual(store.words.tolist(), roomy.words.tolist())

    def test_by_a_list(self):
        store = Store(3)
        store.apply_all(gathered())
        self.assertEqual(store.capacity, 2_405)
        self.assertEqual(len(store.find(Known(True))), ATOMS)
        roomy = Store(5_000)
        roomy.apply_all(gathered())
        self.assertEqual((roomy.capacity, roomy), (5_000, store))

    def test_no_more_than_a_list_counts_on(self):
        """Ids in many forms, a refused atom that was to make its parents, and an edit between that takes them away."""
        edits = Edits().add_model(1)
        for code in ("a", "A", " a", "b"):
            edits.add_atom(0, NewAtom(0, "CA", float("nan")), "A", (1, code), ("GLY", " "))
            for serial in range(3):
                edits.add_atom(0, NewAtom(serial, "CA"), "A", (1, code), ("GLY", None))
                edits.add_atom(0, NewAtom(serial, "CA"), " A", (1, code), ("gly", "\t"))
        store = Store()
        self.assertEqual({error.number for _, error in store.apply(edits).refused}, {7})
        self.assertEqual(store.counts, Counts(1, 1, 2, 2, 24))
        self.assertEqual(store.capacity, edits._records)
        again = Edits().add_model(1)
        for serial in range(2):
            again.add_atom(0, NewAtom(serial, "CA"), "A", (1, None), ("GLY", None)).remove_chain((0, 0))
        self.assertEqual(again._records, 9)

    def test_a_refusal_does_not_grow(self):
        store = Store(1)
        store.add_model(1)
        with self.assertRaises(Error):
            store.add_atom(1, NewAtom(1, "CA"), "A", (1, None), ("GLY", None))
        with self.assertRaises(EditError):
            store.apply_all(Edits().add_model(2).remove_chain((0, 0)))
        self.assertEqual(store.capacity, 1)

    def test_the_most_records(self):
        words = [1, 7] + [0] * 10
        full = Store.from_words(words * MAX_RECORDS + [12 * MAX_RECORDS])
        self.assertEqual((full.capacity, full.counts.models), (MAX_RECORDS, MAX_RECORDS))
        with self.assertRaises(Error) as refused:
            full.add_model(2)
        self.assertEqual(refused.exception.number, 8)
        self.assertEqual([error.number for _, error in full.apply(Edits().remove_empty(99_999).add_model(2)).refused], [8])
        with self.assertRaises(EditError):
            full.apply_all(Edits().add_model(2))
        self.assertEqual(full.capacity, MAX_RECORDS)
        most = Store.from_words(words * 60_000 + [12 * 60_000])
        most.add_model(2)
        self.assertEqual(most.capacity, MAX_RECORDS)

    def test_copies(self):
        store = Store(100)
        store.apply_all(Edits().add_model(1).add_model(2))
        exact, roomy = store.copy(), store.copy(7)
        self.assertEqual((exact.capacity, roomy.capacity), (2, 7))
        self.assertEqual((records(exact), records(roomy)), (records(store), records(store)))
        exact.add_model(3)
        self.assertEqual((store.counts.models, exact.counts.models), (2, 3))
        self.assertNotEqual(exact, store)
        with self.assertRaises(Error) as refused:
            store.copy(MAX_RECORDS + 1)
        self.assertEqual(refused.exception.number, 1)
