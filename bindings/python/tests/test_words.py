"""A store's words: taken, shown and compared."""

import ctypes
import unittest
from array import array

from jubrelti import *

from .samples import records, rich, worked

try:
    import numpy
except ImportError:
    numpy = None


class Taken(unittest.TestCase):
    def test_each_form(self):
        store = rich()
        words = store.words.tolist()
        raw = array("Q", words).tobytes()
        forms = [
            words,
            tuple(words),
            array("Q", words),
            array("L", words),
            store.words,
            memoryview(raw).cast("Q"),
            (ctypes.c_uint64 * len(words))(*words),
            memoryview(array("Q", [word for pair in zip(words, words) for word in pair]))[::2],
        ]
        for form in forms:
            taken = Store.from_words(form)
            self.assertEqual(taken, store)
            self.assertEqual(taken.words.tolist(), words)

    def test_they_are_copied(self):
        words = array("Q", rich().words)
        store = Store.from_words(words)
        words[1] = 99
        self.assertEqual(store.models[0].serial_number, 1)
        store.add_model(2)
        self.assertEqual(words[1], 99)
        words.append(1)

    def test_junk(self):
        good = worked().words.tolist()
        junk = {"every word": [7] * 13, "no end": good[:-1] + [71], "end past the words": good[:-1] + [84]}
        for name, index, word in (("kind", 12, 6), ("order", 0, 2), ("text", 13, 0x41), ("element", 56, 119), ("unused", 11, 1)):
            junk[name] = good[:index] + [word] + good[index + 1 :]
        self.assertEqual(len(junk), 8)
        for name, words in junk.items():
            with self.subTest(name), self.assertRaises(Error) as refused:
                Store.from_words(words)
            self.assertEqual((refused.exception.number, refused.exception.name), (2, "BrokenLayout"))
        with self.assertRaises(Error) as refused:
            Store.from_words(array("Q", bytes(8 * 1_200_002)))
        self.assertEqual(refused.exception.number, 1)

    def test_what_is_no_words(self):
        for words in (bytes(104), bytearray(104), array("I", [0] * 13), "0", None, 13, {0: 0}, [0.0], array("d", [0.0]), [None]):
            with self.subTest(words), self.assertRaises(TypeError):
                Store.from_words(words)
        for words in ([-1], [2**64], array("q", [-1])):
            with self.subTest(words), self.assertRaisesRegex(ValueError, "a word of a store is a whole number from 0 to "):
                Store.from_words(words)


class Shown(unittest.TestCase):
    def test_words_are_a_view(self):
        store = Store(2)
        words = store.words
        self.assertEqual((words.format, words.itemsize, len(words), words.readonly), ("Q", 8, 25, True))
        with self.assertRaises(TypeError):
            words[0] = 1
        store.add_model(5)
        self.assertEqual((words[1], words[24]), (5, 12))
        # A list of edits and growth leave them as they were.
        store.apply_all(Edits().add_model(6))
        store.add_model(7)
        self.assertEqual((words[13], words[24], len(words)), (0, 12, 25))
        self.assertEqual([model.serial_number for model in store.models], [5, 6, 7])

    def test_equal_whatever_the_room(self):
        store = rich()
        self.assertEqual(store, Store.from_words(records(store) + [0] * 500 + [store.words[-1]]))
        self.assertNotEqual(store, Store())
        self.assertNotEqual(store, records(store))
        self.assertEqual(Store(), Store(7))
        with self.assertRaises(TypeError):
            hash(store)

    @unittest.skipIf(numpy, "NumPy is installed")
    def test_without_numpy(self):
        with self.assertRaisesRegex(ImportError, "NumPy isn't installed"):
            rich().records


@unittest.skipUnless(numpy, "NumPy isn't installed")
class NumPy(unittest.TestCase):
    def test_records_are_a_view(self):
        store = Store(3)
        store.add_model(5)
        rows = store.records
        self.assertEqual((rows.shape, rows.dtype, rows.flags.writeable), ((1, 12), numpy.uint64, False))
        self.assertTrue(numpy.shares_memory(rows, numpy.frombuffer(store.words, dtype=numpy.uint64)))
        with self.assertRaises(ValueError):
            rows[0, 1] = 6
        with self.assertRaises(ValueError):
            rows.flags.writeable = True
        store.add_model(6)
        self.assertEqual((rows[0, 1], store.records.shape), (5, (2, 12)))
        self.assertEqual(Store().records.shape, (0, 12))

    def test_hits_choose_records(self):
        store = rich()
        atoms = numpy.asarray(store.find(Backbone()).numbers).reshape(-1, 5)[:, 4]
        rows = store.records[atoms]
        self.assertEqual(rows[:, 7].copy().view(numpy.float64).tolist(), [10.0, 30.0, 70.0])

    def test_words_from_an_array(self):
        store = rich()
        words = numpy.array(store.words)
        spread = numpy.repeat(words, 2)[::2]
        for form in (words, words.astype(">u8"), spread, words.astype(object), Store.from_words(words).words):
            self.assertEqual(Store.from_words(form), store)
        zeros = numpy.zeros(13, dtype=numpy.int64)
        self.assertEqual(Store.from_words(zeros).capacity, 1)
        for bad in (words.reshape(-1, 1), words.astype(numpy.float64), numpy.zeros(13, dtype=numpy.uint32)):
            with self.assertRaises(TypeError):
                Store.from_words(bad)
        with self.assertRaises(ValueError):
            Store.from_words(zeros - 1)

    def test_numbers_of_numpy(self):
        store = Store()
        store.add_model(numpy.uint64(2**64 - 1))
        atom = NewAtom(numpy.int32(4), "C", numpy.float32(0.5), numpy.float64(2), numpy.int64(3), hetero=numpy.bool_(True))
        store.add_atom(numpy.int64(0), atom, "A", (numpy.int16(-3), None), ("GLY", None))
        found = store.find(ResidueSerialNumber(numpy.int8(-3)) & BFactor(numpy.float32(0)))[0]
        self.assertEqual((found.atom.pos, found.atom.serial_number, found.atom.hetero), ((0.5, 2.0, 3.0), 4, True))
        with self.assertRaises(ValueError):
            store.add_model(numpy.int64(-1))
