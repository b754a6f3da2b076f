import unittest

from jubrelti import Edits, Error, NewAtom, Store


class Writing(unittest.TestCase):
    def store(self):
        edits = Edits().add_model(1)
        edits.add_atom(0, NewAtom(1, "CA", x=1.25, y=-0.0004, z=-12.3456, b_factor=20.5, element="C"), "A", (-7, "B"), ("SER", "A"))
        edits.add_atom(0, NewAtom(2, "CA", x=1.25, element="Ca", charge=2, hetero=True), "A", (8, None), ("CA", None)).add_model(2)
        store = Store()
        store.apply_all(edits)
        return store

    def test_lines(self):
        text = self.store().write_pdb()
        lines = text.splitlines()
        self.assertEqual([len(line) for line in lines], [80] * 6)
        self.assertTrue(text.endswith("\n"))
        self.assertEqual(lines[1], "ATOM      1  CA ASER A  -7B      1.250   0.000 -12.346  1.00 20.50           C  ")
        self.assertEqual(lines[2], "HETATM    2 CA    CA A   8       1.250   0.000   0.000  1.00  0.00          CA2+")
        self.assertEqual([line[:14].rstrip() for line in lines[3:]], ["ENDMDL", "MODEL        2", "ENDMDL"])

    def test_halves_go_to_the_even_digit(self):
        store = Store()
        store.add_model(1)
        store.add_atom(0, NewAtom(1, "CA", x=0.0625, y=-0.1875, z=-0.3125, occupancy=0.125, b_factor=-0.375), "A", (1, None), ("GLY", None))
        self.assertEqual(store.write_pdb().splitlines()[1][30:66], "   0.062  -0.188  -0.312  0.12 -0.38")

    def test_no_model(self):
        self.assertEqual(Store().write_pdb(), "")

    def test_too_wide(self):
        store = self.store()
        store.add_model(10_000)
        with self.assertRaises(Error) as refused:
            store.write_pdb()
        self.assertEqual((refused.exception.number, refused.exception.name), (12, "TooWide"))


if __name__ == "__main__":
    unittest.main()
