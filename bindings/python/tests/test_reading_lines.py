"""Structures read from PDB lines. What the library takes for a structure is proved, so these look at what the package adds: room,
and the line at which a text stops being one.
"""

import unittest

from jubrelti import MAX_RECORDS, Counts, Error, LineError, Store

from .samples import rich

LINE = 81
END = "%-80s\n" % "ENDMDL"


def model(serial):
    return "%-80s\n" % f"MODEL     {serial:4}"


def atom(serial, place, x="-12.346"):
    """A carbon CA."""
    return f"ATOM  {serial:5}  CA {place:14}{x:>8}   0.000   0.000  1.00  0.00           C  \n"


def text():
    """Two models: in the first the lines of two chains and of two locations take turns."""
    places = ["ASER A  -7B", " GLY B   1 ", "BSER A  -7B", "ASER A  -7B", " GLY A   8 "]
    first = "".join(atom(serial, place) for serial, place in enumerate(places, 1))
    return model(1) + first + END + model(1) + atom(9999, " GLY A   8 ", "0.001") + END


def spoilt(line, column, letters):
    """The text with other letters from some column on, counted from 1, in the line of a number."""
    at = (line - 1) * LINE + column - 1
    return text()[:at] + letters + text()[at + len(letters) :]


class ReadingLines(unittest.TestCase):
    def refused(self, given, line):
        with self.assertRaises(LineError) as caught:
            Store.read_pdb(given)
        self.assertEqual((caught.exception.line, caught.exception.number, caught.exception.name), (line, 17, "BadText"))
        self.assertTrue(str(caught.exception).startswith(f"line {line}: the text isn't PDB lines as write_pdb writes them; "))

    def test_a_structure(self):
        store = Store.read_pdb(text())
        self.assertEqual(store.counts, Counts(2, 3, 4, 5, 6))
        self.assertEqual([atom.serial_number for atom in store.atoms], [1, 4, 3, 5, 2, 9999])
        self.assertEqual([atom.x for atom in store.atoms], [-12.346] * 5 + [0.001])

    def test_written_and_read_again(self):
        lines = rich().write_pdb()
        self.assertEqual(Store.read_pdb(lines), rich())
        self.assertEqual(Store.read_pdb(lines).write_pdb(), lines)

    def test_room(self):
        """Four records for an atom that doesn't stand where the one before it does are enough, whatever the order of the lines, and the
        store grows then."""
        store = Store.read_pdb(text())
        self.assertEqual(sum(store.counts), 20)
        residues = ["A   1 ", "A   1A", "A  11 ", "B   1 ", "A   1 ", "B   1 "]
        lines = [atom(1, " GLY " + residue) for residue in residues]
        shuffled = Store.read_pdb(model(1) + "".join(lines) + END)
        self.assertEqual((shuffled.capacity, shuffled.counts), (25, Counts(1, 2, 4, 4, 6)))
        self.assertEqual(Store.read_pdb(model(1) + 3 * lines[0] + END).capacity, 7)
        for serial in range(store.capacity):
            store.add_model(serial)

    def test_no_lines(self):
        self.assertEqual((Store.read_pdb("").capacity, Store.read_pdb("")), (0, Store()))

    def test_each_line_spoilt(self):
        for line in range(1, len(text()) // LINE + 1):
            for column, letters in [(1, "X"), (70, "\t"), (70, "\n"), (80, "\u00e9"), (80, "\ud800"), (81, " ")]:
                with self.subTest((line, column, letters)):
                    self.refused(spoilt(line, column, letters), line)

    def test_fields_spoilt(self):
        fields = [(7, "00001"), (13, "CA  "), (14, "ca"), (17, "a"), (22, " "), (31, "  -0.000"), (55, "  1.0 "), (77, "Ca")]
        for column, letters in fields:
            with self.subTest((column, letters)):
                self.refused(spoilt(2, column, letters), 2)

    def test_cut(self):
        last = len(text()) // LINE
        self.refused(text()[:-LINE], last)
        self.refused(text()[:-1], last)
        self.refused(text() + "\n", last + 1)
        self.refused(text() + END, last + 1)
        self.refused(text()[LINE:], 1)
        self.refused(text().replace("\n", "\r\n"), 1)

    def test_the_most_records(self):
        """A record more than a store can have has no room, and a bad line is said first."""
        lines = (model(1) + END) * MAX_RECORDS
        self.assertEqual(Store.read_pdb(lines).capacity, MAX_RECORDS)
        with self.assertRaises(Error) as caught:
            Store.read_pdb(lines + model(2) + END)
        self.assertEqual(caught.exception.number, 8)
        self.refused(lines + model(2), 200_002)

    def test_no_text(self):
        for given, kind in [(b"", "bytes"), (None, "NoneType")]:
            with self.assertRaisesRegex(TypeError, f"PDB lines are a text, not {kind}"):
                Store.read_pdb(given)


if __name__ == "__main__":
    unittest.main()
