"""Stores that several tests use."""

from jubrelti import Edits, NewAtom, Store


def worked(name: str = "ALA", b_factor: float = 0.0) -> Store:
    """Store S of docs/SCOPE.md: atom `N` with element 7 in record 4, atom `XX` without one in record 5."""
    store = Store(6)
    store.add_model(1)
    store.add_atom(0, NewAtom(1, "N", element=7, b_factor=b_factor), "A", (7, None), (name, None))
    store.add_atom(0, NewAtom(2, "XX", b_factor=b_factor), "A", (7, None), (name, None))
    return store


def rich() -> Store:
    """Two models, and an atom or two for each term. The serial numbers of the atoms are 1 to 7."""
    edits = Edits().add_model(1).add_model(5)
    edits.add_atom(0, NewAtom(1, "N", 1.0, 2.0, 3.0, 1.0, 10.0, "N"), "A", (-3, None), ("ALA", None))
    edits.add_atom(0, NewAtom(2, "CB", 1.5, 2.5, 3.5, 0.5, 20.0, "C", -1), "A", (-3, None), ("ALA", None))
    edits.add_atom(0, NewAtom(3, "N", 0.0, 0.0, 0.0, 0.5, 30.0, 7), "A", (4, "B"), ("SER", "A"))
    edits.add_atom(0, NewAtom(4, "OG", 0.0, 0.0, 0.0, 0.25, 40.0, "o"), "A", (4, "B"), ("SER", "B"))
    edits.add_atom(0, NewAtom(5, "FE", 0.0, 0.0, 0.0, 1.0, 50.0, 26, 3, True), "B", (4, None), ("HEM", None))
    edits.add_atom(0, NewAtom(6, "XX", 0.0, 0.0, 0.0, 1.0, 60.0), "C", (9, None), ("UNK", None))
    edits.add_atom(1, NewAtom(7, "CA", 0.0, 0.0, 0.0, 1.0, 70.0, "C"), "A", (1, None), ("GLY", None))
    store = Store()
    store.apply_all(edits)
    return store


def serials(store: Store, search) -> list:
    return [hit.atom.serial_number for hit in store.find(search)]


def records(store: Store) -> list:
    """The words of the records alone, without the room behind them."""
    return store.words[: store.words[-1]].tolist()
