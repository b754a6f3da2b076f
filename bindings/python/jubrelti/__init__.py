"""A verified model store and atom search for protein structures.

The store and its calls are a port of the `structs` module of pdbtbx 0.12.0 in which each function is proved to equal its definition.
This package is a thin layer over its C interface: it turns Python values into words and back, lets a store grow, and decides nothing
else. It is tested, not proved.
"""

__version__ = "0.10.0"

from ._edits import Applied, Edited, Edits, NewAtom
from ._errors import EditError, Error, LineError, QueryTextError, StaleHitError
from ._hierarchy import Atom, Chain, Conformer, Hit, Hits, Model, Parts, Residue
from ._search import (
    AtomName,
    AtomSerialNumber,
    AtomSerialNumberRange,
    Backbone,
    BFactor,
    BFactorRange,
    ChainId,
    ChainIdRange,
    ConformerAlternativeLocation,
    ConformerId,
    ConformerName,
    Element,
    Hetero,
    Known,
    ModelSerialNumber,
    ModelSerialNumberRange,
    Occupancy,
    OccupancyRange,
    ResidueId,
    ResidueInsertionCode,
    ResidueSerialNumber,
    ResidueSerialNumberRange,
    Search,
    SideChain,
)
from ._store import MAX_RECORDS, Counts, Store
from ._values import ELEMENTS

__all__ = [
    "ELEMENTS",
    "MAX_RECORDS",
    "Applied",
    "Atom",
    "AtomName",
    "AtomSerialNumber",
    "AtomSerialNumberRange",
    "BFactor",
    "BFactorRange",
    "Backbone",
    "Chain",
    "ChainId",
    "ChainIdRange",
    "Conformer",
    "ConformerAlternativeLocation",
    "ConformerId",
    "ConformerName",
    "Counts",
    "EditError",
    "Edited",
    "Edits",
    "Element",
    "Error",
    "Hetero",
    "Hit",
    "Hits",
    "Known",
    "LineError",
    "Model",
    "ModelSerialNumber",
    "ModelSerialNumberRange",
    "NewAtom",
    "Occupancy",
    "OccupancyRange",
    "Parts",
    "QueryTextError",
    "Residue",
    "ResidueId",
    "ResidueInsertionCode",
    "ResidueSerialNumber",
    "ResidueSerialNumberRange",
    "Search",
    "SideChain",
    "StaleHitError",
    "Store",
]
