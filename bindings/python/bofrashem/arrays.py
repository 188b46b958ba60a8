"""A cell's memory as numpy arrays: read-only, without a copy, an entry a row. Needs numpy, which nothing else here
does.

    import bofrashem.arrays
    nodes = bofrashem.arrays.nodes(yard)
    print(nodes["x"].min(), nodes["flags1"] >> 3)

A node's links are those of `links` from its link_start on, link_count of them.
"""
from ctypes import sizeof
from typing import TYPE_CHECKING, Any

from ._memory import ENTRIES, HEIGHTS, JUNCTIONS, LINKS, NODES, REFS
from .cell import Cell

if TYPE_CHECKING:
    import numpy

# The fields of the header's structs that say something, by list.
_SHOWN = {
    NODES: "area_id node_id street_name x y z flags0 flags1 flags2 flags3 flags4 flags5 link_count link_start unused0 "
           "unused1 unused2 unused3 unused4",
    LINKS: "area_id node_id flags0 flags1 flags2 length",
    JUNCTIONS: "x y min_z max_z width height heightmap_start",
    REFS: "area_id node_id junction_id unk0",
}


def nodes(cell: Cell) -> "numpy.ndarray[Any, Any]":
    """The nodes by place."""
    return _view(cell, NODES)


def links(cell: Cell) -> "numpy.ndarray[Any, Any]":
    """The links of all nodes."""
    return _view(cell, LINKS)


def junctions(cell: Cell) -> "numpy.ndarray[Any, Any]":
    """The junctions by place."""
    return _view(cell, JUNCTIONS)


def heights(cell: Cell) -> "numpy.ndarray[Any, Any]":
    """The heightmap values of all junctions."""
    return _view(cell, HEIGHTS)


def refs(cell: Cell) -> "numpy.ndarray[Any, Any]":
    """The refs by place."""
    return _view(cell, REFS)


def _view(cell: Cell, which: int) -> "numpy.ndarray[Any, Any]":
    try:
        import numpy
    except ImportError:
        raise ImportError("numpy is missing: apt-get install python3-numpy, or pip install numpy") from None
    memory = cell._memory(which)
    return numpy.frombuffer(memory, dtype=_dtype(which)) if memory.nbytes else numpy.empty(0, dtype=_dtype(which))


def _dtype(which: int) -> Any:
    entry = ENTRIES[which]
    if which == HEIGHTS:
        return "u1"
    kinds = {name: field for name, field in entry._fields_}
    names = _SHOWN[which].split()
    return {"names": names, "itemsize": sizeof(entry), "formats": [kinds[n] for n in names],
            "offsets": [getattr(entry, n).offset for n in names]}
