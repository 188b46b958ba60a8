"""Path node cells in Python: read, looked at, walked; round files; shortest ways. By ctypes over libbofrashem.so.

    import bofrashem, pathlib
    yard = bofrashem.read_file("samples/dock.section")
    print(len(yard.nodes), "nodes,", "sound" if yard.is_sound() else "not sound")
    start = yard.node(6)                                # the place of the node that has number 6
    print(yard.walk(start, [0, 1, 1]).visited)          # places, the start first
    print(yard.shortest_way(start, 9).distance, "m")
    round_ = bofrashem.read_round(pathlib.Path("samples/dock.round").read_bytes())
    print(yard.follow(round_).end)                      # done, no-link, left or no-node

What is read, walked, followed, found or refused comes from a proved call; this package is tested, not proved. It
changes no cell and writes none: a cell and all that it gives are values that can't be changed. A file is a system
section, not the engine's container (`bofrashem info` of the tool opens those).

A call that is refused raises Refused, with the refusal's number and place. An argument that its C type can't hold
raises OverflowError, one of another kind TypeError, each with the argument's name: no number is cut. Where the
definition has an answer for every number too large, that is the answer: a place that no node has is refused with 13,
a number that no node has is found nowhere.

Cells and answers can be pickled, so they cross processes; a call holds no lock (ctypes lets go of the interpreter's),
so threads may share a cell. `bofrashem.arrays` shows a cell's memory as numpy arrays.

The library is the file that BOFRASHEM_LIBRARY names, else the package's own, the repository's (`make shared`), or an
installed one.
"""
from ._library import __version__, version
from .cell import Cell, count, read, read_file
from .entries import Counts, Junction, Link, Near, Node, Ref, Walk, Way
from .numbers import area_id, area_id_from_file_name, cell_bounds, cell_for_position, cell_of_area, quantise
from .refused import Refused
from .rounds import Round, read_round, write_round

__all__ = ["Cell", "Counts", "Junction", "Link", "Near", "Node", "Ref", "Refused", "Round", "Walk", "Way",
           "__version__", "area_id", "area_id_from_file_name", "cell_bounds", "cell_for_position", "cell_of_area",
           "count", "quantise", "read", "read_file", "read_round", "version", "write_round"]
