"""A cell's memory as the header lays it out: its own words, and the entries of its five lists."""
from ctypes import Structure, c_bool, c_float, c_size_t, c_uint8, c_uint16, c_uint32, sizeof
from typing import Any, Tuple


class Words(Structure):
    """ynd_cell."""
    _fields_ = [(name, c_uint32) for name in ("vft", "vehicle_node_count", "ped_node_count")] \
        + [("unknowns", c_uint32 * 7)] \
        + [(name, c_uint32) for name in ("node_count", "link_count", "junction_count", "heightmap_count", "ref_count")]


class NodeEntry(Structure):
    """ynd_node_entry."""
    _fields_ = [("area_id", c_uint16), ("node_id", c_uint16), ("street_name", c_uint32)] \
        + [(name, c_float) for name in "xyz"] + [(f"flags{i}", c_uint8) for i in range(6)] \
        + [("link_count", c_uint8), ("zero", c_uint8), ("link_start", c_uint32)] \
        + [(f"unused{i}", c_uint32) for i in range(4)] + [("unused4", c_uint16), ("zeros", c_uint16)]


class LinkEntry(Structure):
    """ynd_link_entry."""
    _fields_ = [("area_id", c_uint16), ("node_id", c_uint16)] \
        + [(name, c_uint8) for name in ("flags0", "flags1", "flags2", "length")]


class JunctionEntry(Structure):
    """ynd_junction_entry."""
    _fields_ = [(name, c_float) for name in ("x", "y", "min_z", "max_z")] \
        + [("width", c_uint8), ("height", c_uint8), ("zero", c_uint16), ("heightmap_start", c_uint32)]


class RefEntry(Structure):
    """ynd_ref_entry."""
    _fields_ = [(name, c_uint16) for name in ("area_id", "node_id", "junction_id", "unk0")]


class CountsEntry(Structure):
    """ynd_counts."""
    _fields_ = [(name, c_size_t) for name in ("nodes", "links", "junctions", "heights", "refs")]


class EndEntry(Structure):
    """ynd_walk_end."""
    _fields_ = [(name, c_uint32) for name in ("how", "area_id", "node_id")]


ENTRIES: Tuple[Any, ...] = (NodeEntry, LinkEntry, JunctionEntry, c_uint8, RefEntry)
NODES, LINKS, JUNCTIONS, HEIGHTS, REFS = range(5)

# What the declarations in _library.py call these.
NAMED = {"ynd_cell": Words, "ynd_node_entry": NodeEntry, "ynd_link_entry": LinkEntry,
         "ynd_junction_entry": JunctionEntry, "ynd_ref_entry": RefEntry, "ynd_counts": CountsEntry,
         "ynd_walk_end": EndEntry}

assert [sizeof(s) for s in NAMED.values()] == [60, 52, 8, 24, 8, 40, 12] and sizeof(c_bool) == 1


def lists_of(counts: Tuple[int, ...]) -> Tuple[Any, ...]:
    """Five lists of so many entries."""
    return tuple((entry * n)() for entry, n in zip(ENTRIES, counts))


def restored(parts: Tuple[bytes, ...]) -> Tuple[Any, ...]:
    """Five lists that hold copies of these bytes."""
    if len(parts) != len(ENTRIES) or any(len(part) % sizeof(entry) for entry, part in zip(ENTRIES, parts)):
        raise ValueError("these are no lists of a cell")
    return tuple((entry * (len(part) // sizeof(entry))).from_buffer_copy(part) if part else (entry * 0)()
                 for entry, part in zip(ENTRIES, parts))
