"""Cells: reading, lookups, walks, shortest ways, near nodes."""
import os
import pathlib
import struct
from ctypes import byref, c_bool, c_size_t, c_uint8, c_uint16, c_uint32, c_uint64
from typing import Any, Dict, List, Optional, Tuple, Union

from . import _arguments
from ._arguments import Choices, Data
from ._memory import HEIGHTS, JUNCTIONS, LINKS, NODES, REFS, CountsEntry, EndEntry, Words, lists_of, restored
from .entries import Counts, Junction, Link, Near, Node, Ref, Walk, Way
from .refused import NO_SUCH_PLACE, OTHER_AREA, Refused, asked, place_of
from .rounds import Round, taken_apart

SCRATCH = 65_536        # entries of the scratch of soundness and of indexed walks
PATH_SCRATCH = 4        # entries a node of the scratch of a shortest way
ENDS = ("done", "no-link", "left", "no-node")

# Entries as values: each list's type, and where its fields lie. Where links and values begin is left out.
_VALUES: Dict[int, Tuple[Any, struct.Struct]] = {
    NODES: (Node, struct.Struct("<HHI3f6BBx4x4IH2x")), LINKS: (Link, struct.Struct("<HH4B")),
    JUNCTIONS: (Junction, struct.Struct("<4f2B2x4x")), REFS: (Ref, struct.Struct("<4H"))}
_LINK_RANGE = struct.Struct("<26xBxI20x")       # of a node: its link_count and link_start


def count(system: Data, graphics: Data = b"") -> Counts:
    """How many entries two sections hold. Ranges may overlap, so that a small file can hold far more than its bytes:
    ask this first of a file that nobody vouches for. Refused: 2, 1, 3, 6, 4, 5."""
    given, more = _arguments.data("system", system), _arguments.data("graphics", graphics)
    counts = CountsEntry()
    asked("ynd_count", given, len(given), more, len(more), byref(counts))
    return Counts(counts.nodes, counts.links, counts.junctions, counts.heights, counts.refs)


def read(system: Data, graphics: Data = b"") -> "Cell":
    """The cell that two sections hold; no system bytes are a yard that is not drawn yet. Refused as count is."""
    return Cell(system, graphics)


def read_file(path: Union[str, "os.PathLike[str]"]) -> "Cell":
    """The cell of a file that is a system section."""
    return read(pathlib.Path(path).read_bytes())


class Cell:
    """A cell, as read: a value that can't be changed. Threads may share it, and it can be pickled. Two are equal where
    they hold the same, wherever it stands in memory."""

    __slots__ = ("_words", "_lists", "_values")

    def __init__(self, system: Data, graphics: Data = b"") -> None:
        given, more = _arguments.data("system", system), _arguments.data("graphics", graphics)
        words, lists = Words(), lists_of(count(given, more))
        lent = [part for items in lists for part in (items, len(items))]
        asked("ynd_read", byref(words), given, len(given), more, len(more), *lent)
        self._set(words, lists)

    def _set(self, words: Words, lists: Tuple[Any, ...]) -> None:
        self._words, self._lists = words, lists
        self._values: Dict[int, Tuple[Any, ...]] = {}

    def __reduce__(self) -> Tuple[Any, ...]:
        return _cell_of, (bytes(self._words), tuple(bytes(items) for items in self._lists))

    def __repr__(self) -> str:
        held = f"{len(self.nodes)} nodes, {len(self.junctions)} junctions, {len(self.refs)} refs"
        return f"<bofrashem.Cell of area {self.area()}: {held}>"

    def __eq__(self, other: object) -> bool:
        if not isinstance(other, Cell):
            return NotImplemented
        return self._held() == other._held()

    def __hash__(self) -> int:
        return hash(self._held())

    def _held(self) -> Tuple[Any, ...]:
        """All that the cell holds."""
        links = tuple(self.links_of(place) for place in range(len(self.nodes)))
        values = tuple(self.values_of(place) for place in range(len(self.junctions)))
        return (self.vft, self.kind_counts, self.unknowns, self.nodes, links, self.junctions, values, self.refs)

    def _entries(self, which: int) -> Tuple[Any, ...]:
        """A list's entries as values, made once."""
        if which not in self._values:
            kind, layout = _VALUES[which]
            self._values[which] = tuple(map(kind._make, layout.iter_unpack(self._memory(which))))
        return self._values[which]

    def _memory(self, which: int) -> memoryview:
        """The bytes of a list, for reading."""
        return memoryview(self._lists[which]).toreadonly().cast("B") if self._lists[which] else memoryview(b"")

    @property
    def nodes(self) -> Tuple[Node, ...]:
        """The nodes by place."""
        return self._entries(NODES)

    @property
    def junctions(self) -> Tuple[Junction, ...]:
        """The junctions by place."""
        return self._entries(JUNCTIONS)

    @property
    def refs(self) -> Tuple[Ref, ...]:
        """The refs by place."""
        return self._entries(REFS)

    @property
    def vft(self) -> int:
        """The root's vft."""
        return int(self._words.vft)

    @property
    def kind_counts(self) -> Tuple[int, int]:
        """The root's counts of nodes that are no ped nodes and of ped nodes."""
        return self._words.vehicle_node_count, self._words.ped_node_count

    @property
    def unknowns(self) -> Tuple[int, ...]:
        """The root's words unk24, unk34, unk48, unk4c, unk5c, unk68 and unk6c."""
        return tuple(self._words.unknowns)

    def _of(self, *lists: int) -> List[Any]:
        """The cell's words and some of its lists, as calls take them."""
        return [byref(self._words)] + [part for k in lists for part in (self._lists[k], len(self._lists[k]))]

    def links_of(self, place: int) -> Tuple[Link, ...]:
        """The links of the node at a place, in their order. Refused: 13."""
        at = place_of("place", place)
        if at >= len(self._lists[NODES]):
            raise Refused(NO_SUCH_PLACE, 0)
        n, start = _LINK_RANGE.unpack_from(self._memory(NODES), at * _LINK_RANGE.size)
        return self._entries(LINKS)[start:start + n]

    def values_of(self, place: int) -> bytes:
        """The heightmap values of the junction at a place, row by row. Refused: 13."""
        at, values, n = place_of("place", place), (c_uint8 * 65_025)(), c_size_t()
        asked("ynd_shown_values", *self._of(JUNCTIONS, HEIGHTS), at, values, len(values), byref(n))
        return bytes(memoryview(values)[:n.value])

    def area(self) -> Optional[int]:
        """The cell's own area, its first node's; None where it has no node."""
        found, area = c_bool(), c_uint32()
        asked("ynd_area_of_cell", *self._of(NODES), byref(found), byref(area))
        return area.value if found else None

    def node(self, number: int) -> Optional[int]:
        """The place of the node that has a number, or None."""
        node_id = _arguments.looked_for("number", number, c_uint16)
        return None if node_id is None else self._found("ynd_node", [NODES], node_id)

    def junction_of(self, area: int, number: int) -> Optional[int]:
        """The place of the junction that the refs give to a node, or None."""
        area_id = _arguments.looked_for("area", area, c_uint16)
        node_id = _arguments.looked_for("number", number, c_uint16)
        if area_id is None or node_id is None:
            return None
        return self._found("ynd_junction_of", [NODES, REFS], area_id, node_id)

    def _found(self, name: str, lists: List[int], *given: int) -> Optional[int]:
        found, at = c_bool(), c_size_t()
        asked(name, *self._of(*lists), *given, byref(found), byref(at))
        return at.value if found else None

    def is_sound(self) -> bool:
        """Whether all nodes have one area, numbers differ, and each own link and own ref names a node of the cell."""
        scratch, sound = (c_uint32 * SCRATCH)(), c_bool()
        asked("ynd_sound", *self._of(NODES, LINKS, REFS), scratch, len(scratch), byref(sound))
        return sound.value

    def walk(self, start: int, choices: Choices) -> Walk:
        """Walks from the node at a place; each choice is a link's place among the node's links. Refused: 13."""
        return self._walked("ynd_walk", [place_of("start", start)], _arguments.chosen("choices", choices))

    def walk_indexed(self, start: int, choices: Choices) -> Walk:
        """The same walk, for long ones in a cell whose numbers are not its places: an index of the numbers is made
        first, then each choice is followed at once. Refused: 13."""
        scratch = (c_uint32 * SCRATCH)()
        given = [place_of("start", start)]
        return self._walked("ynd_walk_indexed", given, _arguments.chosen("choices", choices), scratch)

    def follow(self, round_: Round) -> Walk:
        """Walks a round from the node that has its start number. Refused: 19 a round of another area; 13 no node."""
        kind, area, start, choices = taken_apart(round_)
        return self._walked("ynd_follow_round_versioned", [kind, area, start], choices)

    def follow_indexed(self, round_: Round) -> Walk:
        """The same, as walk_indexed walks. Refused: 19 a round of another area; 13 no node."""
        kind, area, start, choices = taken_apart(round_)
        if kind == 2 and area != (self.area() or 0):
            raise Refused(OTHER_AREA, 0)
        return self._walked("ynd_follow_round_indexed", [start], choices, (c_uint32 * SCRATCH)())

    def _walked(self, name: str, given: List[int], choices: bytes, scratch: Any = None) -> Walk:
        visited, end, n = (c_uint32 * (len(choices) + 1))(), EndEntry(), c_size_t()
        lent = [] if scratch is None else [scratch, len(scratch)]
        asked(name, *self._of(NODES, LINKS), *given, choices, len(choices), visited, len(visited), *lent, byref(end),
              byref(n))
        left = (end.area_id, end.node_id) if ENDS[end.how] == "left" else (None, None)
        return Walk(ENDS[end.how], visited[:n.value], *left)

    def shortest_way(self, start: int, goal: int) -> Way:
        """A walk between the nodes at two places whose links' lengths add up to least. Refused: 13; 17 no walk joins
        them."""
        ends, n = (place_of("start", start), place_of("goal", goal)), len(self._lists[NODES])
        scratch, choices, places = (c_uint32 * (PATH_SCRATCH * n))(), (c_uint8 * n)(), (c_uint32 * n)()
        distance, links = c_uint32(), c_size_t()
        asked("ynd_shortest_path", *self._of(NODES, LINKS), *ends, scratch, len(scratch), choices, n, places, n,
              byref(distance), byref(links))
        return Way(distance.value, bytes(choices[:links.value]), places[:links.value + 1])

    def within(self, x: int, y: int, radius: int) -> List[int]:
        """The places of the nodes at most a radius from a point, the nearest first, all in quarter-metre steps."""
        places, n = (c_uint32 * len(self._lists[NODES]))(), c_size_t()
        asked("ynd_within", *self._of(NODES), x, y, radius, places, len(places), byref(n))
        return places[:n.value]

    def nearest(self, x: int, y: int) -> Optional[Near]:
        """The node nearest to a point in quarter-metre steps, or None."""
        found, at, square = c_bool(), c_size_t(), c_uint64()
        asked("ynd_nearest", *self._of(NODES), x, y, byref(found), byref(at), byref(square))
        return Near(at.value, square.value) if found else None


def _cell_of(words: bytes, lists: Tuple[bytes, ...]) -> Cell:
    """A cell that was pickled."""
    cell = Cell.__new__(Cell)
    own, parts = Words.from_buffer_copy(words), restored(lists)
    counts = (own.node_count, own.link_count, own.junction_count, own.heightmap_count, own.ref_count)
    if counts != tuple(map(len, parts)):
        raise ValueError("the lists aren't those that the cell's words count")
    cell._set(own, parts)
    return cell
