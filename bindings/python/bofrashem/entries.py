"""What a cell holds and what calls answer: values that can't be changed."""
from ctypes import byref, c_uint8
from typing import List, NamedTuple, Optional

from . import _arguments
from ._library import call
from ._memory import NodeEntry


class Node(NamedTuple):
    """A node; its links are `Cell.links_of` its place. x, y and z are in metres."""
    area_id: int = 0
    node_id: int = 0
    street_name: int = 0
    x: float = 0.0
    y: float = 0.0
    z: float = 0.0
    flags0: int = 0
    flags1: int = 0
    flags2: int = 0
    flags3: int = 0
    flags4: int = 0
    flags5: int = 0
    link_count: int = 0
    unused0: int = 0
    unused1: int = 0
    unused2: int = 0
    unused3: int = 0
    unused4: int = 0

    def is_ped_node(self) -> bool:
        """Whether renumbering takes it for a ped node."""
        entry = NodeEntry(flags1=_arguments.held("flags1", self.flags1, c_uint8))
        return bool(call("ynd_node_is_ped_node", byref(entry)))


class Link(NamedTuple):
    """A link to the node that has area_id and node_id; its length in metres."""
    area_id: int = 0
    node_id: int = 0
    flags0: int = 0
    flags1: int = 0
    flags2: int = 0
    length: int = 0


class Junction(NamedTuple):
    """A junction: its corner x and y, min_z, max_z, and its heightmap's width and height."""
    x: float = 0.0
    y: float = 0.0
    min_z: float = 0.0
    max_z: float = 0.0
    width: int = 0
    height: int = 0


class Ref(NamedTuple):
    """A ref: the junction, by place, of the node that has area_id and node_id."""
    area_id: int = 0
    node_id: int = 0
    junction_id: int = 0
    unk0: int = 0


class Counts(NamedTuple):
    """How many entries of each kind a file holds."""
    nodes: int
    links: int
    junctions: int
    heights: int
    refs: int


class Walk(NamedTuple):
    """How a walk ended (done, no-link, left, no-node), the places visited, and what a link that left names."""
    end: str
    visited: List[int]
    area: Optional[int] = None
    number: Optional[int] = None


class Way(NamedTuple):
    """A shortest way: metres, a choice for each link, and the places, the start first."""
    distance: int
    choices: bytes
    places: List[int]


class Near(NamedTuple):
    """A node by its place, with its squared distance in quarter-metre steps."""
    place: int
    squared_distance: int
