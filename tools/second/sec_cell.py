"""FORMAT.md: Sections and addresses, Root, Records, The cell, Reading, Renumbering, Writing, entries added."""
import struct
from dataclasses import dataclass, field, replace
from itertools import accumulate

from sec_numbers import STEP_XY, STEP_Z, ask, bits_of_step, step_of_bits, stored_bits

SECTION_MOST, NODES_MOST, JUNCTIONS_MOST, SCRATCH = 16777216, 65536, 4096, 65536
COUNT_MOST = 4294967295
NODES, LINKS, JUNCTIONS, VALUES, REFS = range(5)         # the places of the five lists and arrays
WIDTHS = (40, 8, 12, 1, 8)
ROOT = struct.Struct('<IIQ QIIII QII QQII QHHIIIII')     # Root, 112 bytes
NODE = struct.Struct('<4I HHIHH hhBBh BBBB')             # Records
LINK = struct.Struct('<HHBBBB')
JUNCTION = struct.Struct('<hhhhHBB')
REF = struct.Struct('<HHHH')
PED_KINDS = (10, 14, 18)


@dataclass
class Node:
    area: int = 0
    number: int = 0
    street: int = 0
    place: tuple = (0, 0, 0)                             # the bits of x, y, z
    flags: tuple = (0,) * 6
    unused: tuple = (0,) * 5
    link_start: int = 0
    link_count: int = 0


@dataclass
class Link:
    area: int = 0
    number: int = 0
    flags: tuple = (0, 0, 0)
    length: int = 0


@dataclass
class Junction:
    corner: tuple = (0, 0)                               # bits, as min_z and max_z
    min_z: int = 0
    max_z: int = 0
    width: int = 0
    height: int = 0
    start: int = 0


@dataclass
class Ref:
    area: int = 0
    number: int = 0
    junction: int = 0
    unk0: int = 0


@dataclass
class Cell:
    """In memory: the struct (own words, five counts) beside five lent lists, whose lengths never change."""
    lists: list
    vft: int = 0x4061E3B0
    vehicles: int = 0
    peds: int = 0
    unk: tuple = (0, 0, 1, 0, 0, 0, 0)
    counts: list = field(default_factory=lambda: [0] * 5)

    def there(self, which):
        """The entries that a list has, up to its count ("Where a cause is asked before 7 ..")."""
        return self.lists[which][:self.counts[which]]

    def own_area(self):
        nodes = self.lists[NODES]
        return nodes[0].area if self.counts[NODES] and nodes else 0

    def links_of(self, node):
        return self.lists[LINKS][cut(node.link_start, node.link_count, self.total(LINKS))]

    def values_of(self, junction):
        size = junction.width * junction.height
        return self.lists[VALUES][cut(junction.start, size, self.total(VALUES))]

    def total(self, which):
        return min(self.counts[which], len(self.lists[which]))


def new_cell(lent):
    return Cell([[None] * size for size in lent])


def cut(start, count, total):
    """In memory: a range that leaves the entries is cut."""
    return slice(start, max(start, min(start + count, total)))


def belongs(own, area):
    """Islands: whether a link or ref belongs to the cell with this own area."""
    return area == own or (own & 1024 != 0 and area == own - 1024)


def ask_limits(cell):
    ask(cell.counts[NODES] > NODES_MOST or cell.counts[JUNCTIONS] > JUNCTIONS_MOST, 14)


def ask_lists(cell, *places):
    for place in places:
        ask(len(cell.lists[place]) < cell.counts[place], 7, place)


# ---- Sections and addresses, Reading

def locate(address, count, width, lengths):
    """Sections and addresses: (section, offset, length), or None if the array is bad."""
    if address == 0 or count == 0:
        return 0, 0, 0
    section = {0x5000_0000: 0, 0x6000_0000: 1}.get(address & 0xF000_0000)
    offset = address & 0x0FFF_FFFF
    if address >> 32 or section is None or offset + count * width > lengths[section]:
        return None
    return section, offset, count * width


def root_of(system):
    """Root: the own words, and address and count of the five arrays."""
    if not system:
        return (0x4061E3B0, 0, 0, (0, 0, 1, 0, 0, 0, 0)), ((0, 0),) * 5
    (vft, _, _, nodes, n, vehicles, peds, unk24, links, l, unk34, junctions, values, unk48, unk4c,
     refs, _, r, unk5c, j, h, unk68, unk6c) = ROOT.unpack_from(system)
    words = vft, vehicles, peds, (unk24, unk34, unk48, unk4c, unk5c, unk68, unk6c)
    return words, ((nodes, n), (links, l), (junctions, j), (values, h), (refs, r))


def checked(system, graphics):
    """Reading: all causes but 7. The own words and the five arrays as lists of records."""
    sections = system, graphics
    ask(len(system) > SECTION_MOST, 2, 0)
    ask(len(graphics) > SECTION_MOST, 2, 1)
    ask(1 <= len(system) <= 111, 1)
    words, arrays = root_of(system)
    found = []
    for which, (address, count) in enumerate(arrays):
        where = locate(address, count, WIDTHS[which], [len(s) for s in sections])
        ask(where is None, 3, which)
        section, offset, length = where
        found.append(memoryview(sections[section])[offset:offset + length])
    ask(len(found[NODES]) // 40 > NODES_MOST, 6, 0)
    ask(len(found[JUNCTIONS]) // 12 > JUNCTIONS_MOST, 6, 1)
    nodes, junctions = list(NODE.iter_unpack(found[NODES])), list(JUNCTION.iter_unpack(found[JUNCTIONS]))
    for place, record in enumerate(nodes):
        ask(record[8] + (record[15] >> 3) > len(found[LINKS]) // 8, 4, place)
    for place, record in enumerate(junctions):
        ask(record[4] + record[5] * record[6] > len(found[VALUES]), 5, place)
    links, refs = list(LINK.iter_unpack(found[LINKS])), list(REF.iter_unpack(found[REFS]))
    return words, nodes, links, junctions, found[VALUES], refs


def count(system, graphics=b''):
    """ynd_count: how many entries reading fills."""
    _, nodes, _, junctions, _, refs = checked(system, graphics)
    return [len(nodes), sum(n[15] >> 3 for n in nodes), len(junctions), sum(j[5] * j[6] for j in junctions), len(refs)]


def node_entry(record, link_start):
    (u0, u1, u2, u3, area, number, street, u4, _, x, y, f0, f1, z, f2, packed, f3, f4) = record
    place = bits_of_step(x, STEP_XY), bits_of_step(y, STEP_XY), bits_of_step(z, STEP_Z)
    return Node(area, number, street, place, (f0, f1, f2, f3, f4, packed & 7), (u0, u1, u2, u3, u4),
                link_start, packed >> 3)


def junction_entry(record, start):
    max_z, x, y, min_z, _, width, height = record
    return Junction((bits_of_step(x, STEP_XY), bits_of_step(y, STEP_XY)), bits_of_step(min_z, STEP_Z),
                    bits_of_step(max_z, STEP_Z), width, height, start)


def read(cell, system, graphics=b''):
    """ynd_read: fills the cell's lent lists from the front and sets its struct."""
    words, nodes, links, junctions, values, refs = checked(system, graphics)
    starts = [0, *accumulate(n[15] >> 3 for n in nodes)]
    value_starts = [0, *accumulate(j[5] * j[6] for j in junctions)]
    filled = [
        [node_entry(record, start) for record, start in zip(nodes, starts)],
        [Link(a, k, (f0, f1, f2), length)
         for n in nodes for a, k, f0, f1, f2, length in links[n[8]:n[8] + (n[15] >> 3)]],
        [junction_entry(record, start) for record, start in zip(junctions, value_starts)],
        [value for j in junctions for value in values[j[4]:j[4] + j[5] * j[6]]],
        [Ref(*record) for record in refs]]
    for which in range(5):
        ask(len(cell.lists[which]) < len(filled[which]), 7, which)
    for which in range(5):
        cell.lists[which][:len(filled[which])] = filled[which]
    cell.vft, cell.vehicles, cell.peds, cell.unk = words
    cell.counts = [len(entries) for entries in filled]


# ---- Renumbering

def is_ped(node):
    return node.flags[1] >> 3 in PED_KINDS


def new_place_list(cell):
    """Where a node goes."""
    nodes = cell.there(NODES)
    vehicles = sum(not is_ped(node) for node in nodes)
    places, next_vehicle, next_ped = [], 0, vehicles
    for node in nodes:
        if is_ped(node):
            places.append(next_ped)
            next_ped += 1
        else:
            places.append(next_vehicle)
            next_vehicle += 1
    return places, vehicles


def renumber(cell, new_places, scratch=SCRATCH):
    """ynd_renumber; answers the map from old to new numbers, which sets of cells use."""
    ask_limits(cell)
    ask_lists(cell, *range(5))
    ask(scratch < SCRATCH, 7, 6)
    ask(len(new_places) < cell.counts[NODES], 7, 7)
    nodes, own = cell.there(NODES), cell.own_area()
    places, vehicles = new_place_list(cell)
    numbers = {node.number: place for node, place in zip(nodes, places)}     # the last one counts
    for node, place in zip(nodes, places):
        cell.lists[NODES][place] = replace(node, number=place)
    for which in (LINKS, REFS):
        for at, entry in enumerate(cell.there(which)):
            if belongs(own, entry.area):
                cell.lists[which][at] = replace(entry, number=numbers.get(entry.number, entry.number))
    cell.vehicles, cell.peds = vehicles, len(nodes) - vehicles
    new_places[:len(places)] = places
    return numbers


# ---- Writing

def ask_writable(cell):
    """Writing: the causes 14, 12, 8 and 9, 10, 11, 7 at 0 to 4."""
    ask_limits(cell)
    for junction in cell.there(JUNCTIONS):
        ask(len(cell.values_of(junction)) < junction.width * junction.height, 12)
    before = 0
    for place, node in enumerate(cell.there(NODES)):
        had = len(cell.links_of(node))
        ask(had > 31, 8, place)
        ask(had > 0 and before > 65535, 9, place)
        before += had
    before = 0
    for place, junction in enumerate(cell.there(JUNCTIONS)):
        ask(before > 65535, 10, place)
        before += junction.width * junction.height
    ask(cell.counts[REFS] > 65535, 11)
    ask_lists(cell, *range(5))


def node_record(node, links_before, had):
    x, y, z = node.place
    f0, f1, f2, f3, f4, f5 = node.flags
    return NODE.pack(*node.unused[:4], node.area, node.number, node.street, node.unused[4],
                     links_before if had else 0, step_of_bits(x, STEP_XY), step_of_bits(y, STEP_XY), f0, f1,
                     step_of_bits(z, STEP_Z), f2, had * 8 + f5 % 8, f3, f4)


def junction_record(junction, values_before):
    x, y = junction.corner
    return JUNCTION.pack(step_of_bits(junction.max_z, STEP_Z), step_of_bits(x, STEP_XY), step_of_bits(y, STEP_XY),
                         step_of_bits(junction.min_z, STEP_Z), values_before, junction.width, junction.height)


def blocks(cell):
    """Writing: what the five blocks hold, by the list's place."""
    nodes, links, junctions, values = [], [], [], bytearray()
    for node in cell.there(NODES):
        had = cell.links_of(node)
        nodes.append(node_record(node, len(links), len(had)))
        links += [LINK.pack(k.area, k.number, *k.flags, k.length) for k in had]
    for junction in cell.there(JUNCTIONS):
        junctions.append(junction_record(junction, len(values)))
        values += bytes(cell.values_of(junction))
    refs = [REF.pack(r.area, r.number, r.junction, r.unk0) for r in cell.there(REFS)]
    return [b''.join(nodes), b''.join(links), b''.join(junctions), bytes(values), b''.join(refs)]


def write(cell, room):
    """ynd_write: the bytes of the section; room is the length of the lent section."""
    ask_writable(cell)
    parts = blocks(cell)
    section = bytearray(1152)
    section[120] = 128                                   # the page block's one byte
    address = [0] * 5
    for which in (REFS, VALUES, JUNCTIONS, LINKS, NODES):
        if parts[which]:
            section += bytes(-len(section) % 16)
            address[which] = 0x50000000 + len(section)
            section += parts[which]
    ask(room < len(section), 7, 5)
    n, l, j, h, r = (len(part) // width for part, width in zip(parts, WIDTHS))
    unk = cell.unk
    ROOT.pack_into(section, 0, cell.vft, 1, 0x50000070, address[NODES], n, cell.vehicles, cell.peds, unk[0],
                   address[LINKS], l, unk[1], address[JUNCTIONS], address[VALUES], unk[2], unk[3],
                   address[REFS], r, r, unk[4], j, h, unk[5], unk[6])
    return bytes(section)


def write_then_read(cell, room):
    """ynd_write_then_read: read stores nothing before all its causes are asked, so a refusal changes nothing."""
    section = write(cell, room)
    read(cell, section)
    return section


# ---- Edits, Entries added (those that the vectors need)

def add_node(cell, area, place):
    ask_limits(cell)
    n = cell.counts[NODES]
    ask(n == NODES_MOST, 14)
    ask(len(cell.lists[NODES]) <= n, 7, NODES)
    stored = tuple(stored_bits(bits, k) for bits, k in zip(place, (STEP_XY, STEP_XY, STEP_Z)))
    cell.lists[NODES][n] = Node(area, n % 65536, place=stored)
    cell.counts[NODES] += 1


def add_ref(cell, ref):
    ask_limits(cell)
    r = cell.counts[REFS]
    ask(r == COUNT_MOST, 14)
    ask(len(cell.lists[REFS]) <= r, 7, REFS)
    cell.lists[REFS][r] = ref
    cell.counts[REFS] += 1


def add_junction(cell, junction, values):
    ask_limits(cell)
    j, h = cell.counts[JUNCTIONS], cell.counts[VALUES]
    ask(j == JUNCTIONS_MOST, 14)
    ask(h + len(values) > COUNT_MOST, 14)
    ask(len(values) != junction.width * junction.height, 12)
    ask(len(cell.lists[JUNCTIONS]) <= j, 7, JUNCTIONS)
    ask(len(cell.lists[VALUES]) < h + len(values), 7, VALUES)
    cell.lists[JUNCTIONS][j] = replace(junction, start=h)
    cell.lists[VALUES][h:h + len(values)] = values
    cell.counts[JUNCTIONS] += 1
    cell.counts[VALUES] += len(values)


def add_link(cell, place, link):
    """Where a new link goes."""
    n, l = cell.counts[NODES], cell.counts[LINKS]
    ask(place >= n, 13)
    ask_limits(cell)
    ask(l == COUNT_MOST, 14)
    nodes, links = cell.lists[NODES], cell.lists[LINKS]
    had = len(cell.links_of(nodes[place])) if place < len(nodes) else 0
    ask(had == 255, 14)
    ask_lists(cell, NODES)
    ask(len(links) <= l, 7, LINKS)
    at = nodes[place].link_start + had if had else l
    links[at + 1:l + 1] = links[at:l]
    links[at] = link
    for node in nodes[:n]:
        if at <= node.link_start < l:
            node.link_start += 1
    nodes[place].link_start, nodes[place].link_count = at - had, had + 1
    cell.counts[LINKS] += 1
