"""FORMAT.md: Lookups, Walks, Soundness, Nodes near a point, Shortest paths, Round files, Following a round."""
import heapq
import struct

from sec_cell import JUNCTIONS, LINKS, NODES, REFS, SCRATCH, VALUES, ask_limits, ask_lists, belongs
from sec_numbers import STEP_XY, ask, step_of_bits

DONE, NO_LINK, LEFT, NO_NODE = range(4)


# ---- Lookups

class Lookup:
    """`node`: the place with a number; the index keeps the first place of each number."""

    def __init__(self, cell):
        self.nodes, self.first = cell.there(NODES), {}
        for place, node in enumerate(self.nodes):
            self.first.setdefault(node.number, place)

    def __call__(self, number):
        if number < len(self.nodes) and self.nodes[number].number == number:
            return number
        return self.first.get(number)


def node(cell, number):
    ask_limits(cell)
    ask_lists(cell, NODES)
    return Lookup(cell)(number)


def area_of_cell(cell):
    ask_limits(cell)
    ask_lists(cell, NODES)
    return cell.own_area() if cell.counts[NODES] else None


def junction_of(cell, area, number):
    ask_limits(cell)
    ask_lists(cell, NODES, REFS)
    own = cell.own_area()
    for ref in cell.there(REFS):
        if ref.number == number and (own if belongs(own, ref.area) else ref.area) == area:
            return ref.junction if ref.junction < cell.counts[JUNCTIONS] else None
    return None


# ---- Walks

def chosen(cell, place, choice):
    """The link that a byte chooses at a place, or None."""
    links = cell.links_of(cell.lists[NODES][place])
    return links[choice] if choice < len(links) else None


def walk_from(cell, start, choices):
    """A walk without its refusals: the end (kind, area, number) and the places visited."""
    find, own, visited = Lookup(cell), cell.own_area(), [start]
    for choice in choices:
        link = chosen(cell, visited[-1], choice)
        if link is None:
            return (NO_LINK, 0, 0), visited
        if not belongs(own, link.area):
            return (LEFT, link.area, link.number), visited
        place = find(link.number)
        if place is None:
            return (NO_NODE, 0, 0), visited
        visited.append(place)
    return (DONE, 0, 0), visited


def fill(lent, entries, place):
    """Calls: a list is filled from its front, later entries keep what they had."""
    ask(len(lent) < len(entries), 7, place)
    lent[:len(entries)] = entries


def walk(cell, start, choices, lent):
    """ynd_walk: the end and how many places were visited."""
    ask(start >= cell.counts[NODES], 13)
    ask_limits(cell)
    ask_lists(cell, NODES, LINKS)
    end, visited = walk_from(cell, start, choices)
    fill(lent, visited, 8)
    return end, len(visited)


def shown_node(cell, place):
    """What a walk shows of a node and of its junction."""
    n = cell.lists[NODES][place]
    at = junction_of(cell, n.area, n.number)
    junction = None
    if at is not None:
        j = cell.lists[JUNCTIONS][at]
        junction = j.corner, j.min_z, j.max_z, j.width, j.height, tuple(cell.values_of(j))
    return n.area, n.street, n.place, n.flags, n.unused, len(cell.links_of(n)), junction


def shown(cell, start, choices):
    """What a walk shows: a node and the link that is chosen there, for each place visited."""
    ask(start >= cell.counts[NODES], 13)
    ask_limits(cell)
    ask_lists(cell, NODES, LINKS, JUNCTIONS, VALUES, REFS)
    shows = []
    for at, place in enumerate(walk_from(cell, start, choices)[1]):
        link = chosen(cell, place, choices[at]) if at < len(choices) else None
        shows.append((shown_node(cell, place), link and (link.flags, link.length)))
    return shows


# ---- Soundness

def is_sound(nodes, links_had, refs, numbers):
    own = nodes[0].area
    return (all(n.area == own for n in nodes) and len(numbers) == len(nodes)
            and all(e.number in numbers for e in (*links_had, *refs) if belongs(own, e.area)))


def sound(cell, scratch=SCRATCH):
    """ynd_sound: yes or no."""
    ask_limits(cell)
    ask_lists(cell, NODES, LINKS, REFS)
    ask(scratch < SCRATCH, 7, 6)
    nodes = cell.there(NODES)
    links_had = [link for n in nodes for link in cell.links_of(n)]
    return not nodes or is_sound(nodes, links_had, cell.there(REFS), {n.number for n in nodes})


# ---- Nodes near a point

def squared_distances(cell, x, y):
    ask_limits(cell)
    ask_lists(cell, NODES)
    return [((step_of_bits(n.place[0], STEP_XY) - x) ** 2 + (step_of_bits(n.place[1], STEP_XY) - y) ** 2, place)
            for place, n in enumerate(cell.there(NODES))]


def within(cell, x, y, radius, lent):
    """ynd_within: how many places are listed."""
    near = sorted(pair for pair in squared_distances(cell, x, y) if pair[0] <= radius * radius)
    fill(lent, [place for _, place in near], 8)
    return len(near)


def nearest(cell, x, y):
    """ynd_nearest: (squared distance, place), or None."""
    return min(squared_distances(cell, x, y), default=None)


# ---- Shortest paths

def least(cell, start, goal):
    """The choices of a path with the least (distance, links), with its distance; None if there is none."""
    find, own = Lookup(cell), cell.own_area()
    best, came, heap, done = {start: (0, 0)}, {}, [(0, 0, start)], set()
    while heap:
        distance, links, place = heapq.heappop(heap)
        if place == goal:
            break
        if place in done:
            continue
        done.add(place)
        for choice, link in enumerate(cell.links_of(cell.lists[NODES][place])):
            to = find(link.number) if belongs(own, link.area) else None
            reach = distance + link.length, links + 1
            if to is not None and reach < best.get(to, (reach[0] + 1, 0)):
                best[to], came[to] = reach, (place, choice)
                heapq.heappush(heap, (*reach, to))
    if goal not in best:
        return None
    choices, places = [], [goal]
    while places[-1] != start:
        before, choice = came[places[-1]]
        choices.append(choice)
        places.append(before)
    return best[goal][0], choices[::-1], places[::-1]


def shortest_path(cell, start, goal, scratch, choices, places):
    """ynd_shortest_path: the distance and the number of links."""
    n = cell.counts[NODES]
    ask(start >= n or goal >= n, 13)
    ask_limits(cell)
    ask_lists(cell, NODES, LINKS)
    ask(scratch < 4 * n, 7, 9)
    found = least(cell, start, goal)
    ask(found is None, 17)
    ask(len(choices) < n or len(places) < n, 7, 8)
    fill(choices, found[1], 8)
    fill(places, found[2], 8)
    return found[0], len(found[1])


# ---- Round files

def read_round(file, lent, versions=(1,)):
    """ynd_read_round; with versions (1, 2) ynd_read_round_versioned: version, area, start, count."""
    version = int.from_bytes(file[3:5], 'little')
    ask(len(file) < 5 or file[:3] != b'RND' or version not in versions, 15)
    head = 7 + 2 * version
    ask(len(file) < head, 16)
    *area, start, count = struct.unpack_from('<HHH' if version == 2 else '<HH', file, 5)
    ask(len(file) != head + count, 16)
    fill(lent, list(file[head:]), 8)
    return version, area[0] if area else 0, start, count


def write_round(start, choices, room, version=1, area=0):
    """ynd_write_round and ynd_write_round_versioned: the bytes of the file."""
    ask(version not in (1, 2), 15)
    ask(len(choices) > 65535, 16)
    head = struct.pack('<HHH', area, start, len(choices)) if version == 2 else struct.pack('<HH', start, len(choices))
    file = b'RND' + struct.pack('<H', version) + head + bytes(choices)
    ask(room < len(file), 7, 8)
    return file


# ---- Following a round

def follow_round(cell, number, choices, lent):
    ask_limits(cell)
    ask_lists(cell, NODES)
    start = Lookup(cell)(number)
    ask(start is None, 13)
    ask_lists(cell, LINKS)
    return walk(cell, start, choices, lent)


def follow_round_versioned(cell, version, area, number, choices, lent):
    ask(version not in (1, 2), 15)
    ask(version == 2 and cell.own_area() != area, 19)
    return follow_round(cell, number, choices, lent)
