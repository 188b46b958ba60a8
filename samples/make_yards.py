#!/usr/bin/env python3
"""Makes the sample yards beside this script: system sections of path node cells, in document 01's own layout.

    python3 samples/make_yards.py

dock.section  a small dock: a ramp that crosses over the floor, so that two nodes share x and y and differ in z; two ped nodes
hall.section  a hall with two junctions that have heightmaps, and refs to them
yard.section  a large yard, 5,000 nodes, too long for `cellsum`
dock.round    a round up the dock's ramp, version 1
hall.round    a round by part of the hall's ring and both hubs, version 2
"""
import math, pathlib, struct

AREA = 489
MIDDLE = -3328, -256  # of the area's grid cell, in metres; the yards' coordinates below count from it
PED = 10 << 3  # flags1 of a pedestrian road crossing


def steps(x, y):
    """The stored quarters of a metre."""
    return int(x * 4) + MIDDLE[0] * 4, int(y * 4) + MIDDLE[1] * 4


class Yard:
    def __init__(self):
        self.nodes, self.links, self.junctions, self.refs = [], {}, [], []

    def node(self, x, y, z, flags1=0, street=0):
        self.nodes.append((x, y, z, flags1, street))
        return len(self.nodes) - 1

    def way(self, a, b):
        """A link each way, with its length in metres, cut, at most 255."""
        length = min(255, int(math.dist(self.nodes[a][:3], self.nodes[b][:3])))
        for p, q in ((a, b), (b, a)):
            self.links.setdefault(p, []).append((AREA, q, 0, 0, 0x24, length))

    def junction(self, node, x, y, low, high, width, height, values):
        self.refs.append((AREA, node, len(self.junctions), 0))
        self.junctions.append((x, y, low, high, width, height, bytes(values)))

    def round(self, version, start, way):
        """The round file that starts at a node and goes along a way of nodes."""
        choices = bytes([l[1] for l in self.links[p]].index(q) for p, q in zip([start] + way, way))
        area = struct.pack('<H', AREA) if version == 2 else b''
        return b'RND' + struct.pack('<H', version) + area + struct.pack('<2H', start, len(choices)) + choices

    def section(self):
        refs = b''.join(struct.pack('<4H', *r) for r in self.refs)
        heights, junctions = b'', b''
        for x, y, low, high, width, height, values in self.junctions:
            corner = steps(x, y)
            junctions += struct.pack('<4hHBB', int(high * 32), *corner, int(low * 32), len(heights), width, height)
            heights += values
        links, nodes = b'', b''
        for p, (x, y, z, flags1, street) in enumerate(self.nodes):
            own = self.links.get(p, [])
            nodes += struct.pack('<16x2HI2xH2h2Bh4B', AREA, p, street, len(links) // 8, *steps(x, y), 0, flags1, int(z * 32), 0,
                                 len(own) << 3 | 2, 0, 0)
            links += b''.join(struct.pack('<2H4B', *l) for l in own)
        body, addresses, at = b'', [], 1152
        for block in (refs, heights, junctions, links, nodes):
            if block:
                gap = -at % 16
                body += bytes(gap) + block
                at += gap + len(block)
            addresses.append(0x5000_0000 + at - len(block) if block else 0)
        r, h, j, l, n = addresses
        peds = sum(1 for v in self.nodes if v[3] >> 3 in (10, 14, 18))
        root = struct.pack('<IIQ QIIII QII QQII QHHI IIII', 0x4061E3B0, 1, 0x50000070, n, len(self.nodes), len(self.nodes) - peds, peds, 0,
                           l, len(links) // 8, 0, j, h, 1, 0, r, len(self.refs), len(self.refs), 0, len(self.junctions), len(heights), 0, 0)
        return root + bytes(8) + b'\x80' + bytes(1031) + body


def dock():
    y = Yard()
    floor = [y.node(4 * i, 0, 0, street=0x1D0C) for i in range(6)]
    ramp = [y.node(8, 6 - 3 * i, 1 + i, street=0x2A3B) for i in range(5)]  # the third node stands over the floor's third
    walk = [y.node(20 + 2 * i, 5, 0, PED) for i in range(2)]
    for part in (floor, ramp, walk):
        for a, b in zip(part, part[1:]):
            y.way(a, b)
    y.way(floor[5], walk[0])
    return y


def hall():
    y = Yard()
    ring = [y.node(40 * math.cos(i * math.pi / 8), 25 * math.sin(i * math.pi / 8), 0, PED if i % 8 == 3 else 0, 0x51) for i in range(16)]
    hub = [y.node(-10, 0, 0.5), y.node(10, 0, 0.5)]
    for a, b in zip(ring, ring[1:] + ring[:1]):
        y.way(a, b)
    for i in range(0, 16, 4):
        y.way(hub[i // 8], ring[i])
    y.way(*hub)
    y.junction(hub[0], -14, -4, 0, 2, 4, 4, (16 * i for i in range(16)))
    y.junction(hub[1], 6, -4, 0, 1.5, 6, 3, (255 - 9 * i for i in range(18)))
    return y


def yard():
    y = Yard()
    wide, deep = 100, 50
    for j in range(deep):
        for i in range(wide):
            y.node(5 * i - 250, 5 * j - 125, 0.25 * (i % 4), PED if (i + j) % 10 == 0 else 0, 1000 + j)
    for j in range(deep):
        for i in range(wide):
            p = j * wide + i
            if i + 1 < wide:
                y.way(p, p + 1)
            if j + 1 < deep:
                y.way(p, p + wide)
    return y


def files():
    """Every file beside this script, by name."""
    every = {make.__name__ + '.section': make().section() for make in (dock, hall, yard)}
    every['dock.round'] = dock().round(1, 6, [7, 8, 9, 10])
    every['hall.round'] = hall().round(2, 0, [1, 2, 3, 4, 16, 17, 8])
    return every


if __name__ == '__main__':
    here = pathlib.Path(__file__).parent
    for name, made in files().items():
        (here / name).write_bytes(made)
        print(name, len(made), 'bytes')
