#!/usr/bin/env python3
"""Yards for the page's tests. yards.py FOLDER writes the large ones.

rows: 60,000 nodes in rows. Of 65,536 nodes that each take two links, of overlapping ranges (131,072 in memory, less
those of posts): grid, neighbours on a jittered grid; tangle, each link leads anywhere, the worst to draw; most, 31
links a node.
"""
import pathlib
import random
import struct
import sys

AREA, NODES, HEAD, SYSTEM = 489, 65536, 1152, 0x50000000


def nodes(most):
    r = random.Random(1)
    for p in range(NODES):
        i, j = p % 256, p // 256
        x, y = 20 * i - 2560 + r.randrange(-5, 6), 20 * j - 2560 + r.randrange(-5, 6)
        ped = 10 << 3 if (i + 3 * j) % 41 == 0 else 0
        count = 0 if p % 97 == 50 else most
        start = p if count else 0
        yield struct.pack('<16x2HI2xH2h2Bh4B', AREA, p,
            7 + p // 256 % 20, start, x, y, 0, ped, 0, 0, count << 3 | 2, 0, 0)


def section(lead, most=2):
    count = NODES + most - 1
    links = b''.join(struct.pack('<2H4B', AREA, lead(k) & 65535, 0, 0, 0x24, 5) for k in range(count))
    gap = bytes(-len(links) % 16)
    root = struct.pack('<IIQ QIIII QII QQII QHHI IIII', 0x4061E3B0, 1, SYSTEM + 112, SYSTEM + HEAD + len(links + gap),
        NODES,
                       NODES, 0, 0, SYSTEM + HEAD, count, 0, 0, 0, 1, 0, 0, 0, 0, 0, 0, 0, 0, 0)
    head = root + bytes(8) + b'\x80' + bytes(1031)
    assert len(head) == HEAD
    return head + links + gap + b''.join(nodes(most))


# Small yards, node by node.
def node(number, x, y, z=0.0, area=AREA, street=0, flags1=0, spare=0, links=()):
    return dict(number=number, x=x, y=y, z=z, area=area, street=street, flags1=flags1, spare=spare, links=list(links))


def link(number, area=AREA, metres=5):
    return struct.pack('<2H4B', area, number, 0, 0, 0x24, metres)


def written(nodes, junctions=(), refs=()):
    """A section. A junction is x, y, low, high, width, height, values; a ref is area, number, junction."""
    blocks, links, heights, rows = [], b'', b'', b''
    for n in nodes:
        rows += struct.pack('<I12x2HI2xH2h2Bh4B', n['spare'], n['area'], n['number'], n['street'], len(links) // 8,
                            int(n['x'] * 4), int(n['y'] * 4), 0, n['flags1'], int(n['z'] * 32), 0,
                            len(n['links']) << 3 | 2, 0, 0)
        links += b''.join(n['links'])
    places = b''
    for x, y, low, high, width, height, values in junctions:
        places += struct.pack('<4hHBB', int(high * 32), int(x * 4), int(y * 4), int(low * 32), len(heights), width,
            height)
        heights += bytes(values)
    named = b''.join(struct.pack('<4H', *r, 0) for r in refs)
    body, at = b'', []
    for block in (named, heights, places, links, rows):
        body += bytes(-len(body) % 16) + block
        at.append(SYSTEM + HEAD + len(body) - len(block) if block else 0)
        blocks.append(block)
    r, h, j, l, n = at
    root = struct.pack('<IIQ QIIII QII QQII QHHI IIII', 0x4061E3B0, 1, SYSTEM + 112, n, len(nodes), len(nodes), 0, 0,
        l,
                       len(links) // 8, 0, j, h, 1, 0, r, len(refs), len(refs), 0, len(junctions), len(heights), 0, 0)
    return root + bytes(8) + b'\x80' + bytes(1031) + body


def mixed():
    """One of everything: ways both ways and one way, posts, a ped node, links out and to no node, a junction."""
    to = {0: [link(1, metres=12), link(7, 490, 40)], 1: [link(0, metres=12), link(2, metres=12)],
          2: [link(1, metres=12), link(3, metres=12)], 4: [link(999)]}
    more = {1: dict(street=77, flags1=1, spare=7), 3: dict(flags1=10 << 3)}
    nodes = [node(k, -3300 + 10 * k, -250 + k % 2 * 8, 0.5, links=to.get(k, ()), **more.get(k, {})) for k in range(6)]
    return written(nodes, [(-3304, -254, 0, 4, 3, 2, [0, 50, 100, 150, 200, 255])], [(AREA, 1, 0)])


def crossing(area, other, shift=0, first=0):
    """Three nodes in a row, the last of which has a link to number 0 of another area."""
    nodes = []
    for k in range(3):
        to = [link(first + j, area) for j in (k - 1, k + 1) if 0 <= j < 3] + ([link(0, other)] if k == 2 else [])
        nodes.append(node(first + k, -3550 + shift + 10 * k, -100 - 8 * (k % 2), area=area, links=to))
    return written(nodes)


def stacked():
    """Three nodes in one spot, and one beside them."""
    return written([node(k, -3500 if k < 3 else -3490, -100, k, links=[link((k + 1) % 4)]) for k in range(4)])


def damaged_numbers():
    """What makes a yard unsound, one thing each."""
    row = lambda **more: [node(k, -3500 + 5 * k, -100, links=[link((k + 1) % 4)],
        **more.get(f'n{k}', {})) for k in range(4)]
    same = row()
    same[2]['number'] = 1
    lost = row()
    lost[1]['links'].append(link(77))
    return {'other-area': written(row(n3=dict(area=490))), 'same-number': written(same), 'link-to-none': written(lost),
            'ref-to-none': written(row(), [(-3500, -100, 0, 1, 1, 1, [9])], [(AREA, 66, 0)])}


def hostile():
    """4,096 junctions that all name the same 65,025 values: 114 KB ask for 266 MB."""
    places, heights = struct.pack('<4hHBB', 0, 0, 0, 0, 0, 255, 255) * 4096, bytes(65025)
    at = SYSTEM + HEAD
    root = struct.pack('<IIQ QIIII QII QQII QHHI IIII', 0x4061E3B0, 1, SYSTEM + 112, 0, 0, 0, 0, 0, 0, 0, 0, at,
                       at + len(places), 1, 0, 0, 0, 0, 0, 4096, len(heights), 0, 0)
    return root + bytes(8) + b'\x80' + bytes(1031) + places + heights


def split(section):
    """A section as two: its nodes, and all else."""
    (at, count) = struct.unpack_from('<QI', section, 16)
    start = at - SYSTEM
    system = bytearray(section)
    struct.pack_into('<Q', system, 16, 0x60000000)
    system[start:start + 40 * count] = bytes(40 * count)
    return bytes(system), section[start:start + 40 * count]


def rows():
    """60,000 nodes in rows: a link each to the next, and some back by a row."""
    n, wide = 60000, 244
    nodes = []
    for p in range(n):
        to = [link((p + 1) % n, metres=2)] + ([link(p - wide, metres=2)] if p >= wide and p % 11 == 0 else [])
        nodes.append(node(p, p % wide * 2 - 250, p // wide * 2 - 250, 0.25, links=to))
    return written(nodes)


YARDS = {
    'rows': rows,
    'grid': lambda: section(lambda k: k + 256 if k % 2 else k + 1),
    'tangle': lambda: section(lambda k: k * 2654435761 % 2**32 >> 16),
    'most': lambda: section(lambda k: k * 7 % 257 * 256 + k if k % 5 == 0 else k + k % 3 * 256, 31),
}

if __name__ == '__main__':
    folder = pathlib.Path(sys.argv[1])
    folder.mkdir(parents=True, exist_ok=True)
    for name, make in YARDS.items():
        (folder / f'{name}.section').write_bytes(make())
