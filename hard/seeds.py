#!/usr/bin/env python3
"""Makes the first inputs of the fuzz targets, and of the runs under AddressSanitizer and valgrind: small yards with scripts,
and round files.

    python3 hard/seeds.py FOLDER ROUNDS

An input is as hard/input.c says: a length of a script, a length of the graphics section, script, graphics, system section. The same
files come out each time.
"""
import pathlib, random, struct, sys

sys.path.insert(0, str(pathlib.Path(__file__).resolve().parent.parent / 'samples'))
import make_yards as yards

HEAD = 1152  # root and page block of a written section; reading needs the root alone


def shorter(section):
    """The section without its page block, addresses moved."""
    root = bytearray(section[:112])
    for at in (16, 40, 56, 64, 80):
        address, = struct.unpack_from('<Q', root, at)
        if address:
            struct.pack_into('<Q', root, at, address - (HEAD - 112))
    return bytes(root) + section[HEAD:]


def in_graphics(section, at):
    """The array whose address stands at an offset of the root, taken to the graphics section with all that follows."""
    root = bytearray(section)
    address, = struct.unpack_from('<Q', root, at)
    start = address - 0x5000_0000
    struct.pack_into('<Q', root, at, 0x6000_0000)
    return bytes(root), bytes(section[start:])


def small(nodes, r):
    y = yards.Yard()
    for i in range(nodes):
        y.node(r.randrange(-400, 400) / 4, r.randrange(-400, 400) / 4, r.randrange(-64, 64) / 32, r.choice([0, 0, yards.PED, 14 << 3, 18 << 3, 5]), i)
    for _ in range(2 * nodes):
        y.way(r.randrange(nodes), r.randrange(nodes))
    for i in range(nodes // 3):
        w, h = r.randrange(4), r.randrange(4)
        y.junction(i, i, -i, 0, 1, w, h, (r.randrange(256) for _ in range(w * h)))
    return y


def main():
    to = pathlib.Path(sys.argv[1])
    to.mkdir(parents=True, exist_ok=True)
    r = random.Random(1)
    inputs = [(bytes(112), b''), (bytes(111), b''), (b'', b'')]
    for make in (yards.dock, yards.hall):
        s = make().section()
        inputs += [(s, b''), (shorter(s), b'')]
    for nodes in (1, 2, 3, 5, 8, 12):
        s = shorter(small(nodes, r).section())
        inputs += [(s, b''), in_graphics(s, 16)]
    count = 0
    for system, graphics in inputs:
        for length in (0, 40, 250):
            script = bytes(r.randrange(256) if r.random() < 0.5 else r.randrange(8) for _ in range(length))
            (to / f'seed{count:03}').write_bytes(struct.pack('<HH', length, len(graphics)) + script + graphics + system)
            count += 1
    rounds = pathlib.Path(sys.argv[2])
    rounds.mkdir(parents=True, exist_ok=True)
    files = [b'', b'RND', b'RND\x01\0', b'RND\x02\0' + bytes(6), bytes(9)]
    for choices in (0, 1, 2, 255, 256, 600):
        good = b'RND\x01\0' + struct.pack('<HH', r.randrange(65536), choices) + bytes(r.randrange(4) for _ in range(choices))
        files += [good, good[:-1], good + b'\0']
        of_area = b'RND\x02\0' + struct.pack('<H', r.choice([0, 489, 1513])) + good[5:]
        files += [of_area, of_area[:-1], of_area + b'\0']
    for i, file in enumerate(files):
        (rounds / f'seed{i:03}').write_bytes(file)
    print(count, 'inputs in', to, 'and', len(files), 'round files in', rounds)


if __name__ == '__main__':
    main()
