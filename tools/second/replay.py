"""Reads the vectors by VECTORS.md, answers each vector by second.py, and compares."""
import collections
import struct
import sys

import second as s
from second import called

LENT = 64, 256, 16, 512, 64                              # VECTORS.md, Files


class Body:
    """A record's body, taken from the front."""

    def __init__(self, data):
        self.data, self.at = data, 0

    def take(self, size):
        if self.at + size > len(self.data):
            raise ValueError(f'the body ends at {len(self.data)}, wanted {size} bytes at {self.at}')
        self.at += size
        return self.data[self.at - size:self.at]

    def n(self, form):
        """Numbers by their letters: B, H, I, Q, h; one alone comes as itself."""
        values = struct.unpack('<' + form, self.take(struct.calcsize('<' + form)))
        return values[0] if len(values) == 1 else values

    def answer(self):
        return self.n('BH')

    def end(self):
        return self.n('BHH')

    def rest(self):
        return self.take(len(self.data) - self.at)

    def rest_u16(self):
        data = self.rest()
        return list(struct.unpack(f'<{len(data) // 2}H', data[:len(data) // 2 * 2])) + ['odd byte'] * (len(data) % 2)


def cell_of(section, lent=LENT):
    """A cell read from a section into lists with so many entries."""
    cell = s.new_cell(lent)
    s.read(cell, section)
    return cell


def steps(b):
    bits = b.n('I')
    return [('xy', b.n('h'), s.step_of_bits(bits, 2)), ('z', b.n('h'), s.step_of_bits(bits, 5))]


def metres(b):
    step = b.n('h')
    return [('xy', b.n('I'), s.bits_of_step(step, 2)), ('z', b.n('I'), s.bits_of_step(step, 5))]


def grid(b):
    x, y = b.n('II')
    return [('cell', b.n('BB'), tuple(s.cell_along_axis(s.float_of(v)) for v in (x, y)))]


def length(b):
    at = [s.float_of(bits) for bits in b.n('6I')]
    return [('length', b.n('B'), s.length_between(at[:3], at[3:]))]


def file_name(b):
    named, area = b.n('BI')
    got = s.area_of_file_name(b.rest())
    return [('area', (named, area), (int(got is not None), got or 0))]


def grid_cell(b):
    cx, cy, *refusal = b.n('IIII')
    want = b.n('I'), b.n('4I'), b.n('B'), b.take(13)
    answers = [called(call, cx, cy) for call in (s.area_id, s.cell_bounds, s.cell_file_name)]
    area, bounds, name = (value for _, value in answers)
    got = area or 0, tuple(map(s.bits_of, bounds or (0,) * 4)), len(name or b''), (name or b'').ljust(13, b'\0')
    return [('refusals', [tuple(refusal)] * 3, [answer for answer, _ in answers]), ('answers', want, got)]


def areas(b):
    one, other = b.n('II')
    got = *s.cell_of_area(one), int(s.is_island_area(one)), int(s.same_cell(one, other))
    return [('cx, cy, island, same cell', b.n('4B'), got)]


def lane(b):
    return [('offset', b.n('BBI')[2], s.bits_of(s.lane_offset(*b.data[:2])))]


def links(b):
    place, times, lent = b.n('BHH')
    want = b.answer(), b.answer(), b.n('H')
    cell = s.new_cell((64, lent, 16, 512, 64))
    s.add_node(cell, 1, (0, 0, 0))
    refusals = [called(s.add_link, cell, place, s.Link(1, 0))[0] for _ in range(times)]
    answer, section = called(s.write, cell, 8192)
    first = next((r for r in refusals if r != (0, 0)), (0, 0))
    return [('first refusal, writing, length', want, (first, answer, len(section or b'')))]


def junction(b):
    width, height, size = b.n('BBH')
    cell = s.new_cell((64, 256, 1, 300, 64))
    answer, _ = called(s.add_junction, cell, s.Junction(width=width, height=height), [0] * size)
    return [('answer', b.answer(), answer)]


def file(b):
    sizes, lent, room, places, whole = b.n('HH'), b.n('5H'), b.n('H'), b.n('H'), b.n('B')
    want = [b.answer() for _ in range(4)]
    lengths = b.n('HH')
    system, graphics = (b.take(size) for size in sizes)
    sections = [b.take(size) for size in lengths]
    cell = s.new_cell(lent)
    got, written = [called(s.read, cell, system, graphics)[0]], [None, None]
    if got[0] == (0, 0):
        answer, written[0] = called(s.write, cell, room)
        got.append(answer)
        got.append(called(s.renumber, cell, [0] * places, 65536 if whole else 65535)[0])
        answer, written[1] = called(s.write, cell, room)
        got.append(answer)
    got += [(0, 0)] * (4 - len(got))
    names = 'reading', 'writing', 'renumbering', 'writing again'
    bare = [w[:112] + w[1152:] if w else b'' for w in written]               # without the page block
    return [*zip(names, want, got), ('lengths', lengths, tuple(map(len, bare))),
            *zip(('written', 'again'), sections, bare)]


def pattern(b, size):
    """Large: zeros, but for the values at places by strides."""
    section = bytearray(size)
    while b.at < len(b.data):
        place, stride, times, value = b.n('IIIB')
        for at in range(times):
            section[place + at * stride] = value
    return bytes(section)


def large(b):
    size, added = b.n('II')
    want, counts, length = [b.answer() for _ in range(3)], b.n('5I'), b.n('I')
    section = pattern(b, size)
    answer, counted = called(s.count, section)
    got, written = [answer], None
    cell = s.new_cell((3900, 65600, 300, 66100, 65537))
    got.append(called(s.read, cell, section)[0])
    if got[1] == (0, 0):
        for _ in range(added):
            s.add_ref(cell, s.Ref())
        answer, written = called(s.write, cell, 2621600)
        got.append(answer)
    got += [(0, 0)] * (3 - len(got))
    return [*zip(('counting', 'reading', 'writing'), want, got), ('counts', counts, tuple(counted or [0] * 5)),
            ('length', length, len(written or b''))]


def junctions(b):
    size, number = b.n('HH')
    section = b.take(size)
    want = [(b.n('4I'), *b.n('BB'), b.n('HH')) for _ in range(number)]
    values = b.rest()
    want = [(bits, width, height, values[at:at + many]) for bits, width, height, (at, many) in want]
    cell, results = cell_of(section), []

    def seen():
        return [((*j.corner, j.min_z, j.max_z), j.width, j.height, bytes(cell.values_of(j)))
                for j in cell.there(s.JUNCTIONS)]
    results.append(('after reading', want, seen()))
    s.renumber(cell, [0] * 64)
    results.append(('after renumbering', want, seen()))
    s.write_then_read(cell, 1 << 20)
    return [*results, ('after write-then-read', want, seen())]


def walk(b, follow=None):
    """Walk, round, round of either version: what starts it stands before and at the start."""
    version_area = b.n('HH') if follow == s.follow_round_versioned else ()
    size, start, number, lent = b.n('4H')
    want = b.answer(), b.end(), b.n('H')
    cell, choices, visits = cell_of(b.take(size)), b.take(number), [65535] * lent
    answer, ended = called(follow or s.walk, cell, *version_area, start, choices, visits)
    got = answer, *(ended or ((0, 0, 0), 0))
    return [('answer, end, visited', want, got), ('the visited list', b.rest_u16(), visits)]


def sound(b):
    size, lent, whole = b.n('H'), b.n('3H'), b.n('B')
    want = b.answer(), b.n('B')
    cell = cell_of(b.take(size))
    for which, entries in zip((s.NODES, s.LINKS, s.REFS), lent):
        cell.lists[which] = (cell.lists[which] + [None] * entries)[:entries]
    answer, yes = called(s.sound, cell, 65536 if whole else 65535)
    return [('answer, sound', want, (answer, int(yes or False)))]


def points(b, lent, n, j):
    """Nodes with only x and y, in a struct with these counts."""
    cell = s.new_cell((0, 0, 0, 0, 0))
    cell.lists[s.NODES] = [s.Node(place=(*b.n('II'), 0)) for _ in range(lent)]
    cell.counts[s.NODES], cell.counts[s.JUNCTIONS] = n, j
    return cell


def within(b):
    x, y, radius, lent, n, j, room = b.n('hhHHIIH')
    want, listed = b.answer(), b.n('H')
    cell, places = points(b, lent, n, j), [None] * room
    answer, many = called(s.within, cell, x, y, radius, places)
    return [('answer, how many', (want, listed), (answer, many or 0)), ('places', b.rest_u16(), places[:many or 0])]


def nearest(b):
    x, y, lent, n, j = b.n('hhHII')
    want = b.answer(), *b.n('BHQ')
    answer, found = called(s.nearest, points(b, lent, n, j), x, y)
    distance, place = found or (0, 0)
    return [('answer, any, place, distance', want, (answer, int(found is not None), place, distance))]


def round_file(b, versions=(1,)):
    size, lent = b.n('HH')
    want = b.answer(), b.n('HH')
    told = b.n('HH') if 2 in versions else None
    data, choices = b.take(size), [165] * lent
    answer, got = called(s.read_round, data, choices, versions)
    version, area, start, count = got or (0, 0, 0, 0)
    results = [('answer, start and count', want, (answer, (start, count))),
               ('version and area', told, (version, area) if told else None),
               ('the choices', b.rest(), bytes(choices))]
    if got:
        back = called(s.write_round, start, choices[:count], size, version, area)[1]
        results.append(('written back', data, back))
    return results


def long_round(b):
    start, count, room = b.n('HII')
    answer, data = called(s.write_round, start, bytes([7]) * count, room)
    return [('answer, length', (b.answer(), b.n('I')), (answer, len(data or b'')))]


def path(b):
    size, start, goal, scratch, room, places_room = b.n('6H')
    want = b.answer(), *b.n('IH')
    cell = cell_of(b.take(size))
    choices, places = [165] * room, [65535] * places_room
    answer, found = called(s.shortest_path, cell, start, goal, scratch, choices, places)
    results = [('answer, distance, links', want, (answer, *(found or (0, 0)))),
               ('the choices', b.take(room), bytes(choices)), ('the places', b.rest_u16(), places)]
    if found:                                            # the page's own condition, whichever path came
        end, visited = s.walk_from(cell, start, choices[:found[1]])
        along = sum(s.chosen(cell, p, c).length for p, c in zip(visited, choices[:found[1]]))
        results.append(('leads there, distance, once each', (0, goal, found[0], len(visited)),
                        (end[0], visited[-1], along, len(set(visited)))))
    return results


def set_cell(b):
    """A cell of a set, in lists that are as long as its counts."""
    area, nodes, links = b.n('HBB')
    cell = s.new_cell((0,) * 5)
    for number, flags1, start, count in (b.n('4B') for _ in range(nodes)):
        cell.lists[s.NODES].append(s.Node(area, number, flags=(0, flags1, 0, 0, 0, 0), link_start=start,
                                          link_count=count))
    cell.lists[s.LINKS] = [s.Link(*b.n('HB')) for _ in range(links)]
    cell.counts = [len(entries) for entries in cell.lists]
    return cell


def crossing(b, members):
    member, place, number, lent = b.n('4B')
    want = b.n('BB'), b.n('BHB'), b.n('B')
    choices, visits = b.take(number), [(255, 255)] * lent
    answer, ended = called(s.set_crossing_walk, members, member, place, choices, visits)
    list_wanted = [b.n('BB') for _ in range(lent)]
    got = answer, *(ended or ((0, 0, 0), 0))
    return [('crossing: refusal, end, visited', want, got), ('crossing: the list', list_wanted, visits)]


def renumbering(b, members):
    member, lent = b.n('BB')
    want, places = b.n('BB'), [255] * lent
    answer, _ = called(s.set_renumber, members, member, places)
    return [('renumbering: refusal', want, answer), ('renumbering: new places', [*b.take(lent)], places)]


def cell_set(b):
    cells, number = b.n('BB')
    members, results = [], []
    for _ in range(cells):
        cell = set_cell(b)
        results.append(('join', (0, 0), called(s.set_join, members, cell, cell.counts)[0]))
    for at in range(number):
        step = (crossing, renumbering)[b.n('B')](b, members)
        results += [(f'step {at}, {name}', want, got) for name, want, got in step]
    return results


KINDS = {1: ('steps', steps), 2: ('metres', metres), 3: ('grid', grid), 4: ('length', length),
         5: ('file name', file_name), 6: ('grid cell', grid_cell), 7: ('areas', areas), 8: ('lane offset', lane),
         9: ('file', file), 10: ('links', links), 11: ('junction', junction), 12: ('large', large), 13: ('walk', walk),
         14: ('sound', sound), 15: ('junctions', junctions), 16: ('within', within), 17: ('nearest', nearest),
         18: ('round file', round_file), 19: ('round', lambda b: walk(b, s.follow_round)),
         20: ('long round', long_round),
         21: ('path', path), 22: ('set', cell_set), 23: ('round file of both', lambda b: round_file(b, (1, 2))),
         24: ('round of both', lambda b: walk(b, s.follow_round_versioned))}


def records(data):
    at = 0
    while at < len(data):
        kind, size = struct.unpack_from('<BH', data, at)
        yield kind, data[at + 3:at + 3 + size]
        at += 3 + size


def differences(kind, body):
    """In words: what a vector says and what second.py does."""
    b = Body(body)
    try:
        results = KINDS[kind][1](b)
    except (ValueError, struct.error, IndexError, s.Refused) as trouble:
        return [f'{type(trouble).__name__}: {trouble}']
    words = [f'{name}: the vector says {want!r}, second.py {got!r}' for name, want, got in results if want != got]
    return words + ([f'{len(body) - b.at} bytes are left of {len(body)}'] if b.at < len(body) else [])


def main():
    total, left_out, differ = 0, collections.Counter(), []
    kinds = collections.Counter()
    for kind, body in records(open(sys.argv[1], 'rb').read()):
        total += 1
        kinds[kind] += 1
        if kind not in KINDS:
            left_out[kind] += 1
            continue
        words = differences(kind, body)
        if words:
            differ.append((kind, total - 1, words))
    out = sum(left_out.values())
    why = f' (kinds {sorted(left_out)}: VECTORS.md has no such kind)' if out else ''
    for kind, at, words in differ[:40]:
        print(f'record {at}, {KINDS[kind][0]}: ' + '; '.join(w[:300] for w in words[:3]))
    if '-k' in sys.argv[2:]:
        print({KINDS[k][0]: v for k, v in sorted(kinds.items())})
    print(f'{total} vectors, {total - len(differ) - out} agree, {out} left out{why}')
    return 1 if differ else 0


if __name__ == '__main__':
    sys.exit(main())
