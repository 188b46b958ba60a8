"""What a cell gives are values: they can't be changed, are compared, shown and pickled; numpy sees the same memory.
Run by `make python-test` at the repository's root."""
import copy
import ctypes
import multiprocessing
import pathlib
import pickle
import threading
import time
import unittest

import bofrashem
from bofrashem import _library, _memory, cell as cells

try:
    import numpy
except ImportError:
    numpy = None

SAMPLES = pathlib.Path(__file__).resolve().parents[3] / "samples"
NAMES = ("dock", "hall", "yard")


def yard(name):
    return bofrashem.read_file(SAMPLES / f"{name}.section")


def walked(cell):
    """Asked in another process."""
    return cell.walk(0, b"\0\1\0"), cell.is_sound(), len(cell.nodes)


class Values(unittest.TestCase):
    def test_a_cell_cannot_be_changed(self):
        hall = yard("hall")
        before = hall._held()
        for change in (lambda: setattr(hall.nodes[0], "area_id", 7), lambda: setattr(hall, "nodes", ()),
                       lambda: setattr(hall.links_of(0)[0], "length", 1), lambda: hall.nodes.append(None),
                       lambda: setattr(hall, "area", None), lambda: hall.refs.__setitem__(0, None),
                       lambda: hall.values_of(0).__setitem__(0, 1)):
            self.assertRaises((AttributeError, TypeError), change)
        self.assertTrue(hall.is_sound())
        self.assertEqual(hall._held(), before)

    def test_equal_and_shown(self):
        for name in NAMES:
            self.assertEqual(yard(name), yard(name))
            self.assertEqual(hash(yard(name)), hash(yard(name)))
        self.assertNotEqual(yard("dock"), yard("hall"))
        self.assertNotEqual(yard("dock"), None)
        self.assertEqual(repr(yard("hall")), "<bofrashem.Cell of area 489: 18 nodes, 2 junctions, 2 refs>")
        self.assertEqual(repr(bofrashem.read(b"")), "<bofrashem.Cell of area None: 0 nodes, 0 junctions, 0 refs>")
        self.assertTrue(repr(yard("dock").nodes[0]).startswith("Node(area_id=489, node_id=0, street_name="))
        self.assertTrue(repr(yard("dock").links_of(0)[0]).startswith("Link(area_id=489, node_id="))
        self.assertEqual(repr(bofrashem.Refused(13, 0)), "Refused(13, 0)")

    def test_what_is_not_equal(self):
        whole = bytearray((SAMPLES / "dock.section").read_bytes())
        other = bytes(whole)
        at = int.from_bytes(whole[16:20], "little") - 0x5000_0000
        whole[at + 20:at + 22] = b"\1\0"                # the street's name of the first node
        self.assertNotEqual(bofrashem.read(bytes(whole)), bofrashem.read(other))

    def test_pickled_and_copied(self):
        for name in NAMES:
            whole = yard(name)
            for again in (pickle.loads(pickle.dumps(whole)), copy.deepcopy(whole), copy.copy(whole)):
                self.assertEqual(again, whole)
                self.assertEqual(again.walk(0, [0, 1, 0]), whole.walk(0, [0, 1, 0]))
        for value in (yard("hall").nodes[3], yard("hall").walk(0, [0]), bofrashem.Round(1, b"\2", 3),
                      yard("hall").nearest(0, 0), yard("hall").shortest_way(0, 1)):
            self.assertEqual(pickle.loads(pickle.dumps(value)), value)
        refused = pickle.loads(pickle.dumps(bofrashem.Refused(4, 7)))
        self.assertEqual((refused.number, refused.place, str(refused)[:12]), (4, 7, "refused 4 7:"))

    def test_a_pickle_that_is_no_cell(self):
        words, lists = yard("hall").__reduce__()[1]
        for wrong in (lists[:4], (lists[0] + b"x", *lists[1:]), (lists[0][:-52], *lists[1:]), (b"", *lists[1:])):
            self.assertRaises(ValueError, cells._cell_of, words, wrong)

    def test_other_processes(self):
        with multiprocessing.get_context("spawn").Pool(2) as pool:
            answers = pool.map(walked, [yard(name) for name in NAMES])
        self.assertEqual(answers, [walked(yard(name)) for name in NAMES])

    def test_calls_let_go_of_the_lock(self):
        """Another thread goes on while a call runs: here a long walk by numbers that are no places."""
        whole, steps, ended = backwards(60_000), 0, []
        walk = threading.Thread(target=lambda: ended.append(whole.walk(50_000, bytes(2_000)).end))
        walk.start()
        while not ended:
            steps += 1
            time.sleep(0.001)
        walk.join()
        self.assertEqual(ended, ["done"])
        self.assertGreater(steps, 5)

    def test_what_is_bound_takes_no_number_without_its_type(self):
        for name, (call, parameters) in _library._CALLS.items():
            self.assertEqual(call.argtypes, [p.ctype for p in parameters], name)
            self.assertFalse(call._flags_ & ctypes._FUNCFLAG_PYTHONAPI, name)


class Indexed(unittest.TestCase):
    def test_indexed_calls_answer_as_the_others(self):
        for name in NAMES:
            whole = yard(name)
            for place in range(0, len(whole.nodes), 1 + len(whole.nodes) // 20):
                choices = bytes((place + k) % 3 for k in range(50))
                walk, number = whole.walk(place, choices), whole.nodes[place].node_id
                self.assertEqual(whole.walk_indexed(place, choices), walk)
                for area in (None, whole.area()):
                    self.assertEqual(whole.follow_indexed(bofrashem.Round(number, choices, area)), walk)

    def test_a_large_cell_numbered_the_other_way_round(self):
        """Where numbers are not places an indexed walk still takes no time that one would notice."""
        whole = backwards(20_000)
        walk = whole.walk_indexed(0, bytes(19_999))
        self.assertEqual((walk.end, walk.visited), ("done", list(range(20_000))))
        self.assertEqual(whole.walk(0, bytes(50)).visited, list(range(51)))


def backwards(n):
    """A cell of n nodes in a row, numbered from the last to the first."""
    words, nodes, links = _memory.Words(node_count=n, link_count=n), *_memory.lists_of((n, n, 0, 0, 0))[:2]
    for p in range(n):
        nodes[p] = _memory.NodeEntry(area_id=489, node_id=n - 1 - p, link_count=1, link_start=p)
        links[p] = _memory.LinkEntry(area_id=489, node_id=max(n - 2 - p, 0), length=1)
    return cells._cell_of(bytes(words), (bytes(nodes), bytes(links), b"", b"", b""))


@unittest.skipUnless(numpy, "numpy is not at hand: apt-get install python3-numpy")
class Arrays(unittest.TestCase):
    def test_arrays_show_the_same(self):
        from bofrashem import arrays
        for name in NAMES:
            whole = yard(name)
            nodes, links = arrays.nodes(whole), arrays.links(whole)
            self.assertEqual(nodes["x"].tolist(), [n.x for n in whole.nodes])
            self.assertEqual(nodes["unused4"].tolist(), [n.unused4 for n in whole.nodes])
            for place, row in enumerate(nodes):
                part = links[row["link_start"]:row["link_start"] + row["link_count"]]
                self.assertEqual([tuple(link) for link in part.tolist()], [tuple(l) for l in whole.links_of(place)])
            for place, row in enumerate(arrays.junctions(whole)):
                start = row["heightmap_start"]
                values = arrays.heights(whole)[start:start + int(row["width"]) * int(row["height"])]
                self.assertEqual(values.tobytes(), whole.values_of(place))
            self.assertEqual(arrays.refs(whole).tolist(), [tuple(r) for r in whole.refs])

    def test_arrays_are_for_reading(self):
        from bofrashem import arrays
        for view in (arrays.nodes, arrays.links, arrays.junctions, arrays.heights, arrays.refs):
            array = view(yard("hall"))
            self.assertRaises(ValueError, array.__setitem__, 0, array[0])
            self.assertRaises(ValueError, array.setflags, write=True)
            self.assertEqual(len(view(bofrashem.read(b""))), 0)

    def test_numpy_numbers_are_numbers(self):
        hall = yard("hall")
        for kind in (numpy.int64, numpy.uint16, numpy.int16):
            self.assertEqual(hall.node(kind(6)), hall.node(6))
            self.assertEqual(hall.walk(kind(6), numpy.array([0, 1], dtype=kind)), hall.walk(6, [0, 1]))
        self.assertEqual(bofrashem.quantise(numpy.float32(1.5), numpy.float64(2), 0), (6, 8, 0))


if __name__ == "__main__":
    unittest.main()
