"""The package on the sample yards. Run by `make python-test` at the repository's root."""
import contextlib
import io
import os
import pathlib
import threading
import unittest

import bofrashem
from bofrashem import Refused, Round

SAMPLES = pathlib.Path(__file__).resolve().parents[3] / "samples"


def sample(name):
    return (SAMPLES / name).read_bytes()


def yard(name):
    return bofrashem.read_file(SAMPLES / f"{name}.section")


class Reading(unittest.TestCase):
    def test_counts_of_the_samples(self):
        held = {name: bofrashem.count(sample(f"{name}.section")) for name in ("dock", "hall", "yard")}
        self.assertEqual(held, {"dock": (13, 22, 0, 0, 0), "hall": (18, 42, 2, 34, 2), "yard": (5000, 19700, 0, 0, 0)})

    def test_entries(self):
        hall = yard("hall")
        self.assertEqual((len(hall.nodes), len(hall.junctions), len(hall.refs)), (18, 2, 2))
        self.assertEqual(sum(len(hall.links_of(p)) for p in range(18)), 42)
        self.assertEqual(sum(len(hall.values_of(p)) for p in range(2)), 34)
        self.assertEqual([hall.node(n.node_id) for n in hall.nodes], list(range(18)))
        self.assertEqual({n.area_id for n in hall.nodes}, {hall.area()})
        for r in hall.refs:
            self.assertEqual(hall.junction_of(r.area_id, r.node_id), r.junction_id)
        self.assertIsNone(hall.node(60_000))
        self.assertEqual([n.is_ped_node() for n in hall.nodes], [n.flags1 >> 3 in (10, 14, 18) for n in hall.nodes])
        self.assertTrue(hall.is_sound())

    def test_a_yard_not_drawn_yet(self):
        empty = bofrashem.read(b"")
        self.assertEqual((empty.nodes, empty.area(), empty.unknowns), ((), None, (0, 0, 1, 0, 0, 0, 0)))
        self.assertTrue(empty.is_sound())
        self.assertEqual((empty.within(0, 0, 65_535), empty.nearest(0, 0)), ([], None))

    def test_refusals(self):
        with self.assertRaises(Refused) as short:
            bofrashem.read(bytes(111))
        self.assertEqual((short.exception.number, short.exception.place), (1, 0))
        self.assertEqual(str(short.exception), "refused 1 0: 1 to 111 system bytes")
        damaged = bytearray(sample("dock.section"))
        damaged[19] ^= 0x10
        with self.assertRaises(Refused) as bad:
            bofrashem.read(damaged)
        self.assertEqual((bad.exception.number, bad.exception.place), (3, 0))

    def test_every_damaged_byte_is_answered(self):
        whole = sample("dock.section")
        for at in range(0, 112):
            for value in (0, 1, 0x7F, 0xFF):
                damaged = whole[:at] + bytes([value]) + whole[at + 1:]
                try:
                    bofrashem.count(damaged)
                except Refused as refused:
                    self.assertIn(refused.number, range(1, 7))

    def test_version(self):
        self.assertGreaterEqual(bofrashem.version(), (1, 0, 0))


class Walking(unittest.TestCase):
    def test_ends(self):
        dock = yard("dock")
        walk = dock.walk(0, [0, 1, 1])
        self.assertEqual((walk.end, walk.visited[0], walk.area), ("done", 0, None))
        self.assertEqual(dock.walk(0, [255]), ("no-link", [0], None, None))
        self.assertEqual(dock.walk(5, []), ("done", [5], None, None))
        with self.assertRaises(Refused) as nowhere:
            dock.walk(13, [])
        self.assertEqual(nowhere.exception.number, 13)

    def test_a_walk_goes_by_links(self):
        hall = yard("hall")
        for start in range(len(hall.nodes)):
            for choice, link in enumerate(hall.links_of(start)):
                walk = hall.walk(start, [choice])
                if link.area_id == hall.area():
                    self.assertEqual(walk.visited, [start, hall.node(link.node_id)])
                else:
                    self.assertEqual(walk, ("left", [start], link.area_id, link.node_id))

    def test_shortest_ways(self):
        hall = yard("hall")
        for goal in range(len(hall.nodes)):
            try:
                way = hall.shortest_way(0, goal)
            except Refused as refused:
                self.assertEqual(refused.number, 17)
                continue
            self.assertEqual(hall.walk(0, way.choices), ("done", way.places, None, None))
            self.assertEqual(way.places[-1], goal)
            lengths = [hall.links_of(p)[c].length for p, c in zip(way.places, way.choices)]
            self.assertEqual(sum(lengths), way.distance)

    def test_near_nodes(self):
        hall = yard("hall")
        x, y, _ = bofrashem.quantise(hall.nodes[4].x, hall.nodes[4].y, 0)
        near = hall.nearest(x, y)
        self.assertEqual(near.squared_distance, 0)
        self.assertEqual(hall.within(x, y, 0)[0], near.place)
        self.assertEqual(sorted(hall.within(x, y, 65_535)), list(range(18)))

    def test_threads(self):
        hall, ends = yard("hall"), []
        walks = [threading.Thread(target=lambda p=p: ends.append(hall.walk(p, bytes(200)).end)) for p in range(8)]
        for walk in walks:
            walk.start()
        for walk in walks:
            walk.join()
        self.assertEqual(len(ends), 8)


class Example(unittest.TestCase):
    def test_the_lines_of_the_module(self):
        """What the module's own text shows, run where the samples are."""
        lines = [line[4:] for line in bofrashem.__doc__.split("\n") if line.startswith("    ")]
        before = os.getcwd()
        os.chdir(SAMPLES.parent)
        try:
            with contextlib.redirect_stdout(io.StringIO()) as said:
                exec("\n".join(lines), {})
        finally:
            os.chdir(before)
        self.assertEqual(said.getvalue(), "13 nodes, sound\n[6, 7, 8, 9]\n9 m\ndone\n")


class Rounds(unittest.TestCase):
    def test_files_of_the_samples(self):
        for name, area in (("dock", None), ("hall", yard("hall").area())):
            file = sample(f"{name}.round")
            round_ = bofrashem.read_round(file)
            self.assertEqual(round_.area, area)
            self.assertEqual(bofrashem.write_round(round_), file)
            self.assertEqual(yard(name).follow(round_).end, "done")

    def test_a_round_is_its_walk(self):
        hall = yard("hall")
        for place, node in enumerate(hall.nodes):
            walk = hall.walk(place, [0, 1, 0])
            self.assertEqual(hall.follow(Round(node.node_id, bytes([0, 1, 0]))), walk)
            self.assertEqual(hall.follow(Round(node.node_id, bytes([0, 1, 0]), hall.area())), walk)

    def test_refusals(self):
        hall = yard("hall")
        self.assertEqual(self.number(bofrashem.read_round, b"RND\x03\0\0\0\0\0"), 15)
        self.assertEqual(self.number(bofrashem.read_round, b"RND\x01\0\0\0\x01\0"), 16)
        self.assertEqual(self.number(bofrashem.write_round, Round(0, bytes(65_536))), 16)
        self.assertEqual(self.number(hall.follow, Round(60_000, b"")), 13)
        self.assertEqual(self.number(hall.follow, Round(60_000, b"", hall.area() ^ 1024)), 19)

    def number(self, call, *given):
        with self.assertRaises(Refused) as refused:
            call(*given)
        return refused.exception.number


class Numbers(unittest.TestCase):
    def test_worked_pairs(self):
        self.assertEqual(bofrashem.quantise(-0.3, 9000, float("nan")), (-1, 32_767, 0))
        self.assertEqual(bofrashem.cell_for_position(-3500, 100), (9, 16))
        self.assertEqual((bofrashem.area_id(9, 16), bofrashem.cell_of_area(1177)), (521, (25, 4)))
        self.assertEqual(bofrashem.cell_bounds(0, 31), (-8192, 7680, -7680, 8192))
        names = {"yards/NODES521.ynd": 521, "nodes.ynd": None, "nodesé1.ynd": None}
        self.assertEqual({name: bofrashem.area_id_from_file_name(name) for name in names}, names)
        with self.assertRaises(Refused):
            bofrashem.area_id(32, 0)


if __name__ == "__main__":
    unittest.main()
