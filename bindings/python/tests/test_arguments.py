"""No number is cut: every number that a call takes is tried at and beyond the ends of its C type, beside the answer
that the number itself deserves. Run by `make python-test` at the repository's root."""
import inspect
import pathlib
import random
import unittest
from typing import NamedTuple

import bofrashem
from bofrashem import Cell, Refused, Round

SAMPLES = pathlib.Path(__file__).resolve().parents[3] / "samples"
HALL = bofrashem.read_file(SAMPLES / "hall.section")
PLACES = range(len(HALL.nodes))
NUMBERS = [node.node_id for node in HALL.nodes]
POINTS = [bofrashem.quantise(node.x, node.y, 0)[:2] for node in HALL.nodes]
TOO_LARGE = "OverflowError"
U16, I16, U32, SIZE = range(2**16), range(-2**15, 2**15), range(2**32), range(2**64)
ENDS = sorted({sign * (end + d) for end in (0, 2**8, 2**15, 2**16, 2**31, 2**32, 2**63, 2**64, 2**80)
               for d in (-2, -1, 0, 1, 2, 6, 9, 489) for sign in (1, -1)} | {10**5000, -10**5000})
NO_NUMBERS = (None, 1.5, "6", b"6", [6], object())
NO_FLOATS = (None, "1", b"1", [1.0], object())


class Tried(NamedTuple):
    """A parameter of a call: the call by a number there, and its answer by plain arithmetic over the cell's values."""
    call: object
    answer: object


def in_type(numbers, answer):
    """The answer of a number that the C type holds."""
    return lambda n: answer(n) if n in numbers else TOO_LARGE


def refused(number):
    return lambda n: ("Refused", number)


def at_place(answer):
    """A place that no node has is refused with 13, also one that no C type holds."""
    return lambda n: TOO_LARGE if n < 0 else answer(n) if n in PLACES else ("Refused", 13)


def looked_up(answer):
    """A number that no node has is found nowhere, also one that no C type holds."""
    return lambda n: TOO_LARGE if n < 0 else answer(n)


def on_grid(answer):
    return lambda n: TOO_LARGE if n < 0 else answer(n) if n < 32 else ("Refused", 13)


def place_of(number):
    return NUMBERS.index(number) if number in NUMBERS else None


def junction_of(area, number):
    return next((r.junction_id for r in HALL.refs if (r.area_id, r.node_id) == (area, number)), None)


def within(x, y, radius):
    far = [((px - x)**2 + (py - y)**2, place) for place, (px, py) in enumerate(POINTS)]
    return [place for square, place in sorted(far) if square <= radius**2]


def nearest(x, y):
    square, place = min(((px - x)**2 + (py - y)**2, place) for place, (px, py) in enumerate(POINTS))
    return place, square


def links_of(place):
    first = sum(node.link_count for node in HALL.nodes[:place])
    every = [link for p in PLACES for link in HALL.links_of(p)]
    return tuple(every[first:first + HALL.nodes[place].link_count])


def followed(number):
    return ("done", [place_of(number)], None, None) if number in NUMBERS else ("Refused", 13)


def file_of(start, area=None):
    kind = b"\1\0" if area is None else b"\2\0" + area.to_bytes(2, "little")
    return b"RND" + kind + start.to_bytes(2, "little") + b"\1\0\7"


def tie(goal):
    """Whether a way is one from place 0: ways of equal length are many."""
    return lambda way: (way.places[0], way.places[-1], HALL.walk(0, way.choices).visited) == (0, goal, way.places)


X, Y = POINTS[4]
AREA, (REF, *_) = HALL.area(), HALL.refs
# What each call with a number answers; the property test below asks each at every end, and looks for calls left out.
TABLE = {
    ("Cell.links_of", "place"): Tried(HALL.links_of, at_place(links_of)),
    ("Cell.values_of", "place"): Tried(
        HALL.values_of, lambda n: TOO_LARGE if n < 0 else HALL.values_of(n) if n < 2 else ("Refused", 13)),
    ("Cell.node", "number"): Tried(HALL.node, looked_up(place_of)),
    ("Cell.junction_of", "area"): Tried(
        lambda n: HALL.junction_of(n, REF.node_id), looked_up(lambda n: junction_of(n, REF.node_id))),
    ("Cell.junction_of", "number"): Tried(
        lambda n: HALL.junction_of(AREA, n), looked_up(lambda n: junction_of(AREA, n))),
    ("Cell.walk", "start"): Tried(lambda n: HALL.walk(n, b""), at_place(lambda n: ("done", [n], None, None))),
    ("Cell.walk_indexed", "start"): Tried(
        lambda n: HALL.walk_indexed(n, b""), at_place(lambda n: ("done", [n], None, None))),
    ("Cell.follow", "start"): Tried(lambda n: HALL.follow(Round(n, b"")), in_type(U16, followed)),
    ("Cell.follow", "area"): Tried(
        lambda n: HALL.follow(Round(0, b"", n)),
        in_type(U16, lambda n: followed(0) if n == AREA else ("Refused", 19))),
    ("Cell.follow_indexed", "start"): Tried(lambda n: HALL.follow_indexed(Round(n, b"")), in_type(U16, followed)),
    ("Cell.follow_indexed", "area"): Tried(
        lambda n: HALL.follow_indexed(Round(0, b"", n)),
        in_type(U16, lambda n: followed(0) if n == AREA else ("Refused", 19))),
    ("Cell.shortest_way", "start"): Tried(
        lambda n: HALL.shortest_way(n, n), at_place(lambda n: (0, b"", [n]))),
    ("Cell.shortest_way", "goal"): Tried(
        lambda n: tie(n)(HALL.shortest_way(0, n)), at_place(lambda n: True)),
    ("Cell.within", "x"): Tried(lambda n: HALL.within(n, Y, 99), in_type(I16, lambda n: within(n, Y, 99))),
    ("Cell.within", "y"): Tried(lambda n: HALL.within(X, n, 99), in_type(I16, lambda n: within(X, n, 99))),
    ("Cell.within", "radius"): Tried(lambda n: HALL.within(X, Y, n), in_type(U16, lambda n: within(X, Y, n))),
    ("Cell.nearest", "x"): Tried(lambda n: HALL.nearest(n, Y), in_type(I16, lambda n: nearest(n, Y))),
    ("Cell.nearest", "y"): Tried(lambda n: HALL.nearest(X, n), in_type(I16, lambda n: nearest(X, n))),
    ("write_round", "start"): Tried(
        lambda n: bofrashem.write_round(Round(n, b"\7")), in_type(U16, file_of)),
    ("write_round", "area"): Tried(
        lambda n: bofrashem.write_round(Round(5, b"\7", n)), in_type(U16, lambda n: file_of(5, n))),
    ("area_id", "cx"): Tried(lambda n: bofrashem.area_id(n, 3), on_grid(lambda n: 96 + n)),
    ("area_id", "cy"): Tried(lambda n: bofrashem.area_id(3, n), on_grid(lambda n: 32 * n + 3)),
    ("cell_bounds", "cx"): Tried(
        lambda n: bofrashem.cell_bounds(n, 0)[0], on_grid(lambda n: 512 * n - 8192)),
    ("cell_bounds", "cy"): Tried(
        lambda n: bofrashem.cell_bounds(0, n)[1], on_grid(lambda n: 512 * n - 8192)),
    ("cell_of_area", "area"): Tried(
        bofrashem.cell_of_area, in_type(U32, lambda n: (n % 1024 % 32, n % 1024 // 32))),
    ("Refused", "number"): Tried(lambda n: Refused(n, 0).number, in_type(U32, int)),
    ("Refused", "place"): Tried(lambda n: Refused(3, n).place, in_type(SIZE, int)),
}
DATA = {("count", "system"), ("count", "graphics"), ("read", "system"), ("read", "graphics"), ("Cell", "system"),
        ("Cell", "graphics"), ("read_round", "file")}
CHOICES = {("Cell.walk", "choices"), ("Cell.walk_indexed", "choices")}
FLOATS = {("quantise", "x"), ("quantise", "y"), ("quantise", "z"), ("cell_for_position", "x"),
          ("cell_for_position", "y")}
# a round's fields are in the table; files' names are Python's own
OTHERS = {("read_file", "path"), ("area_id_from_file_name", "name"), ("write_round", "round_"),
          ("Cell.follow", "round_"), ("Cell.follow_indexed", "round_")}
VALUES = {"Counts", "Junction", "Link", "Near", "Node", "Ref", "Round", "Walk", "Way"}


def said(call, given):
    """A call's answer, or what it raised."""
    try:
        return call(given)
    except Refused as refused_:
        return "Refused", refused_.number
    except OverflowError as error:
        return TOO_LARGE, str(error).split(" ")[0]


def public():
    """(call, parameter) of everything that the package shows."""
    shown = [(name, getattr(bofrashem, name)) for name in bofrashem.__all__ if name not in VALUES]
    shown += [(f"Cell.{name}", call) for name, call in vars(Cell).items()
              if not name.startswith("_") and inspect.isfunction(call)]
    for name, call in shown:
        if callable(call):
            parameters = list(inspect.signature(call).parameters)
            yield from ((name, p) for p in parameters if p != "self")


class Numbers(unittest.TestCase):
    def test_no_call_is_left_out(self):
        asked = set(TABLE) | DATA | CHOICES | FLOATS | OTHERS
        self.assertEqual(set(public()) - asked, set())
        rounds = {(call, field) for call in ("write_round", "Cell.follow", "Cell.follow_indexed")
                  for field in ("start", "area")}
        self.assertEqual(set(TABLE) - set(public()), rounds)

    def test_every_number_has_its_own_answer(self):
        rng = random.Random(1)
        drawn = [rng.randrange(-2**bits, 2**bits) for bits in (8, 16, 17, 32, 33, 64, 65, 100) for _ in range(25)]
        for (call, parameter), tried in TABLE.items():
            for n in ENDS + drawn + list(range(40)):
                want = tried.answer(n)
                want = (TOO_LARGE, parameter) if want == TOO_LARGE else want
                with self.subTest(call=call, parameter=parameter, n=n):
                    self.assertEqual(said(tried.call, n), want)

    def test_other_kinds_are_no_numbers(self):
        for (call, parameter), tried in TABLE.items():
            for given in NO_NUMBERS:
                if given is None and parameter == "area" and "junction" not in call and call != "cell_of_area":
                    continue                            # a round of version 1
                with self.subTest(call=call, parameter=parameter, given=given):
                    with self.assertRaisesRegex(TypeError, f"^{parameter} is of type "):
                        tried.call(given)

    def test_the_cells_that_were_answered_wrongly(self):
        dock = bofrashem.read_file(SAMPLES / "dock.section")
        self.assertEqual((dock.node(65_536 + 6), dock.node(6)), (None, 6))
        for call in (lambda: dock.walk(2**64 + 6, [0]), lambda: bofrashem.area_id(2**32 + 1, 0),
                     lambda: dock.links_of(13)):
            with self.assertRaises(Refused) as refused_:
                call()
            self.assertEqual(refused_.exception.number, 13)
        for call in (lambda: dock.follow(Round(65_542, b"\0")), lambda: dock.within(0, 0, -1),
                     lambda: dock.links_of(-1), lambda: bofrashem.write_round(Round(-1, b"")),
                     lambda: dock.nearest(65_536, 0)):
            self.assertRaises(OverflowError, call)


class Lists(unittest.TestCase):
    CALLS = {"system": bofrashem.read, "file": bofrashem.read_round,
             "graphics": lambda given: bofrashem.read(b"", given)}

    def test_data_are_bytes(self):
        for name, call in self.CALLS.items():
            for given in (None, 3, 1.5, "bytes", [1, 2], object()):
                with self.assertRaisesRegex(TypeError, f"^{name} is of type "):
                    call(given)
        whole = (SAMPLES / "dock.section").read_bytes()
        for kind in (bytes, bytearray, memoryview):
            self.assertEqual(bofrashem.count(kind(whole)), (13, 22, 0, 0, 0))

    def test_a_choice_is_a_byte(self):
        calls = [lambda c: HALL.walk(0, c), lambda c: HALL.walk_indexed(0, c), lambda c: HALL.follow(Round(0, c)),
                 lambda c: HALL.follow_indexed(Round(0, c)), lambda c: bofrashem.write_round(Round(0, c))]
        for call in calls:
            for n in ENDS:
                if n in range(256):
                    self.assertEqual(call([0, n]), call(bytes([0, n])))
                else:
                    with self.assertRaisesRegex(OverflowError, r"^choices\[1\] is "):
                        call([0, n])
            for given in (None, 3, 1.5, "01", object()):
                with self.assertRaisesRegex(TypeError, "^choices is of type "):
                    call(given)
            with self.assertRaisesRegex(TypeError, r"^choices\[0\] is of type "):
                call([0.0])

    def test_a_round_is_a_round(self):
        for call in (bofrashem.write_round, HALL.follow, HALL.follow_indexed):
            for given in (None, 3, b"RND", (0, b"")):
                with self.assertRaisesRegex(TypeError, "^round_ is of type "):
                    call(given)
        with self.assertRaisesRegex(TypeError, "^name is of type int"):
            bofrashem.area_id_from_file_name(521)


class Floats(unittest.TestCase):
    CALLS = {"x": lambda v: bofrashem.quantise(v, 0, 0)[0], "y": lambda v: bofrashem.quantise(0, v, 0)[1],
             "z": lambda v: bofrashem.quantise(0, 0, v)[2]}
    GRID = {"x": lambda v: bofrashem.cell_for_position(v, 0)[0], "y": lambda v: bofrashem.cell_for_position(0, v)[1]}

    def test_ends(self):
        most = 2.0**128 - 2.0**104                     # the greatest float of 32 bits
        for name, call in self.CALLS.items():
            self.assertEqual([call(v) for v in (most, -most, float("inf"), float("nan"), 0.25, 7)],
                             [32_767, -32_768, 32_767, 0, 8 if name == "z" else 1, 224 if name == "z" else 28])
        for name, call in self.GRID.items():
            self.assertEqual([call(v) for v in (most, -most, float("-inf"), -8192, 8191)], [31, 0, 0, 0, 31])
        for name, call in [*self.CALLS.items(), *self.GRID.items()]:
            for v in (2.0**128, -1e300, 10**40, 10**400, -10**5000):
                with self.assertRaisesRegex(OverflowError, f"^{name} is "):
                    call(v)
            for v in NO_FLOATS:
                with self.assertRaisesRegex(TypeError, f"^{name} is of type "):
                    call(v)


if __name__ == "__main__":
    unittest.main()
