"""The shared library: where it is, and the calls of the header that this package makes. Each number that a call is
given is held to its C type here, so that none is cut, whoever calls."""
import ctypes
import os
import pathlib
import re
from ctypes import POINTER, c_bool, c_char, c_float, c_int16, c_size_t, c_uint8, c_uint16, c_uint32, c_uint64, c_void_p
from typing import Any, List, NamedTuple, Tuple

from . import _arguments
from ._memory import NAMED
from ._version import ROOT, in_repository, said

# As include/bofrashem.h declares them (the tests hold one to the other). An argument's name is what an error says.
DECLARED = """
uint32_t ynd_version(void);
size_t ynd_refusal_text(uint32_t number, char *text, size_t text_len);
uint32_t ynd_count(
    const uint8_t *system, size_t system_len, const uint8_t *graphics, size_t graphics_len, ynd_counts *counts,
    size_t *place);
uint32_t ynd_read(
    ynd_cell *ynd, const uint8_t *system, size_t system_len, const uint8_t *graphics, size_t graphics_len,
    ynd_node_entry *nodes, size_t nodes_len, ynd_link_entry *links, size_t links_len,
    ynd_junction_entry *junctions, size_t junctions_len, uint8_t *heights, size_t heights_len,
    ynd_ref_entry *refs, size_t refs_len, size_t *place);
uint32_t ynd_area_of_cell(
    const ynd_cell *ynd, const ynd_node_entry *nodes, size_t nodes_len, bool *found, uint32_t *area,
    size_t *place);
uint32_t ynd_node(
    const ynd_cell *ynd, const ynd_node_entry *nodes, size_t nodes_len, uint16_t node_id, bool *found,
    size_t *at, size_t *place);
uint32_t ynd_junction_of(
    const ynd_cell *ynd, const ynd_node_entry *nodes, size_t nodes_len,
    const ynd_ref_entry *refs, size_t refs_len, uint16_t area_id, uint16_t node_id, bool *found, size_t *at,
    size_t *place);
bool ynd_node_is_ped_node(const ynd_node_entry *node);
uint32_t ynd_shown_values(
    const ynd_cell *ynd, const ynd_junction_entry *junctions, size_t junctions_len,
    const uint8_t *heights, size_t heights_len, size_t at, uint8_t *values, size_t values_len, size_t *count,
    size_t *place);
uint32_t ynd_sound(
    const ynd_cell *ynd, const ynd_node_entry *nodes, size_t nodes_len,
    const ynd_link_entry *links, size_t links_len, const ynd_ref_entry *refs, size_t refs_len,
    uint32_t *scratch, size_t scratch_len, bool *sound, size_t *place);
uint32_t ynd_walk(
    const ynd_cell *ynd, const ynd_node_entry *nodes, size_t nodes_len,
    const ynd_link_entry *links, size_t links_len, size_t start, const uint8_t *choices, size_t choices_len,
    uint32_t *visited, size_t visited_len, ynd_walk_end *end, size_t *count, size_t *place);
uint32_t ynd_walk_indexed(
    const ynd_cell *ynd, const ynd_node_entry *nodes, size_t nodes_len,
    const ynd_link_entry *links, size_t links_len, size_t start, const uint8_t *choices, size_t choices_len,
    uint32_t *visited, size_t visited_len, uint32_t *scratch, size_t scratch_len,
    ynd_walk_end *end, size_t *count, size_t *place);
uint32_t ynd_follow_round_versioned(
    const ynd_cell *ynd, const ynd_node_entry *nodes, size_t nodes_len,
    const ynd_link_entry *links, size_t links_len, uint16_t version, uint16_t area, uint16_t start,
    const uint8_t *choices, size_t choices_len, uint32_t *visited, size_t visited_len, ynd_walk_end *end,
    size_t *count, size_t *place);
uint32_t ynd_follow_round_indexed(
    const ynd_cell *ynd, const ynd_node_entry *nodes, size_t nodes_len,
    const ynd_link_entry *links, size_t links_len, uint16_t start, const uint8_t *choices, size_t choices_len,
    uint32_t *visited, size_t visited_len, uint32_t *scratch, size_t scratch_len,
    ynd_walk_end *end, size_t *count, size_t *place);
uint32_t ynd_shortest_path(
    const ynd_cell *ynd, const ynd_node_entry *nodes, size_t nodes_len,
    const ynd_link_entry *links, size_t links_len, size_t from, size_t to, uint32_t *scratch, size_t scratch_len,
    uint8_t *choices, size_t choices_len, uint32_t *places, size_t places_len, uint32_t *distance, size_t *count,
    size_t *place);
uint32_t ynd_within(
    const ynd_cell *ynd, const ynd_node_entry *nodes, size_t nodes_len, int16_t x, int16_t y, uint16_t radius,
    uint32_t *places, size_t places_len, size_t *count, size_t *place);
uint32_t ynd_nearest(
    const ynd_cell *ynd, const ynd_node_entry *nodes, size_t nodes_len, int16_t x, int16_t y, bool *found,
    size_t *at, uint64_t *square, size_t *place);
uint32_t ynd_read_round_versioned(
    const uint8_t *file, size_t file_len, uint8_t *choices, size_t choices_len, uint16_t *version, uint16_t *area,
    uint16_t *start, size_t *count, size_t *place);
uint32_t ynd_write_round_versioned(
    uint16_t version, uint16_t area, uint16_t start, const uint8_t *choices, size_t choices_len,
    uint8_t *file, size_t file_len, size_t *length, size_t *place);
void ynd_quantise(float x, float y, float z, int16_t steps[3]);
void ynd_cell_for_position(float x, float y, uint32_t cell[2]);
uint32_t ynd_area_id(uint32_t cx, uint32_t cy, uint32_t *area, size_t *place);
void ynd_cell_of_area(uint32_t area, uint32_t cell[2]);
uint32_t ynd_cell_bounds(uint32_t cx, uint32_t cy, float bounds[4], size_t *place);
bool ynd_area_id_from_file_name(const uint8_t *name, size_t name_len, uint32_t *area);
"""
NUMBERS = {"bool": c_bool, "char": c_char, "float": c_float, "uint8_t": c_uint8, "uint16_t": c_uint16,
           "int16_t": c_int16, "uint32_t": c_uint32, "uint64_t": c_uint64, "size_t": c_size_t}

MISSING = """no library of Bofrashem ({tried}). To have one:
  run `make shared` at the root of Bofrashem's repository, or
  install it (`make install`, then `ldconfig`), or
  let BOFRASHEM_LIBRARY name the file libbofrashem.so."""


class Parameter(NamedTuple):
    """A parameter of a call; a number's type is what it is held to, a pointer's is left to ctypes."""
    name: str
    ctype: Any
    number: bool


def parsed() -> List[Tuple[str, Any, List[Parameter]]]:
    """Each declared call: its name, result and parameters."""
    found = re.findall(r"^(\w+) (ynd_\w+)\(([^)]*)\);", DECLARED, re.M)
    return [(name, NUMBERS.get(result), [_parameter(p) for p in given.split(",") if p.strip() != "void"])
            for result, name, given in found]


def _parameter(text: str) -> Parameter:
    found = re.fullmatch(r"(const )?(\w+) (\*?)(\w+)(\[\d+\])?", " ".join(text.split()))
    assert found, text
    const, kind, star, name, size = found.groups()
    pointed: Any = NAMED.get(kind) or NUMBERS[kind]
    if not star and not size:
        return Parameter(name, pointed, True)
    # what is lent for reading may be bytes, which ctypes passes as they are
    return Parameter(name, c_void_p if const and pointed is c_uint8 else POINTER(pointed), False)


def _candidates() -> List[str]:
    named = os.environ.get("BOFRASHEM_LIBRARY")
    if named:
        return [named]
    inside = pathlib.Path(__file__).resolve().with_name("libbofrashem.so.1")
    own = ROOT / "target/lib/libbofrashem.so"
    here = [inside] + ([own] if in_repository() else [])
    return [str(path) for path in here if path.exists()] + ["libbofrashem.so.1"]


def _loaded() -> Any:
    tried = []
    for path in _candidates():
        try:
            return ctypes.CDLL(path)
        except OSError as error:
            tried.append(str(error))
    raise ImportError(MISSING.format(tried="; ".join(tried)))


def _bound(library: Any) -> Any:
    """name -> (call, parameters)."""
    calls = {}
    for name, result, parameters in parsed():
        found = getattr(library, name, None)
        if found is None:
            raise ImportError(f"{library._name} has no {name}: it is older than this package")
        found.restype, found.argtypes = result, [p.ctype for p in parameters]
        calls[name] = found, parameters
    return calls


def call(name: str, *given: Any) -> Any:
    """A call by its parameters in the header's order. Lists and places to fill are ctypes' own."""
    function, parameters = _CALLS[name]
    assert len(given) == len(parameters), name
    return function(*[_held(p, value) for p, value in zip(parameters, given)])


def _held(parameter: Parameter, value: Any) -> Any:
    if not parameter.number:
        return value
    if parameter.ctype is c_float:
        return _arguments.single(parameter.name, value)
    return _arguments.held(parameter.name, value, parameter.ctype)


def version() -> Tuple[int, int, int]:
    """The library's version; `__version__` is the package's."""
    n = call("ynd_version")
    return n // 10_000, n // 100 % 100, n % 100


_CALLS = _bound(_loaded())
__version__ = said() or ".".join(map(str, version()))
