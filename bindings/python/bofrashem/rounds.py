"""Round files of both versions."""
from ctypes import byref, c_size_t, c_uint8, c_uint16
from typing import Any, NamedTuple, Optional, Tuple

from . import _arguments
from ._arguments import Data
from .refused import asked


class Round(NamedTuple):
    """A round: the number of its start node, a byte a choice, and its area in a file of version 2."""
    start: int
    choices: bytes
    area: Optional[int] = None


def read_round(file: Data) -> Round:
    """The round of a round file of either version. Refused: 15, 16."""
    given = _arguments.data("file", file)
    choices, version, area, start, n = (c_uint8 * len(given))(), c_uint16(), c_uint16(), c_uint16(), c_size_t()
    asked("ynd_read_round_versioned", given, len(given), choices, len(choices), byref(version), byref(area),
          byref(start), byref(n))
    return Round(start.value, bytes(choices[:n.value]), area.value if version.value == 2 else None)


def write_round(round_: Round) -> bytes:
    """The round's file, of version 2 if it has an area. Refused: 16 over 65,535 choices."""
    version, area, start, choices = taken_apart(round_)
    file, n = (c_uint8 * (11 + len(choices)))(), c_size_t()
    asked("ynd_write_round_versioned", version, area, start, choices, len(choices), file, len(file), byref(n))
    return bytes(file[:n.value])


def taken_apart(round_: Any) -> Tuple[int, int, int, bytes]:
    """A round's version, area (0 where it has none), start and choices, each as its C type holds it."""
    if not isinstance(round_, Round):
        raise TypeError(f"round_ is of type {type(round_).__name__}: it has to be a Round")
    area = 0 if round_.area is None else _arguments.held("area", round_.area, c_uint16)
    start = _arguments.held("start", round_.start, c_uint16)
    return 1 if round_.area is None else 2, area, start, _arguments.chosen("choices", round_.choices)
