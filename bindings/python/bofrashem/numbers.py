"""Steps, the grid of cells and file names: calls that need no cell. A position's numbers are rounded to floats of 32
bits, as C's."""
import os
from ctypes import byref, c_float, c_int16, c_uint32
from typing import Optional, Tuple, Union

from . import _arguments
from ._library import call
from .refused import NO_SUCH_PLACE, Refused, asked


def quantise(x: float, y: float, z: float) -> Tuple[int, int, int]:
    """The steps in which a position is stored: quarters of a metre along x and y, 32nds along z."""
    steps = (c_int16 * 3)()
    call("ynd_quantise", x, y, z, steps)
    return steps[0], steps[1], steps[2]


def cell_for_position(x: float, y: float) -> Tuple[int, int]:
    """The grid cell that holds a position: its numbers along x and y."""
    cell = (c_uint32 * 2)()
    call("ynd_cell_for_position", x, y, cell)
    return cell[0], cell[1]


def area_id(cx: int, cy: int) -> int:
    """The area of a grid cell. Refused: 13 where a number is over 31."""
    area = c_uint32()
    asked("ynd_area_id", _grid("cx", cx), _grid("cy", cy), byref(area))
    return area.value


def cell_of_area(area: int) -> Tuple[int, int]:
    """The grid cell that an area names, the island's bit left aside."""
    cell = (c_uint32 * 2)()
    call("ynd_cell_of_area", area, cell)
    return cell[0], cell[1]


def cell_bounds(cx: int, cy: int) -> Tuple[float, float, float, float]:
    """The corners of a grid cell: x0, y0, x1, y1. Refused: 13 where a number is over 31."""
    bounds = (c_float * 4)()
    asked("ynd_cell_bounds", _grid("cx", cx), _grid("cy", cy), bounds)
    return bounds[0], bounds[1], bounds[2], bounds[3]


def area_id_from_file_name(name: Union[str, bytes, "os.PathLike[str]", "os.PathLike[bytes]"]) -> Optional[int]:
    """The area that a file name names, or None."""
    try:
        given = os.fsencode(name)
    except TypeError:
        raise TypeError(f"name is of type {type(name).__name__}: it has to be a file name") from None
    area = c_uint32()
    found = call("ynd_area_id_from_file_name", given, len(given), byref(area))
    return area.value if found else None


def _grid(name: str, value: int) -> int:
    """A grid number; one that C's type can't hold is over 31 too."""
    number = _arguments.looked_for(name, value, c_uint32)
    if number is None:
        raise Refused(NO_SUCH_PLACE, 0)
    return number
