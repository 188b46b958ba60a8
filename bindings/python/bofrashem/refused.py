"""Refusals as exceptions."""
from ctypes import byref, c_char, c_size_t, c_uint32
from typing import Any

from . import _arguments
from ._library import call

NO_SUCH_PLACE = 13
OTHER_AREA = 19


class Refused(ValueError):
    """A call was refused; `number` says why, `place` where (docs/LINKING.md, "Refusals")."""

    number: int
    place: int

    def __init__(self, number: int, place: int) -> None:
        self.number = _arguments.held("number", number, c_uint32)
        self.place = _arguments.held("place", place, c_size_t)
        super().__init__(self.number, self.place)

    @property
    def text(self) -> str:
        """The cause in the library's words."""
        said = (c_char * 128)()
        call("ynd_refusal_text", self.number, said, len(said))
        return said.value.decode("ascii")

    def __str__(self) -> str:
        return f"refused {self.number} {self.place}: {self.text}"


def asked(name: str, *given: Any) -> None:
    """A call that can be refused: the place is its last parameter."""
    place = c_size_t()
    number = call(name, *given, byref(place))
    if number:
        raise Refused(number, place.value)


def place_of(name: str, value: Any) -> int:
    """A place; one that no size_t holds is no place of any node."""
    number = _arguments.looked_for(name, value, c_size_t)
    if number is None:
        raise Refused(NO_SUCH_PLACE, 0)
    return number
