"""Arguments held to their C types. ctypes cuts a number that is too large to its low bits without a word, so every
number passes here before a call."""
import operator
import struct
from ctypes import c_int16, c_size_t, c_uint8, c_uint16, c_uint32
from typing import Any, Iterable, Optional, Union

# The least and the greatest number of each type that a call takes.
ENDS = {c_uint8: (0, 2**8 - 1), c_uint16: (0, 2**16 - 1), c_int16: (-2**15, 2**15 - 1), c_uint32: (0, 2**32 - 1),
        c_size_t: (0, 2**64 - 1)}

Data = Union[bytes, bytearray, memoryview]
Choices = Union[bytes, bytearray, memoryview, Iterable[int]]


def whole(name: str, value: Any) -> int:
    """A whole number; numpy's are taken, floats and strings not."""
    try:
        return operator.index(value)
    except TypeError:
        raise TypeError(f"{name} is of type {type(value).__name__}: it has to be a whole number") from None


def held(name: str, value: Any, ctype: Any) -> int:
    """A whole number that the type holds."""
    number, (least, most) = whole(name, value), ENDS[ctype]
    if not least <= number <= most:
        raise OverflowError(f"{name} is {_shown(number)}: it has to be {least} to {most}")
    return number


def _shown(number: Any) -> str:
    """A number in an error; Python refuses to write out a very long one."""
    long = isinstance(number, int) and number.bit_length() > 256
    return f"a number of {number.bit_length()} bits" if long else str(number)


def looked_for(name: str, value: Any, ctype: Any) -> Optional[int]:
    """The same; None where it is too large, so that nothing has it."""
    return None if whole(name, value) > ENDS[ctype][1] else held(name, value, ctype)


def single(name: str, value: Any) -> float:
    """The nearest number of 32 bits, as C's float; infinities and NaN are taken."""
    if not hasattr(type(value), "__float__") and not hasattr(type(value), "__index__"):
        raise TypeError(f"{name} is of type {type(value).__name__}: it has to be a number")
    try:
        nearest: float = struct.unpack("<f", struct.pack("<f", float(value)))[0]
        return nearest
    except OverflowError:
        raise OverflowError(f"{name} is {_shown(value)}: a float of 32 bits can't hold it") from None


def data(name: str, value: Any) -> bytes:
    """Bytes; a copy where they could change during the call."""
    if not isinstance(value, (bytes, bytearray, memoryview)):
        raise TypeError(f"{name} is of type {type(value).__name__}: it has to be bytes")
    return bytes(value)


def chosen(name: str, value: Any) -> bytes:
    """A byte a choice: bytes, or whole numbers of 0 to 255."""
    if isinstance(value, (bytes, bytearray, memoryview)):
        return bytes(value)
    if isinstance(value, str) or not isinstance(value, Iterable):
        raise TypeError(f"{name} is of type {type(value).__name__}: it has to be bytes, or numbers of 0 to 255")
    return bytes(held(f"{name}[{at}]", number, c_uint8) for at, number in enumerate(value))
