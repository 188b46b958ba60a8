"""FORMAT.md: Stored steps, Lengths, Grid and file names, the lane offset, refusals. f32 are kept as bits."""
import math
import re
import struct

ONE_NAN = 0x7FC00000                                     # "One NaN"
STEP_XY, STEP_Z = 2, 5                                   # "By the bits of the f32": k


class Refused(Exception):
    """Refusals: a number and a place."""

    def __init__(self, number, place=0):
        super().__init__(number, place)
        self.answer = (number, place)


def ask(cause, number, place=0):
    if cause:
        raise Refused(number, place)


def f32(value):
    """A float rounded to the nearest f32 (a tie to even), infinite beyond the largest."""
    try:
        return struct.unpack('<f', struct.pack('<f', value))[0]
    except OverflowError:
        return math.copysign(math.inf, value)


def bits_of(value):
    return ONE_NAN if math.isnan(value) else struct.unpack('<I', struct.pack('<f', f32(value)))[0]


def float_of(bits):
    return struct.unpack('<f', struct.pack('<I', bits))[0]


def step_of_bits(bits, k):
    """Stored steps, the five cases by the bits."""
    exponent, fraction, negative = bits >> 23 & 255, bits & 0x7FFFFF, bits >> 31
    if exponent < 127 - k or (exponent == 255 and fraction):
        return 0
    if exponent >= 142 - k:
        return -32768 if negative else 32767
    size = (2 ** 23 + fraction) >> (150 - k - exponent)
    return -size if negative else size


def bits_of_step(step, k):
    return bits_of(step / 2 ** k)


def stored_bits(bits, k):
    return bits_of_step(step_of_bits(bits, k), k)


def length_between(a, b):
    """Lengths, for two positions of three f32 each: eight operations, each rounded."""
    squares = [f32(d * d) for d in (f32(q - p) for p, q in zip(a, b))]
    total = f32(f32(squares[0] + squares[1]) + squares[2])
    if math.isnan(total) or total == math.inf:
        return 255
    return min(int(f32(math.sqrt(total))), 255)


def cell_along_axis(coordinate):
    """Grid: the cell along an axis."""
    if math.isnan(coordinate):
        return 0
    total = f32(coordinate + 8192.0)
    if math.isinf(total):
        return 31 if total > 0 else 0
    return max(0, min(31, math.floor(total / 512.0)))


def area_id(cx, cy):
    ask(cx > 31 or cy > 31, 13)
    return 32 * cy + cx


def cell_of_area(area):
    return area % 1024 % 32, area % 1024 // 32


def is_island_area(area):
    return area & 1024 != 0


def same_cell(a, b):
    return a % 1024 == b % 1024


def cell_bounds(cx, cy):
    ask(cx > 31 or cy > 31, 13)
    x0, y0 = -8192 + 512 * cx, -8192 + 512 * cy
    return x0, y0, x0 + 512, y0 + 512


def cell_file_name(cx, cy):
    return b'nodes%d.ynd' % area_id(cx, cy)


def area_of_file_name(name):
    """Grid: the area of a file name, or None."""
    last = re.split(rb'[/\\]', name)[-1]
    match = re.fullmatch(rb'nodes\+?([0-9]+)\.ynd', last, re.IGNORECASE)
    if not match:
        return None
    digits = match.group(1).lstrip(b'0') or b'0'
    area = int(digits) if len(digits) <= 10 else 1 << 32
    return area if area <= 0xFFFFFFFF else None


def lane_offset(offset_value, negative_offset):
    """The fields in the flags: both operations are rounded."""
    return f32(f32(offset_value / 7) * (-0.5 if negative_offset else 0.5))
