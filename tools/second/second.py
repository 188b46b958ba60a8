"""A second implementation of FORMAT.md, written from that page alone. One module for each part of the page."""
from sec_cell import *      # noqa: F401,F403
from sec_numbers import *   # noqa: F401,F403
from sec_sets import *      # noqa: F401,F403
from sec_walks import *     # noqa: F401,F403


def called(call, *args):
    """How it is told in C: ((number, place), what the call answers, or None if it was refused)."""
    try:
        return (0, 0), call(*args)
    except Refused as refusal:  # noqa: F405
        return refusal.answer, None
