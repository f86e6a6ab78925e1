"""Python's numbers on their way into a call. ctypes cuts off what does not fit and takes no offence at a sign: here neither happens."""
from __future__ import annotations

from array import array
from ctypes import c_size_t
from operator import index
from typing import Iterable

MAX_SIDE = 32  # a side's limit
MAX_CELLS = 1024  # the most cells of a board, and the most vertices of a room graph or union
MAX_BORDERS = 1984  # the most borders of a board, and the most edges of a room graph
MAX_UNDECIDED = 24  # the most undecided borders of a puzzle whose answers are all asked for
MAX_LINE = 55323  # the bytes that any line of a case's call fits
MAX_FILE = 60003  # the bytes of the longest case file
NO_CLUE = 65535  # no clue for a room

SIZE_MAX = c_size_t(-1).value
MAX_ENTRY = 65535


def natural(number: int, most: int) -> int:
    """The number, or `most` where it is greater: for numbers whose greatest value is refused as any above it is."""
    number = index(number)
    if number < 0:
        raise ValueError("%d is negative" % number)
    return number if number < most else most


def size(number: int) -> int:
    """A number that names something or counts: what size_t can't hold is refused as the greatest of size_t is."""
    return natural(number, SIZE_MAX)


def word(number: int) -> int:
    """A number of 32 bits that nothing else can stand for."""
    if natural(number, 2 ** 32) == 2 ** 32:
        raise ValueError("%d does not fit 32 bits" % number)
    return index(number)


def truth(said: bool, meaning: str = "True for Wall or False for Connected") -> bool:
    """True, False, and nothing else: a State, which is a number, would always be true."""
    if said is not True and said is not False:
        raise TypeError("%s, not %r" % (meaning, said))
    return said


def entry(border: int, wall: bool) -> int:
    """The entry that lists a border as Wall or Connected; of a border beyond all, one that no record has."""
    return natural(2 * index(border) + truth(wall), MAX_ENTRY)


def shorts(numbers: Iterable[int]) -> array:
    """Numbers of 16 bits."""
    try:
        return array("H", numbers)
    except OverflowError as e:
        raise ValueError("a number does not fit 16 bits: %s" % e) from None


def lent(numbers: array) -> tuple[int, int]:
    """Where numbers stand that are lent to a call, and how many they are. Calls take no null, so none stand at any address."""
    address, count = numbers.buffer_info()
    return address or ANYWHERE.buffer_info()[0], count


ANYWHERE = array("H", [0])
