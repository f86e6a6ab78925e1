"""The Sendai border checker: its proved calls, for Python.

A solver decides the borders of a Sendai grid, one by one or several in one stroke, which one undo takes back. An ask says whether the
borders decided so far can all hold, and where they can't it lists some of them that can't: a clause, once each is negated.

>>> from sendai import Puzzle, hand_over, entries
>>> puzzle = Puzzle(1, 3)                        # one row of three cells, one room, no clue
>>> puzzle.stroke([(0, True), (1, False)])       # a Wall after the first cell, none after the second: both or neither
>>> fault = puzzle.ask()
>>> fault                                        # entries: 2 * border + 1 for Wall, 2 * border for Connected
Fault(check='shape', list=[2, 2, 1, 1, 1])
>>> entries(hand_over(fault.list))               # rising, each once: not both
[(0, True), (1, False)]
>>> puzzle.undo()                                # takes both back
>>> puzzle.ask()                                 # clear

Cell (y, x) of a board of h by w has number y*w + x. The border between (y, x) and (y, x+1) has number y*(w-1) + x, the one between (y, x)
and (y+1, x) has h*(w-1) + y*w + x.

A call that is refused raises Refused, with the number and the name of the question that was answered no, and leaves what it was called on
as it was. A number that is no integer is a TypeError, a negative one a ValueError; one that is too great is refused like any that names
nothing. What a list has is copied out; no record or buffer is handed to the caller. An object is for one thread at a time; threads with
objects of their own need no lock.

The calls are looked for in this order: the archive (.a) or shared library (.so) that the environment variable SENDAI_LIBRARY names;
libsendai.so in the folder of this package or the one around it; the archive of the repository that this package stands in, which is linked
once with the C compiler that CC names (cc); the system's libsendai.so. `load` names another one. Where there is none: NoLibrary.
"""
from ._library import NoLibrary, load
from ._numbers import MAX_BORDERS, MAX_CELLS, MAX_FILE, MAX_LINE, MAX_SIDE, MAX_UNDECIDED, NO_CLUE
from .board import Board, Direction, neighbour
from .case import Case, generate_case
from .lists import Fault, State, entries, hand_over
from .puzzle import Puzzle, RightBoards
from .refusal import Refusal, Refused
from .room_graph import RoomGraph, Union

__all__ = [
    "Board", "Case", "Direction", "Fault", "NoLibrary", "Puzzle", "Refusal", "Refused", "RightBoards", "RoomGraph", "State", "Union",
    "entries", "generate_case", "hand_over", "load", "neighbour",
    "MAX_BORDERS", "MAX_CELLS", "MAX_FILE", "MAX_LINE", "MAX_SIDE", "MAX_UNDECIDED", "NO_CLUE",
]


def __getattr__(name: str) -> str:
    """`__version__` is the library's own, "unknown" where there is none or it does not tell."""
    if name != "__version__":
        raise AttributeError("module %r has no attribute %r" % (__name__, name))
    from ._library import calls
    try:
        return calls().version()
    except NoLibrary:
        return "unknown"
