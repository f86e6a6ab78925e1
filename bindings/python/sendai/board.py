"""A board, and what it shares with a puzzle: the borders that stand, strokes and undos where the record is, asks."""
from __future__ import annotations

import ctypes
import enum
from array import array
from typing import Iterable

from . import _records
from ._library import Calls, calls
from ._numbers import entry, lent, shorts, size, truth
from .lists import STATES, Fault, State, again, decisions
from .refusal import accepted


class Direction(enum.IntEnum):
    """A direction from a cell."""

    UP = 0
    DOWN = 1
    LEFT = 2
    RIGHT = 3


def neighbour(height: int, width: int, cell: int, direction: Direction) -> tuple[int, int] | None:
    """The neighbour of a cell and the border before it; None where the board ends. Refused: SIZES, MISSING.

    >>> neighbour(2, 3, 1, Direction.DOWN)
    (4, 5)
    """
    place = calls().locked.sendai_neighbour(size(height), size(width), size(cell), Direction(direction))
    accepted(place.code)
    return None if place.ends else (place.cell, place.border)


class Standing:
    """Borders that are decided, stroke by stroke, on a record that is lent to the calls: changed or read where it is, without a copy."""

    __slots__ = ("_calls", "_record", "_board", "_at", "_list")

    _kind: str  # of the calls' names

    def _hold(self, found: Calls, record: ctypes.Structure, board: _records.Board, images: bool = False) -> None:
        """Keeps a record that a call made, of which the board is a part, and makes the buffer that every list of it fits."""
        self._calls, self._record, self._board = found, record, board
        self._at = ctypes.addressof(record)
        self._list = array("H", bytes(2 * (16 if images else 9) * board.height * board.width))

    def _call(self, name: str):
        return getattr(self._calls.locked, "sendai_%s_%s" % (self._kind, name))

    def decide(self, border: int, wall: bool) -> None:
        """Decides a border as Wall (True) or Connected (False): a stroke of one. Refused: MISSING, DECIDED (a given wall, too)."""
        accepted(self._call("decide_in_place")(self._at, size(border), truth(wall)))

    def stroke(self, decided: Iterable[tuple[int, bool]]) -> None:
        """Decides several borders, each as Wall (True) or Connected (False), in one stroke: all or none. An empty stroke is accepted and
        not kept. Refused: MISSING, TWICE, DECIDED (a given wall, too)."""
        named = shorts(entry(border, wall) for border, wall in decided)
        accepted(self._call("stroke_in_place")(self._at, *lent(named)))

    def undo(self) -> None:
        """Takes the last stroke back, all of it. Refused: EMPTY_LEDGER."""
        accepted(self._call("undo_in_place")(self._at))

    def check(self) -> None:
        """Refused where the record does not hold together; it does."""
        accepted(self._call("check")(self._record))

    @property
    def height(self) -> int:
        return self._board.height

    @property
    def width(self) -> int:
        return self._board.width

    @property
    def cells(self) -> int:
        """How many cells there are."""
        return self.height * self.width

    @property
    def borders(self) -> int:
        """How many borders there are."""
        return self.height * (self.width - 1) + (self.height - 1) * self.width

    @property
    def undecided(self) -> int:
        """How many borders are undecided."""
        return self._bytes().count(0)

    def state(self, border: int) -> State:
        """A border's state. IndexError where it does not exist."""
        return STATES[self._bytes()[size(border)]]

    def states(self) -> list[State]:
        """The states, by border."""
        return [STATES[state] for state in self._bytes()]

    def ledger(self) -> list[tuple[int, bool]]:
        """The decided borders in order, each with whether it is a Wall. Given walls are none of them."""
        return [decision for stroke in self.strokes() for decision in stroke]

    def strokes(self) -> list[list[tuple[int, bool]]]:
        """The ledger, stroke by stroke: so many undos empty it."""
        return decisions(self._board.ledger[:self._board.len], self._bytes())

    def _bytes(self) -> bytes:
        return bytes(memoryview(self._board.states)[:self.borders])

    def copy(self):
        """Another one with the same borders decided; what is done to one does not show in the other."""
        other = type(self).__new__(type(self))
        other._keep(self._calls, type(self._record).from_buffer_copy(self._record))
        return other

    __copy__ = copy

    def __deepcopy__(self, _):
        return self.copy()

    def __reduce__(self):
        return again, (type(self), self._making(), self.strokes())

    def __eq__(self, other) -> bool:
        """Whether the same is decided, by the same strokes in the same order, on the same board."""
        if type(other) is not type(self):
            return NotImplemented
        return self._numbers() == other._numbers()

    def _numbers(self) -> bytes:
        """The record's bytes up to its last number: those behind it mean nothing."""
        last = getattr(type(self._record), type(self._record)._fields_[-1][0])
        return bytes(self._record)[:last.offset + last.size]

    __hash__ = None


class Board(Standing):
    """A board: each border undecided, Connected or a Wall, and the decided ones in order, stroke by stroke.

    >>> board = Board(1, 2)
    >>> board.ask()
    >>> board.decide(0, False)
    >>> board.ask()                      # one unit, and no other beside it
    Fault(check='shape', list=[0])
    >>> board.undo()
    >>> board == Board(1, 2)
    True
    """

    __slots__ = ()
    _kind = "board"

    def __init__(self, height: int, width: int) -> None:
        """A fresh board, all borders undecided. Refused: SIZES (1 to 32 a side)."""
        found = calls()
        made = found.locked.sendai_board_make(size(height), size(width))
        accepted(made.code)
        self._keep(found, made.board)

    def _keep(self, found: Calls, record: _records.Board) -> None:
        self._hold(found, record, record)

    def _making(self) -> tuple:
        return self.height, self.width

    def ask(self) -> Fault | None:
        """The shape check, for translates: None where it is clear."""
        told = self._calls.locked.sendai_board_ask_in_place(self._at, *lent(self._list))
        accepted(told.code)
        return Fault("shape", self._list[:told.length].tolist()) if told.fault else None

    def units(self) -> list[list[int]]:
        """The units, numbered by first cell, each with its cells: cells joined by Connected borders."""
        return self._groups(False)

    def potential_units(self) -> list[list[int]]:
        """The potential units: cells joined by borders that are no Wall.

        >>> board = Board(1, 3)
        >>> board.stroke([(0, False), (1, True)])
        >>> board.units(), board.potential_units()
        ([[0, 1], [2]], [[0, 1], [2]])
        """
        return self._groups(True)

    def path(self, start: int, target: int) -> list[int]:
        """The Connected borders that lead from target back to start, as entries. Refused: MISSING, NOT_JOINED."""
        return self._listed("sendai_path", size(start), size(target))

    def unit_boundary(self, unit: int) -> list[int]:
        """A unit's Connected borders and its Walls, as entries. Refused: MISSING."""
        return self._listed("sendai_unit_boundary", size(unit))

    def potential_unit_boundary(self, unit: int) -> list[int]:
        """A potential unit's Walls to other potential units, as entries. Refused: MISSING."""
        return self._listed("sendai_potential_unit_boundary", size(unit))

    def _listed(self, name: str, *numbers: int) -> list[int]:
        told = getattr(self._calls.locked, name)(self._record, *numbers, *lent(self._list))
        accepted(told.code)
        return self._list[:told.length].tolist()

    def _groups(self, is_potential: bool) -> list[list[int]]:
        told = self._calls.locked.sendai_groups(self._record, is_potential, *lent(self._list))
        accepted(told.code)
        starts = told.info.starts[:told.info.count] + [self.cells]
        return [self._list[start:end].tolist() for start, end in zip(starts, starts[1:])]

    def __repr__(self) -> str:
        return "<Board %d by %d, decided %r>" % (self.height, self.width, self.ledger())
