"""What lists say: borders with their states, as entries."""
from __future__ import annotations

import enum
from array import array
from typing import Iterable, NamedTuple

from ._library import calls
from ._numbers import lent, shorts
from .refusal import accepted


class State(enum.IntEnum):
    """A border's or an edge's state."""

    UNDECIDED = 0
    CONNECTED = 1
    WALL = 2


STATES = tuple(State)


class Fault(NamedTuple):
    """Borders that stand and can't all hold."""

    check: str | int
    """Which check found it: "shape", or the number of the room."""

    list: list[int]
    """The entries as the check lists them, repeats included: 2 * border + 1 for Wall, 2 * border for Connected."""

    @property
    def borders(self) -> list[tuple[int, bool]]:
        """The listed borders, each with whether it is listed as a Wall."""
        return entries(self.list)


def entries(listed: Iterable[int]) -> list[tuple[int, bool]]:
    """What a list says: each border, and whether it is listed as a Wall.

    >>> entries([7, 6])
    [(3, True), (3, False)]
    """
    return [(entry >> 1, entry & 1 == 1) for entry in shorts(listed)]


def hand_over(listed: Iterable[int]) -> list[int]:
    """The entries, rising, each once: what a clause learner reads. Any entries of 16 bits will do.

    >>> hand_over([2, 2, 1, 1, 1])
    [1, 2]
    """
    given = shorts(listed)
    buffer = array("H", bytes(2 * len(given)))
    told = calls().locked.sendai_hand_over(*lent(given), *lent(buffer))
    accepted(told.code)
    return buffer[:told.length].tolist()


def decisions(ledger: Iterable[int], states: bytes) -> list[list[tuple[int, bool]]]:
    """The strokes of a ledger: of each the borders, or edges, in order, each with whether it is a Wall. A name is twice the number, and one
    more where a stroke starts."""
    strokes: list[list[tuple[int, bool]]] = []
    for name in ledger:
        if name & 1:
            strokes.append([])
        strokes[-1].append((name >> 1, states[name >> 1] == State.WALL))
    return strokes


def again(kind, making: tuple, strokes: list) -> object:
    """What a making and strokes leave: how records are pickled, since a record itself might come back damaged."""
    made = kind(*making)
    for stroke in strokes:
        made.stroke(stroke)
    return made
