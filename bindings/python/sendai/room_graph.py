"""Room graphs and unions."""
from __future__ import annotations

from array import array
from typing import Iterable

from . import _records
from ._library import calls
from ._numbers import MAX_ENTRY, entry, lent, natural, shorts, size, truth, word
from .lists import STATES, State, again, decisions
from .refusal import accepted


class RoomGraph:
    """A room graph: vertices, edges that are undecided, Connected or a Wall, and how many parts the Connected ones are to leave.

    >>> room = RoomGraph(3, [(0, 1), (1, 2)], 3)
    >>> room.ask()
    >>> room.stroke([(0, False), (1, False)])
    >>> room.ask()                       # too few parts: the Connected edges
    [0, 2]
    """

    __slots__ = ("_calls", "_record", "_list")

    def __init__(self, vertices: int, edges: Iterable[tuple[int, int]], count: int) -> None:
        """A fresh graph, whose edge i joins the two vertices of edges[i]; loops and repeats are allowed. Refused: SIZES (1,024 vertices,
        1,984 edges), MISSING."""
        found, pairs = calls(), list(edges)
        us, vs = (shorts(natural(pair[side], MAX_ENTRY) for pair in pairs) for side in (0, 1))
        self._calls = found
        self._put(found.locked.sendai_room_make(size(vertices), *lent(us), *lent(vs), word(count)))
        self._list = array("H", bytes(2 * self.edges))

    def _put(self, answer: _records.RoomAnswer) -> None:
        """A call's record in the place of the one that went in: after a refusal it is the same."""
        accepted(answer.code)
        self._record = answer.room

    def decide(self, edge: int, wall: bool) -> None:
        """Decides an edge as Wall (True) or Connected (False): a stroke of one. Refused: MISSING, DECIDED."""
        self._put(self._calls.locked.sendai_room_decide(self._record, size(edge), truth(wall)))

    def stroke(self, decided: Iterable[tuple[int, bool]]) -> None:
        """Decides several edges, each as Wall (True) or Connected (False), in one stroke: all or none. An empty stroke is accepted and not
        kept. Refused: MISSING, TWICE, DECIDED."""
        named = shorts(entry(edge, wall) for edge, wall in decided)
        self._put(self._calls.locked.sendai_room_stroke(self._record, *lent(named)))

    def undo(self) -> None:
        """Takes the last stroke back, all of it. Refused: EMPTY_LEDGER."""
        self._put(self._calls.locked.sendai_room_undo(self._record))

    def ask(self) -> list[int] | None:
        """The room count: None where it is clear, else edges that can't all hold, as entries. An empty list says that no states of the edges
        meet the count, as whenever it is above the vertices."""
        told = self._calls.locked.sendai_room_ask(self._record, *lent(self._list))
        accepted(told.code)
        return self._list[:told.length].tolist() if told.fault else None

    def check(self) -> None:
        """Refused where the record does not hold together; it does."""
        accepted(self._calls.locked.sendai_room_check(self._record))

    @property
    def vertices(self) -> int:
        return self._record.vertices

    @property
    def edges(self) -> int:
        """How many edges there are."""
        return self._record.edges

    @property
    def count(self) -> int:
        """How many parts are wanted."""
        return self._record.count

    def ends(self) -> list[tuple[int, int]]:
        """The edges' vertices."""
        return list(zip(self._record.us[:self.edges], self._record.vs[:self.edges]))

    def state(self, edge: int) -> State:
        """An edge's state. IndexError where it does not exist."""
        return STATES[self._bytes()[size(edge)]]

    def states(self) -> list[State]:
        """The states, by edge."""
        return [STATES[state] for state in self._bytes()]

    def ledger(self) -> list[tuple[int, bool]]:
        """The decided edges in order, each with whether it is a Wall."""
        return [decision for stroke in self.strokes() for decision in stroke]

    def strokes(self) -> list[list[tuple[int, bool]]]:
        """The ledger, stroke by stroke: so many undos empty it."""
        return decisions(self._record.book.ledger[:self._record.book.len], self._bytes())

    def _bytes(self) -> bytes:
        return bytes(self._record.book.states[:self.edges])

    def copy(self) -> RoomGraph:
        """Another one with the same edges decided; what is done to one does not show in the other."""
        return again(*self.__reduce__()[1])

    __copy__ = copy

    def __deepcopy__(self, _) -> RoomGraph:
        return self.copy()

    def __reduce__(self):
        return again, (RoomGraph, (self.vertices, self.ends(), self.count), self.strokes())

    def __eq__(self, other) -> bool:
        """Whether the same is decided, by the same strokes in the same order, on the same graph."""
        if not isinstance(other, RoomGraph):
            return NotImplemented
        return self.__reduce__() == other.__reduce__()

    __hash__ = None

    def __repr__(self) -> str:
        return "<RoomGraph of %d vertices, edges %r, count %d, decided %r>" % (self.vertices, self.ends(), self.count, self.ledger())


class Union:
    """A union of vertices into parts.

    >>> parts = Union(3)
    >>> parts.unite(0, 1), parts.unite(1, 0)
    (True, False)
    >>> parts.find(0), parts.parents()
    (1, [1, 1, 2])
    """

    __slots__ = ("_calls", "_record")

    def __init__(self, vertices: int) -> None:
        """Each vertex its own part. Refused: SIZES (at most 1,024)."""
        self._calls = calls()
        made = self._calls.locked.sendai_union_new(size(vertices))
        accepted(made.code)
        self._record = made.parts

    def find(self, x: int) -> int:
        """The root of a vertex's part; the chain to it is shortened. Refused: MISSING."""
        told = self._calls.locked.sendai_union_find(self._record, size(x))
        accepted(told.code)
        self._record = told.parts
        return told.root

    def unite(self, x: int, y: int) -> bool:
        """Makes the parts of x and y one, x's root under y's; whether they were two. Refused: MISSING."""
        told = self._calls.locked.sendai_union_unite(self._record, size(x), size(y))
        accepted(told.code)
        self._record = told.parts
        return told.united

    def parents(self) -> list[int]:
        """Each vertex's parent."""
        return self._record.parent[:self._record.n]

    def copy(self) -> Union:
        """Another one with the same parents; what is done to one does not show in the other."""
        other = Union.__new__(Union)
        other._calls, other._record = self._calls, _records.Union.from_buffer_copy(self._record)
        return other

    __copy__ = copy

    def __deepcopy__(self, _) -> Union:
        return self.copy()

    def __reduce__(self):
        raise TypeError("a Union is not pickled")

    def __eq__(self, other) -> bool:
        return self.parents() == other.parents() if isinstance(other, Union) else NotImplemented

    __hash__ = None

    def __repr__(self) -> str:
        return "<Union %r>" % self.parents()
