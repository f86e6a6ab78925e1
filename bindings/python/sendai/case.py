"""Case files: a puzzle and calls on it, and one from a seed."""
from __future__ import annotations

from array import array

from ._library import calls
from ._numbers import MAX_FILE, MAX_LINE, lent, natural, size, word
from .puzzle import Puzzle
from .refusal import accepted

AT_ONCE = 16  # so many calls are run at a time: their lines fit a small buffer


class Case:
    """A case file: its puzzle, and the calls on it that are left to do.

    1 by 3, no given wall, no clue; a Wall, Connected, ask, undo:

    >>> case = Case(bytes.fromhex("010012 0103 0000 0001FFFF 0004 020000 010001 03 00"))
    >>> case.run()
    ['decided', 'decided', 'shape: 1 2', 'undone']
    >>> case.puzzle()
    <Puzzle 1 by 3, given [], clues [65535], decided [(0, True)]>
    """

    __slots__ = ("_calls", "_file", "_puzzle", "_at", "_left")

    def __init__(self, file: bytes) -> None:
        """The fresh puzzle of a file's bytes, of translates. Refused: FILE, or as a Puzzle is refused that is made of what the file says."""
        self._calls = calls()
        self._file = array("B", bytes(file))
        told = self._calls.locked.sendai_case_open(*lent(self._file))
        accepted(told.code)
        self._puzzle, self._at, self._left = told.puzzle, told.at, told.count

    @classmethod
    def open(cls, path: str) -> Case:
        """The case of a file of this name. OSError where it can't be read; refused as its bytes are."""
        with open(path, "rb") as file:
            # a byte more than any sound file has, so that an endless one ends here, too
            return cls(file.read(MAX_FILE + 1))

    @property
    def left(self) -> int:
        """How many calls are left."""
        return self._left

    def puzzle(self) -> Puzzle:
        """A copy of the puzzle as the calls done so far left it."""
        puzzle = Puzzle.__new__(Puzzle)
        puzzle._keep(self._calls, type(self._puzzle).from_buffer_copy(self._puzzle))
        return puzzle

    def run(self, count: int | None = None) -> list[str]:
        """Does the next `count` calls, or all that are left, and returns the lines that they print."""
        wanted = self._left if count is None else natural(count, self._left)
        out = array("B", bytes(AT_ONCE * MAX_LINE))
        lines = []
        while wanted:
            some = min(AT_ONCE, wanted)
            told = self._calls.locked.sendai_case_run(*lent(self._file), self._at, some, self._puzzle, *lent(out))
            accepted(told.code)
            self._puzzle, self._at, self._left = told.puzzle, told.at, self._left - told.done
            lines += out[:told.length].tobytes().decode("ascii").splitlines()
            wanted -= some
        return lines

    def __repr__(self) -> str:
        return "<Case of %r, %d calls left>" % (self.puzzle(), self.left)


def generate_case(seed: int, height: int, width: int, count: int) -> bytes:
    """The case file that a seed of 32 bits makes, the same each time: no given walls, one room without a clue, and `count` calls, none of
    which names a border that does not exist. Refused: SIZES, ZERO_SEED, SHORT_BUFFER (a file has at most MAX_FILE bytes).

    >>> generate_case(20, 2, 3, 4)[13:].hex(" ")     # border 3 Connected, undo, border 5 a Wall, ask
    '01 00 03 00 02 00 05 03'
    """
    buffer = array("B", bytes(MAX_FILE))
    told = calls().locked.sendai_case_generate(word(seed), size(height), size(width), size(count), *lent(buffer))
    accepted(told.code, "%d by %d, %d calls" % (height, width, count))
    return buffer[:told.length].tobytes()
