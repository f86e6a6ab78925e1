"""Why a call is refused: a number for each question that can be answered no."""
from __future__ import annotations

import enum


class Refusal(enum.IntEnum):
    """The question that was answered no. They are put in this order, but 11 first, 13 after 1, 12 between 2 and 6, 14 between 3 and 4; each
    is put to a whole stroke before the next."""

    SIZES = 1, "a size is not within its limits"
    RECORD = 2, "the record does not hold together"
    MISSING = 3, "a border, cell, vertex or group that is named does not exist"
    DECIDED = 4, "a border is decided already"
    EMPTY_LEDGER = 5, "there is nothing to undo"
    SHORT_BUFFER = 6, "a buffer is too short, or a file too long"
    GIVEN_ORDER = 7, "the given walls don't rise"
    CLUE_COUNT = 8, "there are not as many clues as rooms"
    CLUE_VALUE = 9, "a clue is above its room's cells"
    NOT_JOINED = 10, "no Connected borders join the cells"
    FILE = 11, "the file is not sound"
    MANY_UNDECIDED = 12, "more than 24 borders are undecided"
    ZERO_SEED = 13, "the seed is 0"
    TWICE = 14, "a border stands twice in the stroke"

    words: str

    def __new__(cls, number: int, words: str) -> Refusal:
        member = int.__new__(cls, number)
        member._value_ = number
        member.words = words
        return member


class Refused(Exception):
    """A call was refused. What it was called on is as it was."""

    def __init__(self, number: int, detail: str = "") -> None:
        super().__init__(number, detail)
        self.refusal, self.detail = Refusal(number), detail

    @property
    def number(self) -> int:
        return int(self.refusal)

    @property
    def name(self) -> str:
        return self.refusal.name

    def __str__(self) -> str:
        return "refused %d: %s%s" % (self.refusal, self.refusal.words, self.detail and " (%s)" % self.detail)


def accepted(code: int, detail: str = "") -> None:
    """Raises what a call's code says; 0 is accepted."""
    if code:
        raise Refused(code, detail)
