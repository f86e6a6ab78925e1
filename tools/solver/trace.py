"""The calls of a search as bytes, so that they can be made again elsewhere.

A trace begins with the eight bytes SENDAIT1. Numbers of 16 bits have the higher byte first, as in a case file, whose parts follow: the
height and the width, a byte each; the given walls and the clues, each list with its count in front. Then come the calls, each a byte and
what belongs to it, up to the end of the file:

    0  undo
    1  stroke: how many entries, and the entries
    2  ask, clear
    3  ask, a fault of shape: how many entries its list has
    4  ask, a fault of a room: the room, and how many entries its list has

A trace that was not broken off ends with the undos that lead back to the fresh puzzle.
"""
import struct

MAGIC = b"SENDAIT1"
UNDO, STROKE, CLEAR, SHAPE, ROOM = range(5)


def words(numbers):
    return struct.pack(">%dH" % len(numbers), *numbers)


class Trace:
    """A file that calls are written to. `failure` has the error where it can't be: one that is raised in a propagator clingo would not tell."""

    def __init__(self, path, puzzle):
        self.file, self.failure, self.standing = open(path, "wb"), None, 0
        self.write(MAGIC + bytes([puzzle.height, puzzle.width]))
        for numbers in (puzzle.given, puzzle.clues):
            self.write(words([len(numbers)] + numbers))

    def write(self, data):
        self.attempt(lambda: self.file.write(data))

    def attempt(self, act):
        try:
            act()
        except OSError as e:
            self.failure = self.failure or e

    def stroke(self, decided):
        entries = [2 * border + wall for border, wall in decided]
        self.write(bytes([STROKE]) + words([len(entries)] + entries))
        self.standing += 1

    def undo(self):
        self.write(bytes([UNDO]))
        self.standing -= 1

    def ask(self, fault):
        if fault is None:
            self.write(bytes([CLEAR]))
        elif fault.check == "shape":
            self.write(bytes([SHAPE]) + words([len(fault.list)]))
        else:
            self.write(bytes([ROOM]) + words([fault.check, len(fault.list)]))

    def close(self):
        """Takes back what stands."""
        self.write(bytes([UNDO]) * self.standing)
        self.attempt(self.file.close)


class NoTrace:
    """Where no trace is wanted."""

    failure = None

    def stroke(self, decided):
        pass

    undo = close = lambda self: None
    ask = stroke
