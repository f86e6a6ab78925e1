"""The case file that the program reads: docs/SPEC.md, 5.1 to 5.3."""
from .model import ASK, CONNECT, WALL, Case, Mistake, Unsound, counted


def word(n):
    if not 0 <= n <= 65535:
        raise Mistake("%d does not fit 16 bits" % n)
    return bytes([n >> 8, n & 255])


def encode(case):
    if not (0 <= case.height <= 255 and 0 <= case.width <= 255):
        raise Mistake("height and width have a byte each")
    rest = bytes([case.height, case.width])
    for numbers in (case.walls, case.clues):
        rest += word(len(numbers)) + b"".join(word(n) for n in numbers)
    rest += word(len(case.calls))
    for kind, border in case.calls:
        rest += bytes([kind]) + (word(border) if kind in (CONNECT, WALL) else b"")
    if len(rest) > 60000:
        raise Mistake("%s are more than 60,000" % counted(len(rest), "byte"))
    return b"\x01" + word(len(rest)) + rest


class Reader:
    def __init__(self, data):
        self.data, self.at = data, 0

    def byte(self, what):
        if self.at >= len(self.data):
            raise Unsound("the file ends in %s" % what)
        self.at += 1
        return self.data[self.at - 1]

    def word(self, what):
        high = self.byte(what)
        return high << 8 | self.byte(what)


def decode(data):
    r = Reader(data)
    version = r.byte("the version")
    if version != 1:
        raise Unsound("version %d" % version)
    length = r.word("the length")
    if length > 60000:
        raise Unsound("length {:,} is above 60,000".format(length))
    if length != len(data) - 3:
        raise Unsound("length {:,}, but {} behind it".format(length, counted(len(data) - 3, "byte")))
    height, width = r.byte("the height"), r.byte("the width")
    walls = [r.word("the given walls") for _ in range(r.word("the count of given walls"))]
    clues = [r.word("the clues") for _ in range(r.word("the count of clues"))]
    calls = []
    for _ in range(r.word("the count of calls")):
        kind = r.byte("the calls")
        if kind > ASK:
            raise Unsound("a call of kind %d" % kind)
        calls.append((kind, r.word("a border") if kind in (CONNECT, WALL) else None))
    if r.at != len(data):
        raise Unsound("%s behind the last call" % counted(len(data) - r.at, "byte"))
    return Case(height, width, walls, clues, calls)
