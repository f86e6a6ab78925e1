"""A puzzle's URL, as the Rust's serialize_problem writes it and pzpr reads it: sendai/WIDTH/HEIGHT/BORDERS AND CLUES.

The borders are in base 32, five to a character, the first one in its highest bit: those between cells side by side, row by row, and
then, from a character of their own, those between cells one above the other. A bit is 1 for a given wall. Then come the clues in the
order of the rooms: a hexadecimal digit, - and two digits, + and three, a dot for a clue without a number, and g to z for 1 to 20 rooms
without a clue.
"""
import re

from .model import ASK, LONGEST_SIDE, NO_CLUE, Case, Mistake, border_count, clue_too_large, counted, refusal, rooms
from .text import refusal_said

LIKELY = re.compile(r"[a-z]+://|[^\s?]*\?\w+/|sendai/\d")
START = re.compile(r"(?:[^\s?]*\?)?sendai/")
SITE = "https://pzprxs.vercel.app/p?"
DIGITS = "0123456789abcdefghijklmnopqrstuv"
HEX = "0123456789abcdef"
RUNS = "ghijklmnopqrstuvwxyz"
LONGER = {"-": 2, "+": 3}  # how many hexadecimal digits follow


class Reader:
    """A URL, and how far it is read; messages count its characters from 1."""

    def __init__(self, text):
        start = START.match(text)
        if not start:
            raise Mistake("there is no sendai/WIDTH/HEIGHT/.. in it")
        self.text, self.at = text, start.end()

    def mistake(self, words, back=0):
        return Mistake("character %d: %s" % (self.at + 1 - back, words))

    def taken(self, count, allowed, what):
        """The next characters, which are of the allowed ones."""
        for k in range(count):
            if self.at + k >= len(self.text):
                raise self.mistake("the URL ends within %s" % what, -k)
            if self.text[self.at + k] not in allowed:
                raise self.mistake("%r does not belong in %s" % (self.text[self.at + k], what), -k)
        self.at += count
        return self.text[self.at - count:self.at]

    def side(self, what, as_is):
        found = re.compile("[0-9]{1,3}(?=/)").match(self.text, self.at)
        if not found:
            raise self.mistake("the number of %s, with a / behind it, is missing" % what)
        number = int(found.group())
        if not 1 <= number <= (255 if as_is else LONGEST_SIDE):
            raise self.mistake("a board has 1 to %d %s, and here are %d" % (LONGEST_SIDE, what, number))
        self.at = found.end() + 1
        return number

    def bits(self, count):
        """So many bits, as the places of those that are 1."""
        digits = self.taken(-(-count // 5), DIGITS, "the borders")
        ones = [5 * k + i for k, digit in enumerate(digits) for i in range(5) if DIGITS.index(digit) & 16 >> i]
        if ones and ones[-1] >= count:
            raise self.mistake("%r has bits behind the last border" % digits[-1], 1)
        return ones

    def clue(self):
        """The next clue, or as many NO_CLUE as a run has."""
        first = self.taken(1, HEX + RUNS + "-+.", "the clues")
        if first in RUNS:
            return [NO_CLUE] * (RUNS.index(first) + 1)
        if first in LONGER:
            return [int(self.taken(LONGER[first], HEX, "a clue"), 16)]
        return [NO_CLUE if first == "." else int(first, 16)]


def parse(text, as_is=False):
    """The case of a URL, with an ask for its only call. With `as_is` it may be one that the program refuses."""
    reader = Reader(text)
    width = reader.side("columns", as_is)
    height = reader.side("rows", as_is)
    across = height * (width - 1)
    case = Case(height, width, calls=[(ASK, None)])
    case.walls = reader.bits(across) + [across + place for place in reader.bits(border_count(case) - across)]
    room = rooms(case)
    while len(case.clues) <= max(room):
        before, clues = reader.at, reader.clue()
        wrong = clue_too_large(room, len(case.clues), clues[0])
        if wrong and not as_is:
            raise reader.mistake(wrong, reader.at - before)
        case.clues += clues
        if len(case.clues) > max(room) + 1:
            raise reader.mistake("the clues go on behind those of %s" % counted(max(room) + 1, "room"), 1)
    if text[reader.at:].rstrip("/"):
        raise reader.mistake("there is something behind the clue of the last room")
    return case


def digits_of(ones, first, count):
    """Bits in base 32: those of `ones` from a place on."""
    digits = [0] * -(-count // 5)
    for one in ones:
        if first <= one < first + count:
            digits[(one - first) // 5] += 16 >> (one - first) % 5
    return "".join(DIGITS[digit] for digit in digits)


def clue_digits(clue):
    return "%x" % clue if clue < 16 else "-%02x" % clue if clue < 256 else "+%03x" % clue


def write(case):
    """The URL of a case's puzzle; its calls have no place in it."""
    if refusal(case):
        raise Mistake(refusal_said(case))
    across = case.height * (case.width - 1)
    out, run = digits_of(case.walls, 0, across) + digits_of(case.walls, across, border_count(case) - across), 0
    for clue in case.clues + [None]:
        if run and (clue != NO_CLUE or run == len(RUNS)):
            out, run = out + RUNS[run - 1], 0
        if clue == NO_CLUE:
            run += 1
        elif clue is not None:
            out += clue_digits(clue)
    return "%ssendai/%d/%d/%s" % (SITE, case.width, case.height, out)
