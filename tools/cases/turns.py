"""What the program answered, call by call, and the borders that stand after each call."""
import re

from .model import ASK, CONNECT, NAMES, UNDO, WALL, Mistake, border_count, counted, refusal

DECIDED, UNDONE, CLEAR, FAULT, REFUSED = range(5)
LINE = re.compile(r"(decided)|(undone)|(clear)|(?:shape|room (\d{1,4})):((?: \d{1,4})*)|refused (\d{1,2})", re.ASCII)
FITTING = {CONNECT: (DECIDED, REFUSED), WALL: (DECIDED, REFUSED), UNDO: (UNDONE, REFUSED), ASK: (CLEAR, FAULT, REFUSED)}


class Turn:
    """A call, its number from 1, its line, and the borders that its fault lists, each with 1 for Wall and 0 for Connected.

    `standing` has the borders that stand behind the call; it changes with the next turn. `room` is None for a fault of shape. `touched` is
    the border that the call decides, takes back, or names.
    """

    def __init__(self, number, call, line, standing):
        self.number, self.call, self.line, self.standing = number, call, line, standing
        self.kind, self.room, self.listed, self.touched = None, None, {}, call[1]
        found = LINE.fullmatch(line) if line is not None else None
        if line is not None and not found:
            raise Mistake("%r is no line that the program prints" % shortened(line), number)
        if found:
            self.read(found)

    def read(self, found):
        decided, undone, clear, room, entries, refused = found.groups()
        self.kind = DECIDED if decided else UNDONE if undone else CLEAR if clear else REFUSED if refused else FAULT
        self.room = int(room) if room else None
        self.listed = {int(e) // 2: int(e) % 2 for e in (entries or "").split()}
        if self.kind not in FITTING[self.call[0]]:
            raise Mistake("%r is no answer to %s" % (shortened(self.line), NAMES[self.call[0]]), self.number)

    def check(self, case):
        """Refuses a fault that is none of this case."""
        if self.room is not None and self.room >= len(case.clues):
            raise Mistake("there is no room %d" % self.room, self.number)
        for border, value in self.listed.items():
            if border >= border_count(case) or self.standing.get(border) != value:
                raise Mistake("entry %d does not stand on the board" % (2 * border + value), self.number)


def shortened(line):
    return line if len(line) <= 40 else line[:37] + "..."


def turns(case, lines):
    """The calls with their lines; without lines, decides and undos count as accepted where they can be."""
    if lines is not None and len(lines) > len(case.calls):
        raise Mistake("there is a line for %s alone" % counted(len(case.calls), "call"), len(case.calls) + 1)
    standing, ledger, last = dict.fromkeys(case.walls, 1), [], border_count(case)
    for i, call in enumerate(case.calls):
        kind, border = call
        turn = Turn(i + 1, call, lines[i] if lines is not None and i < len(lines) else None, standing)
        accepted = lines is None or turn.kind in (DECIDED, UNDONE)
        if kind in (CONNECT, WALL) and accepted and border < last and border not in standing:
            ledger.append(border)
            standing[border] = int(kind == WALL)
        elif kind == UNDO and ledger and accepted:
            turn.touched = ledger.pop()
            standing.pop(turn.touched)
        turn.check(case)
        yield turn


def check_lines(case, lines):
    """Refuses lines that the program can't have printed for a case."""
    number = refusal(case)
    if number and lines != ["refused %d" % number]:
        raise Mistake("the puzzle is refused %d, and that is the only line" % number, 1)
    if number:
        return
    for _ in turns(case, lines):
        pass
    if len(lines) < len(case.calls):
        raise Mistake("%s for %s" % (counted(len(lines), "line"), counted(len(case.calls), "call")))


class Choice:
    """What is shown: all turns, or those in some spans of numbers, or those with a fault; and whether each unit's partner is, too."""

    def __init__(self, spans=None, faults=False, partners=False):
        self.spans, self.faults, self.partners = spans, faults, partners

    def takes(self, turn):
        if self.faults and turn.kind != FAULT:
            return False
        return self.spans is None or any(first <= turn.number <= last for first, last in self.spans)

    def check(self, case, lines):
        """Refuses a choice that can't take anything."""
        if lines is None and (self.faults or self.partners):
            raise Mistake("--%s needs the answers: --program, --answers or --images" % ("faults" if self.faults else "partners"))
        for first, _ in self.spans or ():
            if first > len(case.calls):
                raise Mistake("there is no step {}: the case has {:,}".format(first, len(case.calls)))
