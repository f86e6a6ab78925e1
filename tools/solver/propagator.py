"""The checker as a propagator of clingo: what clingo assigns is decided on a puzzle, and each fault becomes a nogood.

Each border has an atom wall(B): true for Wall, false for Connected. What clingo hands over in one call is one stroke, and an ask follows.
A fault's list is a set of borders that can't all hold, so the nogood of its literals holds for every answer, and no answer is lost.
"""
from checker import sendai


class Propagator:
    """The calls of one search with one thread."""

    def __init__(self, puzzle, trace, asked):
        """`asked` is called with this propagator after each ask."""
        self.puzzle, self.trace, self.asked = puzzle, trace, asked
        self.asks = self.faults = 0
        self.literals = [0] * (2 * puzzle.borders)  # by entry
        self.entries = {}  # of each literal the borders with it, for clingo may take several atoms for one
        self.fixed = set(puzzle.given)  # borders that are decided before clingo hands any over
        self.levels = []  # of each level that has strokes: the level, and how many

    # What clingo calls.

    def init(self, init):
        for atom in init.symbolic_atoms.by_signature("wall", 1):
            border, literal = atom.symbol.arguments[0].number, init.solver_literal(atom.literal)
            for wall, signed in ((True, literal), (False, -literal)):
                self.literals[2 * border + wall] = signed
                self.entries.setdefault(signed, []).append((border, wall))
                init.add_watch(signed)
        # what holds from the start may or may not be handed over later
        self._draw(0, [literal for literal in self.entries if init.assignment.is_true(literal)])
        self.fixed = {border for border, state in enumerate(self.puzzle.states()) if state}

    def propagate(self, control, changes):
        self._draw(control.assignment.decision_level, changes)
        self._ask(control)

    def undo(self, _thread, assignment, _changes):
        while self.levels and self.levels[-1][0] >= assignment.decision_level:
            for _ in range(self.levels.pop()[1]):
                self.puzzle.undo()
                self.trace.undo()

    def check(self, control):
        """All atoms have a value, so all borders are decided: a clear ask says that the board is right."""
        if self.puzzle.undecided:
            raise RuntimeError("clingo has values for all borders, but %d are undecided" % self.puzzle.undecided)
        self._ask(control)

    # What becomes of it. (clingo would call a method `decide` to choose a literal.)

    def _draw(self, level, changes):
        """Decides the borders of the literals in one stroke."""
        stroke = [decision for literal in changes for decision in self.entries[literal] if decision[0] not in self.fixed]
        if not stroke:
            return
        self.puzzle.stroke(stroke)
        self.trace.stroke(stroke)
        if not self.levels or self.levels[-1][0] < level:
            self.levels.append([level, 0])
        self.levels[-1][1] += 1

    def _ask(self, control):
        fault = self.puzzle.ask()
        self.asks += 1
        self.trace.ask(fault)
        if fault is not None:
            self.faults += 1
            # all of these hold, so clingo has a conflict now, and there is nothing more to do in this call
            control.add_nogood([self.literals[entry] for entry in sendai.hand_over(fault.list)])
        self.asked(self)
