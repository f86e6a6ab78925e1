"""Puts puzzles to clingo, which runs as a process of its own."""
import contextlib
import json
import os
import subprocess
import tempfile
import time

TOOLS = os.path.dirname(os.path.dirname(os.path.abspath(__file__)))
INSIDE = os.path.join(TOOLS, "solver", "inside.lp")
LATE = 5  # seconds that clingo gets to end a search


class NoSolver(Exception):
    """clingo is not at hand, or failed."""


class Bounds:
    """When a search stops early: at so many answers (0: never), seconds or asks; and where its calls are written to."""

    def __init__(self, limit=0, seconds=None, asks=None, trace=None):
        self.limit, self.seconds, self.asks, self.trace = limit, seconds, asks, trace

    def job(self):
        return {name: value for name, value in vars(self).items() if value is not None}


class Found:
    """What a search has found: the answers, each a byte a border (1 Connected, 2 Wall), rising; how often it asked, how many faults it got,
    and how long it took; and why it stopped before it knew all answers, or None."""

    def __init__(self):
        self.answers, self.asks, self.faults, self.seconds, self.stopped = [], 0, 0, 0.0, None

    def take(self, told, trace):
        """Takes a line in; whether it is the last one. An error of the trace's file is raised."""
        if "unwritten" in told:
            raise OSError(*told["unwritten"], trace)
        if "answer" in told:
            self.answers.append(bytes(map(int, told["answer"])))
            return False
        self.asks, self.faults = told["asks"], told["faults"]
        self.stopped = told.get("stopped")
        return "stopped" in told


class Solver:
    """A clingo that solves one puzzle after the other."""

    def __init__(self, command="clingo", library=None):
        self.said = tempfile.TemporaryFile()
        environment = {**os.environ, "PYTHONPATH": TOOLS, **({"SENDAI_LIBRARY": library} if library else {})}
        try:
            # in a session of its own, so that Ctrl-C reaches this process alone, which stops clingo in order
            self.process = subprocess.Popen([command, "--outf=3", INSIDE], stdin=subprocess.PIPE, stdout=subprocess.PIPE, stderr=self.said,
                                            env=environment, start_new_session=True, text=True)
        except OSError as e:
            self.said.close()
            raise NoSolver("no %s: %s (Debian's package gringo has it)" % (command, e.strerror)) from None

    def __enter__(self):
        return self

    def __exit__(self, *_):
        with contextlib.suppress(OSError):  # one that failed takes no more
            self.process.stdin.close()
        self.process.terminate()
        try:
            self.process.wait(LATE)
        except subprocess.TimeoutExpired:
            self.process.kill()
            self.process.wait()
        self.process.stdout.close()
        self.said.close()

    def solve(self, puzzle, bounds=Bounds(), progress=lambda found: None):
        """The answers of a puzzle that extend what is decided on it. `progress` is called now and then with what is found so far. Ctrl-C
        stops the search, and what was found until then is returned."""
        job = {"height": puzzle.height, "width": puzzle.width, "given": puzzle.given, "clues": puzzle.clues, "start": puzzle.ledger()}
        began, found, ended = time.monotonic(), Found(), False
        self.put(json.dumps({**job, **bounds.job()}))
        while not ended:
            try:
                ended = found.take(self.line(), bounds.trace)
                found.seconds = time.monotonic() - began
                progress(found)
            except KeyboardInterrupt:
                self.process.terminate()
        found.answers.sort()
        return found

    def put(self, line):
        try:
            self.process.stdin.write(line + "\n")
            self.process.stdin.flush()
        except OSError:
            self.fail()

    def line(self):
        line = self.process.stdout.readline()
        if not line:
            self.fail()
        return json.loads(line)

    def fail(self):
        """Says what clingo said last."""
        self.process.wait()
        self.said.seek(0)
        lines = self.said.read().decode(errors="replace").split("\n")
        said = [line.strip() for line in lines if line.strip()] or ["ended with status %d" % self.process.returncode]
        raise NoSolver("clingo failed: %s" % said[-1])
