"""What the tests share: cases that are known, random ones, and a command that is run."""
import contextlib
import io
import os
import sys
import tempfile
import unittest
import unittest.mock

import case
from cases.model import ASK, CONNECT, NO_CLUE, UNDO, WALL, Case, border_count
from checker import TOP, sendai

PROGRAM = os.path.join(TOP, "target", "bin", "sendai")
ARCHIVE = os.path.join(TOP, "target", "staticlib", "libexports.a")

# The paper's file: 1 by 3, no given wall, no clue; Wall on border 0, Connected on border 1, ask, undo.
PAPER = bytes.fromhex("0100120103000000 01FFFF0004 020000 010001 03 00".replace(" ", ""))
PAPER_CASE = Case(1, 3, [], [NO_CLUE], [(WALL, 0), (CONNECT, 1), (ASK, None), (UNDO, None)])
PAPER_LINES = ["decided", "decided", "shape: 1 2", "undone"]
PAPER_DRAWING = """
# the paper's example
+---+---+---+
|   x   o   |
+---+---+---+
ask
undo
"""

ROOMS = """
+---+---+---+
| 2     | 1 |
+---+   +---+
|   |   o   |
+---+---+---+
"""


# 2 by 3: two units of three cells, each the other by half a turn.
TURNED = """
+---+---+---+
| 2 o   x   |
+ o + x + o +
|   x   o   |
+---+---+---+
"""
TURNED_DRAWN = """\
+---+---+---+
| a o a x b |
+ o + x + o +
| a x b o b |
+---+---+---+
a: image 2 is b
b: image 2 is a
image 2: a half turn
"""


def random_case(rng):
    h, w = rng.randint(1, 32), rng.randint(1, 32)
    made = Case(h, w)
    n = border_count(made)
    made.walls = sorted(rng.sample(range(n), rng.randint(0, n)))
    made.clues = [rng.choice([NO_CLUE, rng.randint(0, 65535)]) for _ in range(rng.randint(0, 40))]
    for _ in range(rng.randint(0, 60)):
        kind = rng.choice([UNDO, CONNECT, WALL, ASK])
        made.calls.append((kind, rng.randint(0, 65535) if kind in (CONNECT, WALL) else None))
    return made


class Terminal(io.StringIO):
    def isatty(self):
        return True


def run(*words, given=b"", terminal=False):
    """The exit status of a command, and what it prints on standard output and standard error; `given` is its standard input."""
    out, said = io.TextIOWrapper(io.BytesIO(), encoding="utf-8"), Terminal() if terminal else io.StringIO()
    stdin = io.TextIOWrapper(io.BytesIO(given))
    with contextlib.redirect_stdout(out), contextlib.redirect_stderr(said), unittest.mock.patch.object(sys, "stdin", stdin):
        try:
            status = case.main(words)
        except SystemExit as e:
            status = e.code
    out.flush()
    return status, out.buffer.getvalue().decode("utf-8", "surrogateescape"), said.getvalue()


class InFolder(unittest.TestCase):
    """A test with a folder of its own."""

    def setUp(self):
        folder = tempfile.TemporaryDirectory()
        self.addCleanup(folder.cleanup)
        self.folder = folder.name
        self.path = self.file("sendai.bin")

    def file(self, name, content=None):
        """The path of a file in the folder, with this content where there is one."""
        path = os.path.join(self.folder, name)
        if content is not None:
            with open(path, "wb") as f:
                f.write(content if isinstance(content, bytes) else content.encode("utf-8"))
        return path


def at_hand():
    """Whether the archive is there, and a shared library of it or a compiler to link one."""
    try:
        sendai.load()
    except sendai.NoLibrary:
        return False
    return os.path.exists(ARCHIVE)


class WithCalls(InFolder):
    """A command on the checker's own calls."""

    @classmethod
    def setUpClass(cls):
        if not at_hand():
            reason = "no %s (run `bindings/prove archive`), or no C compiler: `answers` and `load` are not tried" % ARCHIVE
            print(reason, file=sys.stderr)
            raise unittest.SkipTest(reason)
