"""What the command takes, and what it says of everything that it doesn't."""
import codecs
import os
import re
import signal
import subprocess
import sys
import unittest
import unittest.mock

import case
from cases.file import decode, encode
from cases.model import ASK, NO_CLUE, UNDO, WALL, Case
from cases.read import read_bytes, read_case

from .support import (PAPER, PAPER_CASE, PAPER_DRAWING, PAPER_LINES, PROGRAM, ROOMS, TOP, TURNED, TURNED_DRAWN, InFolder, WithCalls,
                      run)

PAPER_URL = "https://puzz.link/p?sendai/3/1/0g"
DRAWN = "+---+---+---+\n|   X   O   |\n+---+---+---+\n"


class Taken(InFolder):
    def test_make_and_show(self):
        drawing = self.file("drawing.txt", PAPER_DRAWING)
        self.assertEqual(run("make", drawing, self.path), (0, "", ""))
        self.assertEqual(read_bytes(self.path), PAPER)
        lines = self.file("lines.txt", "\n".join(PAPER_LINES) + "\n")
        shown = run("show", self.path, "--answers", lines)
        self.assertEqual(shown[0::2], (0, ""))
        self.assertIn(DRAWN, shown[1])
        for words, given in (((self.path, "--answers", "-"), "\n".join(PAPER_LINES).encode()),
                             ((self.path, "--answers", "-"), "\r\n".join(PAPER_LINES).encode("utf-8-sig")), (("-", "--answers", lines), PAPER),
                             ((drawing, "--answers", lines), b""), (("-", "--answers", lines), PAPER_DRAWING.encode())):
            self.assertEqual(run("show", *words, given=given), shown)

    def test_partners(self):
        drawing, lines = self.file("drawing.txt", TURNED), self.file("lines.txt", "decided\n" * 7 + "clear\n")  # as no program answers it
        status, out, said = run("show", drawing, "--answers", lines, "--partners")
        self.assertEqual((status, said), (0, ""))
        self.assertTrue(out.endswith("\n| a x b o b |\n+---+---+---+\na: no partner\nb: no partner\n"), out)
        self.assertNotIn("partner", run("show", drawing, "--answers", lines)[1])

    def test_forms_are_told_by_what_is_in_them(self):
        forms = [PAPER, PAPER_DRAWING.encode(), codecs.BOM_UTF8 + PAPER_DRAWING.encode(), PAPER_DRAWING.encode("utf-16"),
                 PAPER_DRAWING.replace("\n", "\r\n").encode("utf-16")]
        for form in forms:
            self.assertEqual(read_case(self.file("any", form)), PAPER_CASE)
        puzzle = Case(1, 3, [], [NO_CLUE], [(ASK, None)])
        for form in (PAPER_URL, PAPER_URL + "\r\n", "\n  " + PAPER_URL + "/\n"):
            self.assertEqual(read_case(self.file("any", form)), puzzle)
        self.assertEqual(read_case(PAPER_URL), puzzle)

    def test_a_path_before_a_url(self):
        os.makedirs(os.path.join(self.folder, "sendai", "3", "1"))
        self.file("sendai/3/1/0g", encode(PAPER_CASE))
        here = os.getcwd()
        self.addCleanup(os.chdir, here)
        os.chdir(self.folder)
        self.assertEqual(read_case("sendai/3/1/0g"), PAPER_CASE)

    def test_standard_input_and_output(self):
        command = [sys.executable, os.path.abspath(case.__file__)]
        made = subprocess.run(command + ["make", "-", "-"], input=PAPER_DRAWING.encode(), stdout=subprocess.PIPE)
        self.assertEqual((made.returncode, made.stdout), (0, PAPER))
        shown = subprocess.run(command + ["show", "-"], input=made.stdout, stdout=subprocess.PIPE)
        self.assertEqual((shown.returncode, shown.stdout.decode()), run("show", "-", given=PAPER)[:2])

    def test_urls(self):
        self.assertEqual(run("url", "-", given=PAPER), (0, "https://pzprxs.vercel.app/p?sendai/3/1/0g\n", ""))
        self.assertEqual(run("make", PAPER_URL, self.path), (0, "", ""))
        self.assertEqual(decode(read_bytes(self.path)), Case(1, 3, [], [NO_CLUE], [(ASK, None)]))

    def test_as_is(self):
        drawing = self.file("drawing.txt", ROOMS.replace("2", "9"))
        self.assertEqual(run("make", drawing, self.path)[0], 2)
        self.assertFalse(os.path.exists(self.path))
        self.assertEqual(run("make", "--as-is", drawing, self.path), (0, "", ""))
        self.assertIn("the puzzle is refused 9: a clue is above its room's cells\n", run("show", self.path)[1])
        large = self.file("large", ROOMS + "clue 65535 1\n")
        self.assertEqual(run("make", "--as-is", large, self.path)[::2], (2, "case.py: %s: 65536 does not fit 16 bits\n" % large))
        self.assertEqual(run("url", self.path), (2, "", "case.py: %s: the puzzle is refused 9: a clue is above its room's cells\n" % self.path))

    def test_an_option_between_arguments(self):
        drawing = self.file("drawing.txt", PAPER_DRAWING)
        for words in ((drawing, "--as-is", self.path), (drawing, self.path, "--as-is"), ("--as-is", "--", drawing, self.path)):
            self.assertEqual(run("make", *words), (0, "", ""), words)
            self.assertEqual(read_bytes(self.path), PAPER)
            os.remove(self.path)
        none = self.file("none")
        self.assertEqual(run("load", "5", "6", "6", "3", "--library", none, self.path), (2, "", "case.py: no library is at %s\n" % none))

    def test_help(self):
        for words in ((), ("make",), ("show",), ("answers",), ("load",), ("url",), ("images",)):
            status, out, said = run(*words, "--help")
            self.assertEqual((status, said), (0, ""))
            named = re.findall(r"^  ((?:-h, )?--?[a-z-]+|[A-Z|]+)(.*(?:\n {10,}.*)*)", out, re.M)
            self.assertGreater(len(named), 0)
            for name, words_said in named:
                self.assertRegex(words_said, r"[a-z]{2}", name)


# Words of a command, and what it says of them; FOLDER is the test's own, DRAWING a sound drawing in it.
WRONG = [
    ("", "the following arguments are required: COMMAND (`case.py --help` says more)"),
    ("make", "make: the following arguments are required: DRAWING|URL (`case.py make --help` says more)"),
    ("shew", None),
    ("show --sgv x", "show: unrecognized arguments: --sgv .*"),
    ("answers --cap x", "answers: argument --cap: 'x' is no natural number .*"),
    ("answers --cap -1", "answers: argument --cap: .*"),
    ("make FOLDER/none", "FOLDER/none: No such file or directory"),
    ("make FOLDER", "FOLDER: Is a directory"),
    ("show FOLDER/none", "FOLDER/none: No such file or directory"),
    ("show FOLDER/latin", "FOLDER/latin: byte 3 is no text in UTF-8"),
    ("show FOLDER/odd", "FOLDER/odd: byte 4 is no text in UTF-16"),
    ("show FOLDER/empty", "FOLDER/empty: there is nothing in it"),
    ("show FOLDER/cut", "FOLDER/cut: unsound: length 18, but 17 bytes behind it"),
    ("show FOLDER/version", "FOLDER/version: unsound: version 2"),
    ("show -", "standard input: there is nothing in it"),
    ("show - --answers -", "standard input can't be both the case and its answers"),
    ("make FOLDER/clue", "FOLDER/clue: line 2, column 3: '²' is no clue: a number, or blank"),
    ("make FOLDER/large", "FOLDER/large: line 2, column 3: clue 9 is above the 1 cell of room 0 (the cell in row 1, column 1)"),
    ("make DRAWING FOLDER", "FOLDER: Is a directory"),
    ("make DRAWING FOLDER/none/case", "FOLDER/none/case: No such file or directory"),
    ("show DRAWING --svg FOLDER/none/svg", "FOLDER/none/svg: No such file or directory"),
    ("show DRAWING --answers FOLDER/none", "FOLDER/none: No such file or directory"),
    ("show DRAWING --answers FOLDER/latin", "FOLDER/latin: byte 3 is no text in UTF-8"),
    ("show DRAWING --answers FOLDER/lines", "FOLDER/lines: line 3: 'shape: 1 two' is no line that the program prints"),
    ("show DRAWING --answers FOLDER/few", "FOLDER/few: 1 line for 4 calls"),
    ("show /dev/zero", "/dev/zero: there are more than 16,777,216 bytes in it"),
    ("make FOLDER/refused", "FOLDER/refused: the puzzle is refused 8: there are not as many clues as rooms"),
    ("show DRAWING --answers FOLDER/lines --program x", "show: argument --program: not allowed with argument --answers .*"),
    ("show DRAWING --images --program x", "show: argument --program: not allowed with argument --images .*"),
    ("show DRAWING --images --answers x", "show: argument --answers: not allowed with argument --images .*"),
    ("show DRAWING --images --library FOLDER/none", "no library is at FOLDER/none"),
    ("answers DRAWING --images --library FOLDER/none", "no library is at FOLDER/none"),
    ("images FOLDER", "FOLDER: Is a directory"),
    ("show DRAWING --program FOLDER/none", "FOLDER/none: No such file or directory"),
    ("show DRAWING --program FOLDER", "FOLDER: Permission denied"),
    ("show DRAWING --program DRAWING", "DRAWING: (Permission denied|Exec format error)"),
    ("show DRAWING --program FOLDER/fails", "FOLDER/fails: the program ended with status 3: no way"),
    ("show DRAWING --program FOLDER/killed", "FOLDER/killed: the program was ended by signal 9"),
    ("show DRAWING --program FOLDER/noise", "FOLDER/noise: line 1: 'hello' is no line that the program prints"),
    ("show DRAWING --program FOLDER/bytes", "FOLDER/bytes: byte 0 is no text in UTF-8"),
    ("show DRAWING --program FOLDER/silent", "FOLDER/silent: 0 lines for 4 calls"),
    ("make sendai/40/40/0", "the URL: character 8: a board has 1 to 32 columns, and here are 40"),
    ("make https://puzz.link/p?heyawake/3/1/0g", "the URL: there is no sendai/WIDTH/HEIGHT/.. in it"),
    ("make sendai/case.bin", "sendai/case.bin: No such file or directory"),
    ("make https://puzz.link/p?sendai/3/1/w", "the URL: character 32: 'w' does not belong in the borders"),
    ("load 1 1 2 ² FOLDER/load", "load: argument COUNT: '²' is no natural number .*"),
    ("load 1 1 2 2 FOLDER/load --library FOLDER/none", "no library is at FOLDER/none"),
    ("load 1 1 2 2 FOLDER/load --library DRAWING", "DRAWING: (invalid ELF header|file too short)"),
    ("answers FOLDER/latin", "FOLDER/latin: byte 3 is no text in UTF-8"),
    ("url FOLDER/none", "FOLDER/none: No such file or directory"),
]


class Refused(InFolder):
    def setUp(self):
        super().setUp()
        self.drawing = self.file("drawing.txt", PAPER_DRAWING)
        for name, content in (("latin", "+--é".encode("latin-1")), ("odd", "+-".encode("utf-16")[:-1]), ("empty", b""), ("cut", PAPER[:-1]),
                              ("version", b"\x02" + PAPER[1:]), ("clue", "+---+\n| ² |\n+---+\n"), ("large", "+---+\n| 9 |\n+---+\n"),
                              ("lines", "decided\ndecided\nshape: 1 two\nundone\n"), ("few", "decided\n"), ("refused", encode(Case(1, 2)))):
            self.file(name, content)
        for name, content in (("fails", "echo no way >&2; exit 3"), ("killed", "kill -9 $$"), ("noise", "yes hello | head -4"), ("silent", ":"),
                              ("bytes", "printf '\\377'")):
            os.chmod(self.file(name, "#!/bin/sh\n" + content + "\n"), 0o755)

    def test_one_line_and_status_2(self):
        for words, said in WRONG:
            words = [word.replace("FOLDER", self.folder).replace("DRAWING", self.drawing) for word in words.split()]
            status, _, line = run(*words)
            self.assertEqual(status, 2, words)
            self.assertRegex(line, r"^case\.py: [^\n]+\n\Z", words)
            if said is not None:
                if not re.search(r"\.\*|\(Perm|\(inv", said):
                    said = re.escape(said)
                said = said.replace("FOLDER", re.escape(self.folder)).replace("DRAWING|URL", r"DRAWING|URL")
                said = re.sub(r"DRAWING(?!\\\|)", re.escape(self.drawing), said)
                self.assertRegex(line, r"^case\.py: %s\n\Z" % said, words)
        self.assertFalse(os.path.exists(self.file("load")))

    def test_a_program_by_its_name(self):
        os.mkdir(self.file("bin"))
        os.chmod(self.file("bin/sendai-of-path", "#!/bin/sh\nprintf 'decided\\ndecided\\nclear\\nundone\\n'\n"), 0o755)
        self.assertEqual(run("show", self.drawing, "--program", "sendai-of-path")[0], 2)
        with unittest.mock.patch.dict(os.environ, PATH=self.file("bin") + os.pathsep + os.environ["PATH"]):
            status, out, said = run("show", self.drawing, "--program", "sendai-of-path")
        self.assertEqual((status, said), (0, ""))
        self.assertIn("ask  ->  clear", out)

    def test_a_program_that_never_ends(self):
        program = self.file("endless", "#!/bin/sh\nexec yes decided\n")
        os.chmod(program, 0o755)
        with unittest.mock.patch("cases.program.MOST_LINES", 10 ** 6):
            ended = run("show", self.drawing, "--program", program)
        self.assertEqual(ended, (2, "", "case.py: %s: the program prints more than 1,000,000 bytes\n" % program))

    def test_a_refused_puzzle_by_status(self):
        program = self.file("refuses", "#!/bin/sh\necho refused 9\necho why >&2\nexit 1\n")
        os.chmod(program, 0o755)
        made = self.file("made", encode(Case(1, 1, [], [9], [(ASK, None)])))
        self.assertEqual(run("show", made, "--program", program)[0], 0)


class Ended(InFolder):
    """A command that is ended from outside."""

    def started(self, *words, **more):
        return subprocess.Popen([sys.executable, os.path.abspath(case.__file__), *words], stderr=subprocess.PIPE, stdin=subprocess.PIPE, **more)

    def test_a_closed_pipe(self):
        many = self.file("many", encode(Case(32, 32, [], [NO_CLUE], [(ASK, None)] * 2000)))
        with self.started("show", many, stdout=subprocess.PIPE) as process:
            self.assertEqual(process.stdout.readline(), b"32 by 32, 0 given walls, clues: -\n")
            process.stdout.close()
            self.assertEqual((process.stderr.read(), process.wait(20)), (b"", 128 + signal.SIGPIPE))

    @unittest.skipUnless(os.path.exists("/dev/full"), "no /dev/full")
    def test_a_full_device(self):
        for words in (("show", self.file("one", PAPER)), ("--help",), ("show", "--help")):
            with open("/dev/full", "wb") as full, self.started(*words, stdout=full) as process:
                self.assertEqual((process.stderr.read(), process.wait(20)), (b"case.py: standard output: No space left on device\n", 2), words)

    def test_closed_streams(self):
        one, command = self.file("one", PAPER), [sys.executable, os.path.abspath(case.__file__)]
        output = b"case.py: standard output: Bad file descriptor\n"
        for words, closed, status, said in ((["show", one], ">&-", 2, output), (["make", PAPER_URL, "-"], ">&-", 2, output),
                                            (["--help"], ">&-", 2, output), (["make", PAPER_URL, self.path], ">&-", 0, b""),
                                            (["show", "-"], "<&-", 2, b"case.py: standard input: there is nothing in it\n")):
            done = subprocess.run(["sh", "-c", '"$@" ' + closed, "sh"] + command + words, stdout=subprocess.PIPE, stderr=subprocess.PIPE)
            self.assertEqual((done.returncode, done.stderr), (status, said))

    def test_an_interrupt(self):
        many = self.file("many", encode(Case(32, 32, [], [NO_CLUE], [(ASK, None)] * 20000)))
        with self.started("show", many, stdout=subprocess.PIPE) as process:
            process.stdout.readline()
            process.send_signal(signal.SIGINT)
            process.stdout.read()
            self.assertEqual((process.stderr.read(), process.wait(20)), (b"", 128 + signal.SIGINT))


class Images(WithCalls):
    def test_a_right_board(self):
        status, out, said = run("show", self.file("drawing.txt", TURNED), "--images")
        self.assertEqual((status, said), (0, ""))
        self.assertTrue(out.startswith("2 by 3, of images, 0 given walls, clues: 2\n"), out)
        self.assertTrue(out.endswith("\n8  ask  ->  clear\n" + TURNED_DRAWN), out)

    def test_the_answer_of_the_readme(self):
        puzzle = os.path.join(TOP, "tools", "turned.txt")
        status, out, said = run("answers", puzzle, "--images")
        self.assertEqual((status, said), (0, ""))
        self.assertIn("".join("    " + line + "\n" for line in out.splitlines()), read_bytes(os.path.join(TOP, "README.md")).decode())
        self.assertIn("\nno answer\n", run("answers", puzzle)[1])

    def test_a_fault(self):
        drawing = self.file("drawing.txt", TURNED.replace("x   o", "x   x"))
        status, out, said = run("show", drawing, "--images", "--faults", "--why")
        self.assertEqual((status, said), (0, ""))
        self.assertIn("\n8  ask  ->  shape: 0 3 5 7 8 11\nunit of 3 cells at row 1, column 1 has no partner left: "
                      "a border is in the way in the one place for one\n+---+---+---+\n| 2 O   X   |\n", out)
        page = self.file("page.html")
        self.assertEqual(run("show", drawing, "--images", "--html", page), (0, "", ""))
        self.assertNotIn(b"No reason is found", read_bytes(page))

    def test_refusals(self):
        made = self.file("made", encode(Case(1, 2, [], [NO_CLUE], [(UNDO, None), (WALL, 0), (WALL, 0), (WALL, 1), (ASK, None)])))
        lines = [line.split("  ->  ")[1] for line in run("show", made, "--images")[1].split("\n") if "->" in line]
        self.assertEqual(lines, ["refused 5", "decided", "refused 4", "refused 3", "clear"])
        self.assertIn("the puzzle is refused 8: ", run("show", self.file("none", encode(Case(1, 2))), "--images")[1])


@unittest.skipUnless(os.path.exists(PROGRAM), "no %s (run `bindings/prove program`)" % PROGRAM)
class Program(InFolder):
    def test_the_picture_of_the_readme(self):
        """docs/pictures/words.svg is what the commands draw today."""
        drawn = self.file("words.svg")
        self.assertEqual(run("show", os.path.join(TOP, "tools", "words.txt"), "--program", PROGRAM, "--svg", drawn), (0, "", ""))
        self.assertEqual(read_bytes(drawn), read_bytes(os.path.join(TOP, "docs", "pictures", "words.svg")))

    def test_paper(self):
        made = self.file("made", PAPER)
        status, out, said = run("show", made, "--program", PROGRAM)
        self.assertEqual((status, said), (0, ""))
        self.assertIn("3  ask  ->  shape: 1 2\n" + DRAWN + "4  undo  ->  undone\n", out)
