import os
import re
import unittest
from html.parser import HTMLParser

from cases import page
from cases.file import encode
from cases.images import IMAGES
from cases.model import ASK, NO_CLUE, WALL, Case, Mistake
from cases.page import Book, page_path
from cases.read import read_bytes
from cases.turns import Choice

from .support import PAPER, PAPER_CASE, PAPER_LINES, InFolder, run

REASON = "Unit of 1 cell at row 1, column 1 has no partner left: a border is in the way in each of the 2 places for one."


class Reader(HTMLParser):
    """Holds a page to its form: each tag is closed in its turn, each name stands once, and nothing is fetched or run."""

    def __init__(self, content):
        super().__init__()
        self.open, self.tags, self.ids, self.links, self.words = [], [], [], [], []
        self.feed(content)
        self.close()

    def handle_starttag(self, tag, attributes):
        known = dict(attributes)
        self.tags.append(tag)
        self.ids += [known["id"]] if "id" in known else []
        self.links += [known["href"]] if "href" in known else []
        assert not {"src", "onload", "onclick"} & set(known), known
        if tag != "meta":
            self.open.append(tag)

    def handle_startendtag(self, tag, attributes):
        self.handle_starttag(tag, attributes)
        self.handle_endtag(tag)

    def handle_endtag(self, tag):
        assert self.open.pop() == tag, tag

    def handle_data(self, data):
        self.words.append(data)


class Pages(unittest.TestCase):
    def read(self, content):
        found = Reader(content)
        self.assertEqual(found.open, [])
        self.assertEqual(sorted(found.ids), sorted(set(found.ids)))
        self.assertNotIn("script", found.tags)
        self.assertTrue(content.startswith("<!doctype html>"))
        self.assertIn("prefers-color-scheme: dark", content)
        return found

    def only(self, made, lines, choice=Choice(), numbers=False):
        (content,) = Book(made, lines, choice, numbers).pages("x.html")
        return self.read(content)

    def test_paper(self):
        found = self.only(PAPER_CASE, PAPER_LINES)
        self.assertEqual([name for name in found.ids if name.startswith("step")], ["step-1", "step-2", "step-3", "step-4"])
        for words in (REASON, "listed: Wall 0, Connected 1 (shape: 1 2)", "a fault of shape", "the unit or room at fault", "undone"):
            self.assertIn(words, found.words)
        self.assertIn("#step-3", found.links)
        self.assertEqual(found.tags.count("svg"), 4 + 1 + len(page.OF_STEPS))

    def test_without_answers(self):
        found = self.only(PAPER_CASE, None)
        self.assertEqual(len([name for name in found.ids if name.startswith("step")]), 4)
        self.assertNotIn("decided", found.words)

    def test_choices(self):
        for choice, said, wanted in ((Choice(faults=True), "fault 3", ["step-3"]), (Choice([(2, 3)]), "steps 2 to 3", ["step-2", "step-3"]),
                                     (Choice([(1, 1), (4, 9)]), "steps 1 and 4", ["step-1", "step-4"]),
                                     (Choice([(1, 2), (4, 4)]), "3 steps, the first 1, the last 4", ["step-1", "step-2", "step-4"]),
                                     (Choice([(1, 2)], faults=True), "no fault", [])):
            found = self.only(PAPER_CASE, PAPER_LINES, choice)
            self.assertIn(said, found.words)
            self.assertEqual([name for name in found.ids if name.startswith("step")], wanted)
            self.assertEqual(found.tags.count("svg"), max(1, len(wanted)) + 1 + len(page.OF_STEPS))  # the puzzle alone where there is no step

    def test_partners(self):
        made, lines = Case(1, 2, [], [2], [(WALL, 0), (ASK, None)], images=IMAGES), ["decided", "clear"]
        found = self.only(made, lines, Choice(partners=True))
        for words in ("a: image 0 is b; b: image 0 is a", "image 0: as it is", "1 by 2, of images, 0 given walls, 1 room, 1 with a clue", "b 0"):
            self.assertIn(words, found.words)
        self.assertEqual(found.tags.count("svg"), 2 + 1 + len(page.OF_STEPS) + 2)
        self.assertNotIn("image 0: as it is", self.only(made, lines).words)

    def test_border_numbers_on_wish(self):
        self.assertEqual([('class="number"' in "".join(Book(PAPER_CASE, None, Choice(), wish).pages("x"))) for wish in (False, True)], [False, True])

    def test_refusals_are_said(self):
        found = self.only(Case(1, 2, [0], [0, 1], [(WALL, 0), (WALL, 7)]), ["refused 4", "refused 3"])
        self.assertIn("refused 4: the border is decided already", found.words)
        self.assertIn("refused 3: there is no such border", found.words)
        found = self.only(Case(1, 2, [0], [0], [(ASK, None)]), ["refused 8"])
        self.assertIn("the puzzle is refused 8: there are not as many clues as rooms", found.words)

    def test_an_answer_of_another_case_gets_no_reason(self):
        for made, lines in ((Case(1, 2, [], [NO_CLUE], [(ASK, None)]), ["shape:"]), (PAPER_CASE, PAPER_LINES[:2] + ["shape: 1", "undone"])):
            self.assertIn("No reason is found: by docs/SPEC.md this ask has another answer.", self.only(made, lines).words)

    def test_the_border_of_the_call_is_ringed(self):
        (content,) = Book(PAPER_CASE, PAPER_LINES, Choice()).pages("x.html")
        rings = [re.findall('<circle class="now" cx="([0-9]+)" cy="18"', step) for step in content.split('<li class="step')[1:]]
        self.assertEqual(rings, [["36"], ["72"], [], ["72"]])  # wall 0, connect 1, ask, undo
        (content,) = Book(Case(1, 2, [], [NO_CLUE], [(WALL, 7)]), ["refused 3"], Choice()).pages("x.html")
        self.assertNotIn('<circle class="now" cx="', content.split('<li class="step')[1])

    def test_clues_are_over_the_ring(self):
        (content,) = Book(Case(32, 32, [], [1024], [(WALL, 0), (ASK, None)]), None, Choice()).pages("x.html")
        first = content.split('<li class="step')[1]
        self.assertLess(first.index('<circle class="now" cx="36"'), first.index('<use href="#over"/>'))

    def test_a_long_list_is_folded(self):
        made = Case(1, 32, [], [32], [(1, b) for b in range(20)] + [(ASK, None)])
        found = self.only(made, ["decided"] * 20 + ["room 0: " + " ".join(str(2 * b) for b in range(20))])
        self.assertIn("20 borders are listed", found.words)
        self.assertEqual(found.tags.count("details"), 1)

    def test_many_steps_make_pages(self):
        made = Case(32, 32, [], [NO_CLUE], [(ASK, None)] * 60)
        book = Book(made, None, Choice())
        contents = list(book.pages("/a b/c#d.html"))
        self.assertEqual((book.count, len(contents)), (4, 4))
        steps = [name for content in contents for name in self.read(content).ids if name.startswith("step")]
        self.assertEqual(steps, ["step-%d" % n for n in range(1, 61)])
        self.assertLess(max(len(content) for content in contents), 10 ** 6)
        links = [[link for link in self.read(content).links if link[0] != "#"] for content in contents]
        self.assertEqual(links[0], ["c%23d-2.html", "c%23d-4.html"] * 2)
        self.assertEqual(links[1], ["c%23d.html", "c%23d.html", "c%23d-3.html", "c%23d-4.html"] * 2)
        with self.assertRaisesRegex(Mistake, "^9,000 steps make 474 pages, more than 400: choose some by --steps or --faults$"):
            Book(Case(32, 32, [], [NO_CLUE], [(ASK, None)] * 9000), None, Choice())

    def test_names(self):
        self.assertEqual([page_path("d.e/x.html", 1), page_path("d.e/x.html", 2), page_path("d.e/x", 3)], ["d.e/x.html", "d.e/x-2.html", "d.e/x-3"])


class Command(InFolder):
    def test_pages_are_written_and_linked(self):
        many, out = self.file("many", encode(Case(32, 32, [], [NO_CLUE], [(ASK, None)] * 45))), self.file("page.html")
        self.assertEqual(run("show", many, "--html", out), (0, "", ""))
        self.assertEqual(run("show", many, "--html", out, terminal=True), (0, "", "\rpage 1 of 3\rpage 2 of 3\rpage 3 of 3\n"))
        written = sorted(name for name in os.listdir(self.folder) if name.endswith(".html"))
        self.assertEqual(written, ["page-2.html", "page-3.html", "page.html"])
        for name in written:
            for link in re.findall('href="([^"#]+)"', read_bytes(self.file(name)).decode()):
                self.assertIn(link, written)

    def test_options(self):
        made, lines = self.file("made", PAPER), self.file("lines", "\n".join(PAPER_LINES))
        for options, said in (("--faults", "--faults needs the answers: --program, --answers or --images"),
                              ("--partners", "--partners needs the answers: --program, --answers or --images"),
                              ("--steps 5", "there is no step 5: the case has 4"),
                              ("--steps 0-2", "show: argument --steps: '0-2' is no span of numbers from 1 .*"),
                              ("--steps 3-2", "show: argument --steps: '3-2' is no span .*"),
                              ("--steps x", "show: argument --steps: 'x' is no natural number .*"),
                              ("--html " + self.folder, re.escape(self.folder) + ": Is a directory")):
            status, out, line = run("show", made, *options.split())
            self.assertEqual((status, out), (2, ""))
            self.assertRegex(line, r"^case\.py: %s\n\Z" % said)
        status, out, _ = run("show", made, "--answers", lines, "--faults", "--why")
        self.assertIn("\n3  ask  ->  shape: 1 2\n%s\n+---" % (REASON[0].lower() + REASON[1:-1]), out)
        self.assertNotIn("decided", out)
        many = self.file("many", encode(Case(32, 32, [], [NO_CLUE], [(ASK, None)] * 60)))
        said = "case.py: 4 pages can't go to standard output: choose some steps by --steps or --faults\n"
        self.assertEqual(run("show", many, "--html", "-"), (2, "", said))
        self.assertIn('id="step-60"', run("show", many, "--html", "-", "--steps", "60")[1])

    def test_no_picture_of_such_a_board(self):
        for option in ("--html", "--svg"):
            made = self.file("made", encode(Case(0, 33)))
            self.assertEqual(run("show", made, option, self.file("x")), (2, "", "case.py: there is no picture of a board of 0 by 33\n"))
