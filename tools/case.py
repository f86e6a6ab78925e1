#!/usr/bin/env python3
"""Case files for the Sendai border checker: made from a drawing in text, a puzzle's URL or a seed, drawn with their answers, and with all
right boards.

    case.py make DRAWING|URL [FILE]                  write the case file of a drawing or a URL
    case.py show [FILE]                              draw a case with what the program answers, as text, page or picture
    case.py answers [FILE]                           draw the right boards that extend what the calls of a case decide
    case.py load SEED HEIGHT WIDTH COUNT [FILE]      write a case file of COUNT calls, the same each time for a seed
    case.py url [FILE]                               print the URL of a case's puzzle
    case.py images [PICTURE]                         draw the eight images of a unit

`case.py COMMAND --help` says what each takes. FILE is sendai.bin where none is named; where one is read, it may be a case file, a drawing,
a URL, or '-' for standard input. What is wrong is said in one line, and the exit status is 2 then; so it is where what a command prints can't
be written.

A drawing has a row of cells and a row of borders in turn, three characters a cell:

    +---+---+---+
    | 2   . x   |        |  ---   a given wall, or the board's edge
    +   +---+ o +        x        decided Wall         (a letter in the middle of the three for a border below)
    |   |   o   |        o        decided Connected
    +---+---+---+        a blank  undecided            (? too)

A number in a cell is the clue of the cell's room; a dot is a blank. Lines behind the drawing are calls, in order, after the
drawn borders, which are decided in the order of their numbers:

    wall 3 | connect 3 | undo | ask | clue ROOM COUNT

A drawing without such a call ends with an ask. A line that starts with '#' is a comment. A drawing may be indented, and have box
characters for its lines. `make` refuses what the program would refuse as a whole, and a call that names no border; with --as-is it doesn't.

A URL is one as pzpr and the Rust's serialize_problem have it, whatever stands before its `sendai/WIDTH/HEIGHT/..`. A wall that parts no two
rooms is a given wall like others. Messages count lines, columns, rows and characters from 1, rooms, borders and bytes from 0.

The kind of a puzzle stands in no file, drawing or URL: they are of translates. With --images `show` and `answers` take one for a puzzle of
images, where a unit's partner may be turned and mirrored. Images 0 to 3 are so many quarter turns clockwise, 4 to 7 the same of what a
left-right mirror shows; `images` draws them. Where a board is right, its units have names then, and `a: image 5 is b` says that image 5 of
unit a is meant, which is unit b: the first image that is a unit with a Wall in common, and the first such unit in row order.

In a drawing that `show` makes, X and O stand for the borders that the fault lists: X for a listed Wall, O for a listed Connected.
In one that `answers` makes, they stand for the borders in which the puzzle's answers differ, shown or not; what all answers share
is drawn first, with ? for these borders.

A seed is a number of 32 bits other than 0, decimal or after 0x hexadecimal. The case that `load` makes of it has no given walls and
one room without a clue. A file has at most 60,003 bytes: a load of more is refused.

Only Python's standard library is used.
"""
import argparse
import re
import sys

from cases import svg, text, url
from cases.answers import found_answers, report
from cases.file import encode
from cases.images import IMAGES
from cases.model import Mistake, drawable, refusal
from cases.page import Book, page_path
from cases.program import run
from cases.read import MOST_LINES, naming, read_bytes, read_case, text_of, told
from cases.reasons import why
from cases.text import refusal_said
from cases.turns import Choice, check_lines
from checker import lines_of, puzzle_of, sendai
from command import Parser, finished, natural


def opened(path):
    """Takes the checker's calls from an archive or a shared library."""
    try:
        sendai.load(path)
    except sendai.NoLibrary as e:
        raise Mistake(str(e)) from None


# The commands.

def write(path, content):
    """Writes a file, or to standard output for '-'."""
    data = content if isinstance(content, bytes) else content.encode("utf-8")
    if path == "-":
        sys.stdout.buffer.write(data)
        return
    try:
        with open(path, "wb") as f:
            f.write(data)
    except (OSError, ValueError) as e:
        raise Mistake("%s: %s" % (path, told(e))) from None


def answer_lines(args, case):
    """The lines for a case, of the program or, for images, of the library, each of which answers its call; None where there are none."""
    if args.images:
        lines = lines_of(case)
        check_lines(case, lines)
        return lines
    source = args.program or args.answers
    if source is None:
        return None
    with naming(source):
        lines = run(source, case) if args.program else text_of(read_bytes(source, MOST_LINES)).splitlines()
        check_lines(case, lines)
    return lines


def make(args):
    case = read_case(args.drawing, args.as_is)
    with naming(args.drawing):
        if refusal(case) and not args.as_is:
            raise Mistake(refusal_said(case))
        data = encode(case)
    write(args.file, data)


def write_url(args):
    case = read_case(args.file)
    with naming(args.file):
        print(url.write(case))


def load(args):
    if args.seed >= 2 ** 32:
        raise Mistake("the seed does not fit 32 bits")
    opened(args.library)
    write(args.file, sendai.generate_case(args.seed, args.height, args.width, args.count))


def read_of_kind(args):
    """The case that a command names, of the kind that it says."""
    case = read_case(args.file)
    if args.images:
        case.images = IMAGES
    return case


def show(args):
    if args.file == "-" == args.answers:
        raise Mistake("standard input can't be both the case and its answers")
    case = read_of_kind(args)
    if args.images:
        opened(args.library)
    lines = answer_lines(args, case)
    choice = Choice(args.steps, args.faults, args.partners or args.images)
    choice.check(case, lines)
    if args.html:
        write_pages(args.html, Book(pictured(case), lines, choice, args.numbers))
    if args.svg:
        write(args.svg, svg.asks(pictured(case), lines, choice, args.numbers))
    if not (args.html or args.svg):
        for part in text.report(case, lines, choice, why if args.why else None):
            print(part)


def pictured(case):
    """The case, where there is a picture of its board."""
    if not drawable(case):
        raise Mistake("there is no picture of a board of %d by %d" % (case.height, case.width))
    return case


def write_pages(path, book):
    """Writes the pages, and says on a terminal how far it is."""
    if book.count > 1 and path == "-":
        raise Mistake("%d pages can't go to standard output: choose some steps by --steps or --faults" % book.count)
    progress = book.count > 1 and sys.stderr.isatty()
    for number, content in enumerate(book.pages(path), 1):
        write(page_path(path, number), content)
        if progress:
            print("\rpage %d of %d" % (number, book.count), end="\n" if number == book.count else "", file=sys.stderr, flush=True)


def answers(args):
    case = read_of_kind(args)
    opened(args.library)
    try:
        found = found_answers(puzzle_of(case), args.cap)
    except sendai.Refused as e:
        raise Mistake("%s%s" % (e, "; solve.py takes more" if e.name == "MANY_UNDECIDED" and not args.images else "")) from None
    except MemoryError:
        raise Mistake("no memory for so many boards: a smaller --cap") from None
    partners = found.partners() if args.partners or args.images else ()
    print(report(found, partners))
    if args.svg:
        write(args.svg, svg.answers(found, partners))


def images(args):
    write(args.picture, svg.eight_images())


# The command line.

def spans(word):
    """Pairs of a first and a last number: of 7, 10-20 or 1-5,9."""
    found = []
    for part in word.split(","):
        first, dash, last = part.partition("-")
        found.append((natural(first), natural(last) if dash else natural(first)))
        if not 1 <= found[-1][0] <= found[-1][1]:
            raise argparse.ArgumentTypeError("%r is no span of numbers from 1" % part)
    return found


def seed_number(word):
    return int(word, 16) if re.fullmatch("0[xX][0-9a-fA-F]+", word) else natural(word)


SOURCE = "a case file, a drawing in text or a puzzle's URL, told by what is in it; '-' is standard input (default: sendai.bin)"
TARGET = "where to write the case file; '-' is standard output (default: sendai.bin)"
LIBRARY = "the archive with the checker's calls, or a shared library of it (default: target/staticlib/libexports.a of this repository)"


def kind_option(it, words=""):
    it.add_argument("--images", action="store_true", help="take it for a puzzle of images: a unit's partner may be turned and mirrored" + words)


def partners_option(it):
    it.add_argument("--partners", action="store_true", help="name the units of a right board, and say which image of which unit is meant as the "
                    "partner of each: `a: image 5 is b` (with --images, always)")


def add_make(commands):
    it = commands.add_parser("make", help="write the case file of a drawing or a puzzle's URL", description="Writes the case file of a drawing or "
                             "a puzzle's URL. What is wrong with it is said by line and column, or by character.")
    it.add_argument("drawing", metavar="DRAWING|URL", help="a drawing in text ('-' is standard input) or a puzzle's URL")
    it.add_argument("file", metavar="FILE", nargs="?", default="sendai.bin", help=TARGET)
    it.add_argument("--as-is", action="store_true", help="write it even if the program will refuse it: for trying refusals")
    it.set_defaults(act=make)


def add_url(commands):
    it = commands.add_parser("url", help="print the URL of a case's puzzle", description="Prints the URL of a case's puzzle; its calls have no "
                             "place in it.")
    it.add_argument("file", metavar="FILE", nargs="?", default="sendai.bin", help=SOURCE)
    it.set_defaults(act=write_url)


def add_show(commands):
    it = commands.add_parser("show", help="draw a case with its answers", description="Draws a case: its board, each call, and the board of each "
                             "ask. What the program answers is drawn, too, where --program or --answers is given; with --images it is what the "
                             "checker's calls answer.")
    it.add_argument("file", metavar="FILE", nargs="?", default="sendai.bin", help=SOURCE)
    lines = it.add_mutually_exclusive_group()
    lines.add_argument("--answers", metavar="LINES", help="a file with the lines that the program printed for it; '-' is standard input")
    lines.add_argument("--program", metavar="PATH", help="or the program itself, which is run on the case; a name without a slash is "
                       "looked for in PATH, too")
    kind_option(lines, "; the checker's calls answer in place of the program, which knows translates alone")
    it.add_argument("--html", metavar="PAGE", help="write a page of HTML instead, with a step for each call and why a fault is one; "
                    "many steps make several, PAGE-2 and so on")
    it.add_argument("--svg", metavar="PICTURE", help="write an SVG picture instead, with the board of each ask and why a fault is one")
    it.add_argument("--steps", metavar="N-M", type=spans, help="these calls alone, counted from 1: 7, 10-20 or 1-5,9")
    it.add_argument("--faults", action="store_true", help="those calls alone whose answer is a fault")
    it.add_argument("--numbers", action="store_true", help="write each border's number into pages and pictures")
    it.add_argument("--why", action="store_true", help="say in the text, too, why a fault is one")
    partners_option(it)
    it.add_argument("--library", metavar="PATH", help="for --images: " + LIBRARY)
    it.set_defaults(act=show)


def add_answers(commands):
    it = commands.add_parser("answers", help="draw the right boards of a case's puzzle", description="Draws what the calls of a case decide, and "
                             "all right boards that extend it. At most 24 borders may be undecided: solve.py takes more, of translates.")
    it.add_argument("file", metavar="FILE", nargs="?", default="sendai.bin", help=SOURCE)
    it.add_argument("--cap", metavar="N", type=natural, default=10, help="at most so many of them (default: 10); 0: only whether there is one")
    it.add_argument("--svg", metavar="PICTURE", help="draw them as an SVG picture too")
    kind_option(it)
    partners_option(it)
    it.add_argument("--library", metavar="PATH", help=LIBRARY)
    it.set_defaults(act=answers)


def add_load(commands):
    it = commands.add_parser("load", help="write the case file that a seed makes", description="Writes the case file that a seed makes: decides, "
                             "undos and asks on a board without given walls and clues, the same each time.")
    it.add_argument("seed", metavar="SEED", type=seed_number, help="a number of 32 bits other than 0, decimal or after 0x hexadecimal")
    it.add_argument("height", metavar="HEIGHT", type=natural, help="rows, 1 to 32")
    it.add_argument("width", metavar="WIDTH", type=natural, help="columns, 1 to 32")
    it.add_argument("count", metavar="COUNT", type=natural, help="how many calls; the file has at most 60,003 bytes")
    it.add_argument("file", metavar="FILE", nargs="?", default="sendai.bin", help=TARGET)
    it.add_argument("--library", metavar="PATH", help=LIBRARY)
    it.set_defaults(act=load)


def add_images(commands):
    it = commands.add_parser("images", help="draw the eight images of a unit", description="Draws the eight images of a unit, with their numbers.")
    it.add_argument("picture", metavar="PICTURE", nargs="?", default="-", help="where to write the SVG picture; '-' is standard output (default)")
    it.set_defaults(act=images)


def command_line():
    parser = Parser(prog="case.py", description=__doc__, formatter_class=argparse.RawDescriptionHelpFormatter)
    commands = parser.add_subparsers(dest="command", metavar="COMMAND", help="what to do:", required=True)
    for add in (add_make, add_show, add_answers, add_load, add_url, add_images):
        add(commands)
    return parser, commands.choices


def arguments(words):
    """What the words of a command say."""
    parser, commands = command_line()
    if not words or words[0] not in commands:
        return parser.parse_args(words)
    own, rest = commands[words[0]], words[1:]
    # the command's own parser takes an option between two arguments, which the one above it does not; but it would lose a -- in front of them
    return own.parse_args(rest) if "--" in rest else own.parse_intermixed_args(rest)


def main(words):
    """Acts on the words of a command, and returns the exit status: 0, or 2 where something is wrong, which one line says."""
    def act():
        args = arguments(words)
        return args.act(args) or 0
    return finished("case.py", act)


if __name__ == "__main__":
    sys.exit(main(sys.argv[1:]))
