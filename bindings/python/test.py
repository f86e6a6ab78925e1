#!/usr/bin/env python3
"""Tests of package sendai. Run it anywhere: python3 bindings/python/test.py"""
import contextlib
import copy
import ctypes
import doctest
import gc
import os
import pickle
import random
import re
import resource
import shutil
import subprocess
import sys
import tempfile
import threading
import unittest
import unittest.mock
from array import array

HERE = os.path.dirname(os.path.abspath(__file__))
sys.path.insert(0, HERE)
import sendai  # noqa: E402
from sendai import _library, _numbers, _records, puzzle as puzzles  # noqa: E402
from sendai import (  # noqa: E402
    MAX_FILE, NO_CLUE, Board, Case, Direction, Fault, NoLibrary, Puzzle, Refusal, Refused, RoomGraph, State, Union, entries, generate_case,
    hand_over, neighbour)

HEADER = os.path.join(os.path.dirname(HERE), "sendai.h")
PAPER = bytes.fromhex("010012 0103 0000 0001FFFF 0004 020000 010001 03 00")  # docs/SPEC.md, 7.9
BEYOND = [2 ** 16, 2 ** 32, 2 ** 63, 2 ** 64, 2 ** 64 + 1, 10 ** 30]  # numbers that would be another if they were cut


def board(height, width, *decided):
    made = Board(height, width)
    for border, wall in decided:
        made.decide(border, wall)
    return made


class Test(unittest.TestCase):
    @contextlib.contextmanager
    def refused(self, refusal, *records):
        """A call that must be refused by this question and leave the records as they were."""
        before = [record.copy() for record in records]
        with self.assertRaises(Refused) as caught:
            yield
        self.assertEqual((caught.exception.refusal, caught.exception.number, caught.exception.name), (refusal, int(refusal), refusal.name))
        self.assertTrue(str(caught.exception).startswith("refused %d: %s" % (refusal, refusal.words)))
        self.assertEqual(list(records), before)


class Paper(Test):
    """The examples of docs/SPEC.md, section 7."""

    def test_boards(self):
        self.assertEqual(Board(1, 1).ask(), Fault("shape", []))
        self.assertIsNone(Board(1, 2).ask())
        self.assertEqual(board(1, 2, (0, False)).ask(), Fault("shape", [0]))
        self.assertIsNone(board(1, 2, (0, True)).ask())
        fault = board(1, 3, (0, True), (1, False)).ask()
        self.assertEqual((fault.check, fault.list, hand_over(fault.list)), ("shape", [2, 2, 1, 1, 1], [1, 2]))
        self.assertEqual(fault.borders, [(1, False), (1, False), (0, True), (0, True), (0, True)])
        self.assertEqual(board(2, 2, (0, False), (1, False), (2, False), (3, True)).ask().list, [2, 4, 0, 7])
        self.assertIsNone(board(2, 2, (0, False), (1, False), (2, True), (3, True)).ask())

    def test_room_graphs(self):
        edges = [(0, 1), (1, 2)]
        self.assertIsNone(RoomGraph(3, edges, 3).ask())
        joined = RoomGraph(3, edges, 3)
        joined.stroke([(0, False), (1, False)])
        self.assertEqual(joined.ask(), [0, 2])
        parted = RoomGraph(3, edges, 1)
        parted.decide(0, True)
        self.assertEqual(parted.ask(), [1])
        self.assertEqual(RoomGraph(2, [], 3).ask(), [])
        self.assertEqual(RoomGraph(1, [], 0).ask(), [])

    def test_counts_above_the_vertices(self):
        for count in (3, 2 ** 16 + 2, 2 ** 32 - 1):
            room = RoomGraph(2, [(0, 1)], count)
            self.assertEqual(room.ask(), [])
            room.decide(0, False)
            self.assertEqual(room.ask(), [])
        as_many = RoomGraph(2, [(0, 1)], 2)
        self.assertIsNone(as_many.ask())
        as_many.decide(0, False)
        self.assertEqual(as_many.ask(), [0])
        self.assertEqual([RoomGraph(0, [], count).ask() for count in (0, 1, 5)], [None, [], []])
        with self.refused(Refusal.CLUE_VALUE):
            Puzzle(1, 2, clues=[3])

    def test_makings(self):
        self.assertEqual(Board(32, 1).height, 32)
        for height in (33, 0):
            with self.refused(Refusal.SIZES):
                Board(height, 1)

    def test_file(self):
        self.assertEqual(Case(PAPER).run(), ["decided", "decided", "shape: 1 2", "undone"])

    def test_all_right_boards_of_4_by_4(self):
        found = Puzzle(4, 4).right_boards()
        self.assertEqual((len(found.boards), found.more, found.unique), (1808, False, False))
        self.assertEqual(sorted(found.boards), found.boards)


class Refusals(Test):
    def test_sizes_that_do_not_fit(self):
        for number in BEYOND:
            for make in (lambda: Board(number, 1), lambda: Puzzle(1, number), lambda: RoomGraph(number, [], 0), lambda: Union(number),
                         lambda: neighbour(number, 1, 0, Direction.UP), lambda: generate_case(1, 1, number, 1)):
                with self.refused(Refusal.SIZES):
                    make()

    def test_names_that_do_not_fit(self):
        row, puzzle, room, parts = Board(1, 3), Puzzle(1, 3), RoomGraph(2, [(0, 1)], 1), Union(2)
        for number in [2] + BEYOND:
            for call, record in ((row.decide, row), (puzzle.decide, puzzle), (room.decide, room)):
                with self.refused(Refusal.MISSING, record):
                    call(number, True)
                with self.refused(Refusal.MISSING, record):
                    record.stroke([(0, True), (number, True)])
            for call in (lambda: parts.find(number), lambda: parts.unite(0, number)):
                with self.refused(Refusal.MISSING, parts):
                    call()
            with self.refused(Refusal.MISSING, row):
                row.path(0, number + 1)
            with self.refused(Refusal.MISSING, row):
                row.unit_boundary(number + 1)
            with self.refused(Refusal.MISSING):
                Puzzle(1, 3, [number], [NO_CLUE, NO_CLUE])
            with self.refused(Refusal.MISSING):
                RoomGraph(2, [(0, number)], 1)

    def test_decided(self):
        for record in (board(1, 3, (0, True)), Puzzle(1, 3, [0])):
            with self.refused(Refusal.DECIDED, record):
                record.decide(0, False)
            with self.refused(Refusal.DECIDED, record):
                record.stroke([(1, True), (0, True)])

    def test_nothing_to_undo(self):
        for record in (Board(1, 3), Puzzle(1, 3, [0]), RoomGraph(2, [(0, 1)], 1)):
            with self.refused(Refusal.EMPTY_LEDGER, record):
                record.undo()

    def test_puzzles(self):
        with self.refused(Refusal.GIVEN_ORDER):
            Puzzle(1, 3, [1, 0], [])
        with self.refused(Refusal.GIVEN_ORDER):
            Puzzle(1, 3, [0, 0])
        with self.refused(Refusal.CLUE_COUNT):
            Puzzle(1, 3, [0], [1])
        for clue in [4, NO_CLUE - 1] + BEYOND:
            with self.refused(Refusal.CLUE_VALUE):
                Puzzle(1, 3, [], [clue])

    def test_path_file_and_right_boards(self):
        row = board(1, 4, (0, False), (1, False))
        self.assertEqual(row.path(0, 2), [2, 0])
        with self.refused(Refusal.NOT_JOINED, row):
            row.path(0, 3)
        for cut in range(len(PAPER)):
            with self.refused(Refusal.FILE):
                Case(PAPER[:cut])
        with self.refused(Refusal.MANY_UNDECIDED):
            Puzzle(4, 5).right_boards(0)

    def test_a_file_from_a_seed(self):
        with self.refused(Refusal.ZERO_SEED):
            generate_case(0, 1, 1, 1)
        for count in [59991] + BEYOND:
            with self.refused(Refusal.SHORT_BUFFER):
                generate_case(1, 1, 1, count)
        self.assertEqual(len(generate_case(1, 1, 1, 59990)), MAX_FILE)

    def test_twice(self):
        for record in (Board(1, 3), Puzzle(1, 3), RoomGraph(3, [(0, 1), (1, 2)], 1)):
            with self.refused(Refusal.TWICE, record):
                record.stroke([(0, True), (1, True), (0, False)])
            with self.refused(Refusal.TWICE, record):
                record.stroke([(0, True)] * 100000)

    def test_a_damaged_record(self):
        damaged = Board(1, 3)
        damaged._board.states[0] = 2  # what no caller can reach
        for call in (damaged.ask, damaged.undo, damaged.check, damaged.units):
            with self.assertRaises(Refused) as caught:
                call()
            self.assertEqual(caught.exception.refusal, Refusal.RECORD)

    def test_every_refusal_is_tried_above(self):
        with open(__file__) as f:
            tried = set(re.findall(r"Refusal\.([A-Z_]+)", f.read()))
        self.assertEqual({refusal.name for refusal in Refusal} - tried, set())
        self.assertEqual([int(refusal) for refusal in Refusal], list(range(1, 15)))

    def test_words_of_python(self):
        row, puzzle, room = Board(1, 3), Puzzle(1, 3), RoomGraph(2, [(0, 1)], 1)
        for record in (row, puzzle, room):
            for wrong, error in ((-1, ValueError), (-2 ** 70, ValueError), (1.0, TypeError), ("0", TypeError), (None, TypeError)):
                self.assertRaises(error, record.decide, wrong, True)
                self.assertRaises(error, record.stroke, [(0, True), (wrong, True)])
            for wrong in (State.CONNECTED, 1, 0, None, "x"):
                self.assertRaises(TypeError, record.decide, 0, wrong)
                self.assertRaises(TypeError, record.stroke, [(0, wrong)])
            self.assertRaises(TypeError, record.stroke, [0])
            self.assertEqual(record.ledger(), [])
        for call in (lambda: Board(-1, 3), lambda: Puzzle(1, 3, [-1]), lambda: Puzzle(1, 3, [], [-1]), lambda: hand_over([65536]),
                     lambda: hand_over([-1]), lambda: generate_case(2 ** 32, 1, 1, 1), lambda: RoomGraph(1, [], 2 ** 32),
                     lambda: Puzzle(1, 3).right_boards(-1), lambda: Case(PAPER).run(-1), lambda: row.state(-1)):
            self.assertRaises(ValueError, call)
        for call in (lambda: Board(1.0, 3), lambda: Board("1", 3), lambda: hand_over(["1"]), lambda: Case("a text"), lambda: Case(3.5),
                     lambda: Puzzle(1, 3, images=1), lambda: Puzzle(1, 3, images="images"), lambda: Puzzle(1, 3, images=None)):
            self.assertRaises(TypeError, call)


class Strokes(Test):
    def records(self):
        return Board(1, 4), Puzzle(1, 4), Puzzle(1, 4, images=True), RoomGraph(4, [(0, 1), (1, 2), (2, 3)], 2)

    def test_a_stroke_is_taken_back_whole(self):
        for record in self.records():
            record.decide(1, True)
            record.stroke(iter([(2, False), (0, True)]))
            record.stroke([])
            self.assertEqual(record.strokes(), [[(1, True)], [(2, False), (0, True)]])
            self.assertEqual(record.ledger(), [(1, True), (2, False), (0, True)])
            self.assertEqual(record.states(), [State.WALL, State.WALL, State.CONNECTED])
            self.assertEqual([record.state(border) for border in range(3)], record.states())
            self.assertRaises(IndexError, record.state, 3)
            record.undo()
            self.assertEqual(record.strokes(), [[(1, True)]])
            record.undo()
            self.assertEqual(record, type(record)(*record.__reduce__()[1][1]))

    def test_copies_are_apart(self):
        for record in self.records():
            record.decide(0, True)
            copies = [record.copy(), copy.copy(record), copy.deepcopy(record), pickle.loads(pickle.dumps(record))]
            self.assertEqual(copies, [record] * 4)
            record.undo()
            for other in copies:
                self.assertEqual(other.ledger(), [(0, True)])
                self.assertNotEqual(other, record)
                other.stroke([(1, True), (2, True)])
                other.check()
                self.assertEqual(record.ledger(), [])
                fresh = type(record)(*record.__reduce__()[1][1])
                fresh.stroke(other.ledger())
                self.assertEqual(other.ask(), fresh.ask())

    def test_shown(self):
        shown = [repr(record) for record in self.records()]
        self.assertEqual(shown, ["<Board 1 by 4, decided []>", "<Puzzle 1 by 4, given [], clues [65535], decided []>",
                                 "<Puzzle of images, 1 by 4, given [], clues [65535], decided []>",
                                 "<RoomGraph of 4 vertices, edges [(0, 1), (1, 2), (2, 3)], count 2, decided []>"])

    def test_nothing_is_handed_out_that_changes_a_record(self):
        puzzle = Puzzle(2, 2, [0], [NO_CLUE])
        for handed in (puzzle.states(), puzzle.given, puzzle.clues, puzzle.strokes(), puzzle.ledger()):
            handed.append(9)
        self.assertEqual((puzzle.given, puzzle.clues), ([0], [NO_CLUE]))
        for name in ("height", "given", "borders", "another"):
            self.assertRaises(AttributeError, setattr, puzzle, name, 1)
        self.assertRaises(TypeError, hash, puzzle)
        puzzle.check()

    def test_against_each_other(self):
        """Drawn strokes and undos: a board, a puzzle and a list of strokes in Python say the same."""
        rng = random.Random(1)
        for _ in range(200):
            height, width = rng.randint(1, 6), rng.randint(1, 6)
            plain, puzzle, kept = Board(height, width), Puzzle(height, width), []
            for _ in range(20):
                free = [border for border, state in enumerate(plain.states()) if state == State.UNDECIDED]
                stroke = [(border, rng.random() < 0.5) for border in rng.sample(free, rng.randint(0, min(4, len(free))))]
                if rng.random() < 0.3 and kept:
                    kept.pop()
                    plain.undo()
                    puzzle.undo()
                else:
                    plain.stroke(stroke)
                    puzzle.stroke(stroke)
                    kept += [stroke] if stroke else []
                self.assertEqual((plain.strokes(), puzzle.strokes(), puzzle.undecided), (kept, kept, plain.undecided))
                self.assertEqual(plain.ask(), puzzle.ask())


class Lists(Test):
    def test_hand_over(self):
        rng = random.Random(2)
        for length in [0, 1, 2, 5, 9216, 20000]:
            given = [rng.choice([rng.randrange(65536), rng.randrange(10)]) for _ in range(length)]
            self.assertEqual(hand_over(given), sorted(set(given)))
        self.assertEqual(entries([65535, 0]), [(32767, True), (0, False)])

    def test_a_list_outlives_the_next_ask(self):
        row = board(1, 3, (0, True), (1, False))
        fault = row.ask()
        row.undo()
        self.assertIsNone(row.ask())
        row.decide(1, True)
        row.ask()
        self.assertEqual(fault.list, [2, 2, 1, 1, 1])

    def test_a_buffer_is_never_short(self):
        rng = random.Random(3)
        for _ in range(60):
            made = Board(rng.randint(1, 32), rng.randint(1, 32))
            made.stroke((border, rng.random() < 0.5) for border in range(made.borders) if rng.random() < 0.7)
            made.ask()
            for unit in (0, len(made.units()) - 1):
                made.unit_boundary(unit)
            made.potential_unit_boundary(0)
            self.assertEqual(sorted(cell for unit in made.potential_units() for cell in unit), list(range(made.cells)))

    def test_neighbours(self):
        self.assertEqual([neighbour(2, 3, 1, d) for d in Direction], [None, (4, 5), (0, 0), (2, 1)])
        self.assertRaises(ValueError, neighbour, 2, 3, 1, 4)


class Puzzles(Test):
    def test_rooms_without_clues(self):
        puzzle = Puzzle(2, 4, [1, 4])
        self.assertEqual((puzzle.clues, puzzle.given), ([NO_CLUE] * 2, [1, 4]))
        self.assertEqual(Puzzle(2, 4, [1, 4], [None, 2]).clues, [NO_CLUE, 2])

    def test_the_board_of_a_puzzle_has_its_walls(self):
        puzzle = Puzzle(1, 4, [1])
        puzzle.stroke([(2, False), (0, True)])
        made = puzzle.board()
        made.check()
        self.assertEqual(made.strokes(), [[(1, True)], [(2, False), (0, True)]])
        self.assertEqual((made.states(), made.units()), (puzzle.states(), [[0], [1], [2, 3]]))

    def test_a_room_that_is_at_fault(self):
        puzzle = Puzzle(1, 4, [1], [1, 2])
        puzzle.decide(0, True)
        self.assertEqual(puzzle.ask(), Fault(0, [1]))
        puzzle.undo()
        puzzle.stroke([(0, False), (2, False)])
        self.assertEqual(puzzle.ask(), Fault(1, [4]))

    def test_right_boards(self):
        row = Puzzle(1, 4)
        both = [[State.CONNECTED, State.WALL, State.CONNECTED], [State.WALL] * 3]
        for cap in [2, 3, None] + BEYOND:
            self.assertEqual(row.right_boards(cap), (both, False))
        self.assertEqual([row.right_boards(cap) for cap in (0, 1)], [([], True), (both[:1], True)])
        row.decide(2, True)
        self.assertTrue(row.right_boards(1).unique)
        self.assertEqual(Puzzle(1, 1).right_boards(), ([], False))

    def test_small_boards(self):
        def boards(height, width, cap):
            found = Puzzle(height, width).right_boards(cap)
            return [[int(state) for state in board] for board in found.boards], found.more

        row_of_four = [[1, 2, 1], [2, 2, 2]]
        self.assertEqual(boards(1, 4, 9), (row_of_four, False))
        self.assertEqual(boards(1, 4, 1), (row_of_four[:1], True))
        self.assertEqual(boards(2, 2, 9), ([[1, 1, 2, 2], [2, 2, 1, 1], [2, 2, 2, 2]], False))
        self.assertEqual(boards(1, 1, 10 ** 30), ([], False))

    def test_a_cap_beyond_the_first_buffer(self):
        whole = Puzzle(4, 4).right_boards()
        for cap in (1023, 1024, 1025, 1808):
            self.assertEqual(Puzzle(4, 4).right_boards(cap), (whole.boards[:cap], cap < 1808))


class Images(Test):
    """Puzzles of images, beside those of translates."""

    def row(self, images):
        puzzle = Puzzle(1, 3, images=images)
        puzzle.stroke([(0, True), (1, False)])
        return puzzle

    def test_a_list(self):
        # the unit of one cell has eight images, all alike: each is tried on both other cells
        self.assertEqual(self.row(True).ask(), Fault("shape", [2] * 16 + [1] * 3))
        self.assertEqual(self.row(False).ask(), Fault("shape", [2] * 2 + [1] * 3))
        self.assertIsNone(Puzzle(1, 3, images=True).ask())
        clued = Puzzle(1, 4, [1], [1, None], True)
        clued.decide(0, True)
        self.assertEqual(clued.ask(), Fault(0, [1]))

    def test_the_buffer(self):
        for images, enough in ((True, 48), (False, 27)):
            puzzle = self.row(images)
            self.assertEqual(len(puzzle._list), enough)
            # a shorter one, as no caller can have it
            short = array("H", [9] * (enough - 1))
            puzzle._list = short
            with self.refused(Refusal.SHORT_BUFFER, puzzle):
                puzzle.ask()
            self.assertEqual(short, array("H", [9] * (enough - 1)))
        self.assertEqual(len(Puzzle(32, 32, images=True)._list), 16384)
        self.assertIsNone(Puzzle(32, 32, images=True).ask())

    def test_two_units_of_which_one_is_turned(self):
        for states, of_images, of_translates in (("1221121", True, False), ("1112222", False, False), ("1212222", True, True)):
            for images, right in ((True, of_images), (False, of_translates)):
                puzzle = Puzzle(2, 3, images=images)
                puzzle.stroke((border, state == "2") for border, state in enumerate(states))
                self.assertEqual(puzzle.ask() is None, right, (states, images))

    def test_one_that_is_good_by_the_later_image_alone(self):
        puzzle = Puzzle(2, 3, images=True)
        puzzle.stroke([(0, True), (1, False), (2, False), (4, False)])
        self.assertIsNone(puzzle.ask())

    def test_right_boards(self):
        def boards(images):
            puzzle = Puzzle(2, 3, images=images)
            puzzle.decide(0, False)
            return ["".join(str(int(state)) for state in board) for board in puzzle.right_boards().boards]

        self.assertEqual(boards(False), ["1111222", "1212222"])
        self.assertEqual(boards(True), ["1111222", "1212221", "1212222", "1221121", "1222221"])
        self.assertEqual([len(Puzzle(3, 3, images=images).right_boards().boards) for images in (False, True)], [19, 59])

    def test_a_kind_is_kept(self):
        puzzle = Puzzle(1, 4, [1], [1, None], images=True)
        self.assertEqual((puzzle.images, puzzle.given, puzzle.clues), (True, [1], [1, NO_CLUE]))
        self.assertEqual((Puzzle(2, 4, [1, 4], images=True).clues, Puzzle(1, 4).images), ([NO_CLUE] * 2, False))
        self.assertNotEqual(puzzle, Puzzle(1, 4, [1], [1, None]))
        puzzle.decide(0, True)
        for other in (puzzle, puzzle.copy(), pickle.loads(pickle.dumps(puzzle))):
            self.assertEqual((other, other.images, other.ask()), (puzzle, True, Fault(0, [1])))
        puzzle.undo()
        self.assertEqual(puzzle, Puzzle(1, 4, [1], [1, None], images=True))
        self.assertFalse(Case(PAPER).puzzle().images)

    def test_a_number_that_is_no_kind(self):
        for kind in (2, 255):
            damaged = self.row(True)
            damaged._record.kind = kind  # what no caller can reach
            before = damaged.copy()
            for call in (damaged.ask, damaged.undo, damaged.check, damaged.right_boards, lambda: damaged.decide(0, True),
                         lambda: damaged.stroke([]), lambda: damaged.stroke([(0, True), (0, True)])):
                with self.refused(Refusal.RECORD):
                    call()
                self.assertEqual(damaged, before)

    def test_refused_makings(self):
        for images in (False, True):
            for refusal, making in ((Refusal.SIZES, (0, 4)), (Refusal.MISSING, (1, 4, [3])), (Refusal.GIVEN_ORDER, (1, 4, [1, 1])),
                                    (Refusal.CLUE_COUNT, (1, 4, [1], [1])), (Refusal.CLUE_VALUE, (1, 4, [1], [3, None]))):
                with self.refused(refusal):
                    Puzzle(*making, images=images)
        # the record of a refused making is one of translates, as all its numbers are 0
        clues = array("H", [NO_CLUE])
        made = _library.calls().locked.sendai_puzzle_make_images(1, 33, *_numbers.lent(array("H")), *_numbers.lent(clues))
        self.assertEqual((made.code, bytes(made.puzzle)[:_records.Puzzle.kind.offset + 1].strip(b"\0")), (1, b""))


class Cases(Test):
    def test_calls_one_by_one(self):
        case = Case(PAPER)
        self.assertEqual([case.run(1) for _ in range(5)], [["decided"], ["decided"], ["shape: 1 2"], ["undone"], []])
        self.assertEqual((case.left, case.puzzle().ledger()), (0, [(0, True)]))

    def test_the_puzzle_is_a_copy(self):
        case = Case(PAPER)
        case.puzzle().decide(0, False)
        self.assertEqual(case.run(1), ["decided"])

    def test_a_long_case(self):
        file = generate_case(7, 5, 5, 5000)
        cut, whole = Case(file), Case(file)
        lines = cut.run(1) + cut.run(17) + cut.run(4000) + cut.run(10 ** 30)
        self.assertEqual(lines, whole.run())
        self.assertEqual((len(lines), cut.puzzle()), (5000, whole.puzzle()))
        self.assertEqual({line.split(":")[0] for line in lines}, {"decided", "undone", "clear", "shape", "refused 4", "refused 5"})

    def test_open(self):
        with tempfile.TemporaryDirectory() as folder:
            path = os.path.join(folder, "sendai.bin")
            with open(path, "wb") as f:
                f.write(PAPER)
            self.assertEqual(Case.open(path).left, 4)
            self.assertRaises(OSError, Case.open, path + ".none")
        with self.refused(Refusal.FILE):
            Case.open("/dev/zero")


class Memory(Test):
    def test_asks_leave_nothing(self):
        fault, clear = board(1, 3, (0, True), (1, False)), Puzzle(3, 3)

        def ask(times):
            for _ in range(times):
                fault.ask()
                clear.ask()
                clear.decide(0, True)
                clear.undo()
        ask(1000)
        gc.collect()
        objects, kilobytes = len(gc.get_objects()), resource.getrusage(resource.RUSAGE_SELF).ru_maxrss
        ask(100000)
        gc.collect()
        self.assertLess(len(gc.get_objects()) - objects, 100)
        self.assertLess(resource.getrusage(resource.RUSAGE_SELF).ru_maxrss - kilobytes, 2000)

    def test_threads_on_one_record(self):
        shared, wrong = Board(6, 6), []

        def turn(border):
            for _ in range(2000):
                try:
                    shared.decide(border, True)
                    shared.undo()
                except Refused as e:
                    wrong.append(e.refusal)
        threads = [threading.Thread(target=turn, args=(n % 2,)) for n in range(4)]
        for thread in threads:
            thread.start()
        for thread in threads:
            thread.join()
        self.assertNotIn(Refusal.RECORD, wrong)
        shared.check()


class Libraries(Test):
    def setUp(self):
        folder = tempfile.TemporaryDirectory()
        self.addCleanup(folder.cleanup)
        self.addCleanup(_library._loaded.__setitem__, slice(None), list(_library._loaded))
        self.folder = folder.name

    def told(self, code="Board(1, 2).ask()", **environment):
        """What Python says to a line in another process."""
        words = [sys.executable, "-c", "from sendai import *; print(%s)" % code]
        done = subprocess.run(words, cwd=HERE, env={**os.environ, **environment}, stdout=subprocess.PIPE, stderr=subprocess.PIPE)
        return (done.stdout + done.stderr).decode().strip().split("\n")[-1]

    def test_records_as_in_the_header(self):
        with open(HEADER) as f:
            header = f.read()
        layouts = re.findall(r"^SENDAI_LAYOUT\(Sendai(\w+), (\d+), (\w+), (\d+)\);", header, re.M)
        known = {name: made for name, made in vars(_records).items() if isinstance(made, type) and issubclass(made, ctypes.Structure)}
        known.pop("Structure")
        for name, size, field, offset in layouts:
            if name in known:
                self.assertEqual((ctypes.sizeof(known[name]), getattr(known[name], field).offset), (int(size), int(offset)), name)
        self.assertEqual(set(known) - {name for name, _, _, _ in layouts}, set())
        for name in _records.CALLS:
            self.assertRegex(header, r"\b%s\(" % name)
        numbers = dict(re.findall(r"(SENDAI_[A-Z_]+) = (\d+)", header))
        for name in ("MAX_SIDE", "MAX_CELLS", "MAX_BORDERS", "MAX_UNDECIDED", "MAX_FILE", "MAX_LINE", "NO_CLUE"):
            self.assertEqual(getattr(sendai, name), int(numbers["SENDAI_" + name]))
        self.assertEqual(puzzles.IMAGES, int(numbers["SENDAI_IMAGES"]))

    def test_an_archive_and_a_shared_library_that_are_named(self):
        if not os.path.exists(_library.ARCHIVE):
            self.skipTest("no %s" % _library.ARCHIVE)
        archive = shutil.copy(_library.ARCHIVE, os.path.join(self.folder, "another.a"))
        shared = os.path.join(self.folder, "another.so")
        _library.link(archive, shared)
        kept = Board(1, 2)
        for path in (archive, shared, _library.ARCHIVE):
            sendai.load(path)
            self.assertIsNone(Board(1, 2).ask())
            self.assertEqual(self.told(SENDAI_LIBRARY=path), "None")
        kept.decide(0, True)

    def test_one_beside_the_package_comes_first(self):
        package = os.path.join(self.folder, "sendai")
        os.mkdir(package)
        with unittest.mock.patch.object(_library, "PACKAGE", package), unittest.mock.patch.dict(os.environ):
            os.environ.pop("SENDAI_LIBRARY", None)
            for folder in (self.folder, package):
                path = os.path.join(folder, "libsendai.so")
                open(path, "w").close()
                self.assertEqual(_library.found(), path)
            os.environ["SENDAI_LIBRARY"] = "named"
            self.assertEqual(_library.found(), "named")

    def test_an_archive_is_linked_once_and_again_when_it_is_younger(self):
        if not os.path.exists(_library.ARCHIVE):
            self.skipTest("no %s" % _library.ARCHIVE)
        archive = shutil.copy(_library.ARCHIVE, os.path.join(self.folder, "another.a"))
        made = os.path.join(self.folder, "new", "libsendai.so")
        with unittest.mock.patch.multiple(_library, ARCHIVE=archive, LINKED=made):
            times = []
            for younger in (0, 0, 100):
                now = os.path.getmtime(made) if times else os.path.getmtime(archive)
                os.utime(archive, (now + younger - 50, now + younger - 50))
                self.assertEqual(_library.linked(), made)
                times.append(os.stat(made).st_ino)
        self.assertEqual(times[0], times[1])
        self.assertNotEqual(times[1], times[2])
        self.assertEqual(os.listdir(os.path.dirname(made)), ["libsendai.so"])

    def test_libraries_that_are_none(self):
        empty = os.path.join(self.folder, "empty.so")
        for path, said in ((os.path.join(self.folder, "none.so"), "no "), (os.path.join(self.folder, "none.a"), "no "),
                           (__file__, "invalid ELF header"), (ctypes.util.find_library("c"), "has no sendai_"),
                           ("libnosuch.so", "cannot open"), ("none.a", "can't be linked")):
            with self.assertRaisesRegex(NoLibrary, said):
                sendai.load(path)
        open(empty, "w").close()
        self.assertRegex(self.told(SENDAI_LIBRARY=empty), "^sendai._library.NoLibrary: .*empty.so: file too short")
        self.assertIsNone(Board(1, 2).ask())

    def test_no_library_and_no_compiler(self):
        nowhere = os.path.join(self.folder, "none")
        with unittest.mock.patch.multiple(_library, ARCHIVE=nowhere, PACKAGE=self.folder, _loaded=[]):
            with unittest.mock.patch.dict(os.environ):
                os.environ.pop("SENDAI_LIBRARY", None)
                if ctypes.util.find_library("sendai") is None:
                    with self.assertRaisesRegex(NoLibrary, "bindings/prove archive"):
                        Board(1, 2)
                    self.assertEqual(sendai.__version__, "unknown")
        with unittest.mock.patch.dict(os.environ, CC="no-such-compiler"):
            with self.assertRaisesRegex(NoLibrary, "no C compiler"):
                _library.link(_library.ARCHIVE, nowhere)
        with unittest.mock.patch.object(_library, "LINKED", os.path.join(__file__, "python", "libsendai.so")):
            with self.assertRaisesRegex(NoLibrary, "can be written: Not a directory"):
                _library.linked()

    def test_version(self):
        self.assertRegex(sendai.__version__, r"^(unknown|\d+\.\d+\.\d+)$")
        told = unittest.mock.Mock(return_value=10203)
        with unittest.mock.patch.object(_library.calls(), "locked", unittest.mock.Mock(sendai_version=told)):
            self.assertEqual(sendai.__version__, "1.2.3")
        with self.assertRaises(AttributeError):
            sendai.no_such_name


def load_tests(_loader, tests, _pattern):
    """The examples in the docstrings, too."""
    for name in ("", ".board", ".case", ".lists", ".puzzle", ".room_graph"):
        tests.addTests(doctest.DocTestSuite("sendai" + name))
    return tests


if __name__ == "__main__":
    unittest.main()
