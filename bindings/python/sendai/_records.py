"""The records and functions of the archive, laid out as in bindings/sendai.h."""
from ctypes import Structure, c_bool, c_size_t, c_uint8, c_uint16, c_uint32, c_void_p


class Board(Structure):
    _fields_ = [("height", c_size_t), ("width", c_size_t), ("states", c_uint8 * 1984), ("ledger", c_uint16 * 1984), ("len", c_size_t)]


class Puzzle(Structure):
    _fields_ = [("board", Board), ("given", c_uint16 * 1984), ("given_len", c_size_t),
                ("clues", c_uint16 * 1024), ("clues_len", c_size_t), ("kind", c_uint8)]


class Book(Structure):
    _fields_ = [("states", c_uint8 * 1984), ("ledger", c_uint16 * 1984), ("len", c_size_t)]


class Room(Structure):
    _fields_ = [("vertices", c_size_t), ("edges", c_size_t), ("us", c_uint16 * 1984), ("vs", c_uint16 * 1984),
                ("count", c_uint32), ("book", Book)]


class GroupInfo(Structure):
    _fields_ = [("height", c_size_t), ("width", c_size_t), ("count", c_size_t), ("ids", c_uint16 * 1024), ("starts", c_uint16 * 1024)]


class Union(Structure):
    _fields_ = [("parent", c_uint16 * 1024), ("n", c_size_t)]


class BoardAnswer(Structure):
    _fields_ = [("code", c_uint8), ("board", Board)]


class PuzzleAnswer(Structure):
    _fields_ = [("code", c_uint8), ("puzzle", Puzzle)]


class RoomAnswer(Structure):
    _fields_ = [("code", c_uint8), ("room", Room)]


class Grouping(Structure):
    _fields_ = [("code", c_uint8), ("info", GroupInfo)]


class UnionMade(Structure):
    _fields_ = [("code", c_uint8), ("parts", Union)]


class Found(Structure):
    _fields_ = [("code", c_uint8), ("root", c_size_t), ("parts", Union)]


class United(Structure):
    _fields_ = [("code", c_uint8), ("united", c_bool), ("parts", Union)]


class Place(Structure):
    _fields_ = [("code", c_uint8), ("ends", c_bool), ("cell", c_size_t), ("border", c_size_t)]


class Answer(Structure):
    _fields_ = [("code", c_uint8), ("fault", c_bool), ("length", c_size_t)]


class Outcome(Structure):
    _fields_ = [("kind", c_uint8), ("code", c_uint8), ("room", c_size_t), ("length", c_size_t)]


class Boards(Structure):
    _fields_ = [("code", c_uint8), ("more", c_bool), ("count", c_size_t)]


class Case(Structure):
    _fields_ = [("code", c_uint8), ("puzzle", Puzzle), ("at", c_size_t), ("count", c_size_t)]


class Ran(Structure):
    _fields_ = [("code", c_uint8), ("puzzle", Puzzle), ("at", c_size_t), ("done", c_size_t), ("length", c_size_t)]


SLICE = [c_void_p, c_size_t]  # where it stands, and its length
LENT = [c_void_p]

# Each call's answer and its arguments.
CALLS = {
    "sendai_neighbour": (Place, [c_size_t, c_size_t, c_size_t, c_uint8]),
    "sendai_board_make": (BoardAnswer, [c_size_t, c_size_t]),
    "sendai_board_check": (c_uint8, [Board]),
    "sendai_board_decide_in_place": (c_uint8, LENT + [c_size_t, c_bool]),
    "sendai_board_stroke_in_place": (c_uint8, LENT + SLICE),
    "sendai_board_undo_in_place": (c_uint8, LENT),
    "sendai_board_ask_in_place": (Answer, LENT + SLICE),
    "sendai_groups": (Grouping, [Board, c_bool] + SLICE),
    "sendai_path": (Answer, [Board, c_size_t, c_size_t] + SLICE),
    "sendai_unit_boundary": (Answer, [Board, c_size_t] + SLICE),
    "sendai_potential_unit_boundary": (Answer, [Board, c_size_t] + SLICE),
    "sendai_puzzle_make": (PuzzleAnswer, [c_size_t, c_size_t] + SLICE + SLICE),
    "sendai_puzzle_make_images": (PuzzleAnswer, [c_size_t, c_size_t] + SLICE + SLICE),
    "sendai_puzzle_check": (c_uint8, [Puzzle]),
    "sendai_puzzle_decide_in_place": (c_uint8, LENT + [c_size_t, c_bool]),
    "sendai_puzzle_stroke_in_place": (c_uint8, LENT + SLICE),
    "sendai_puzzle_undo_in_place": (c_uint8, LENT),
    "sendai_puzzle_ask_in_place": (Outcome, LENT + SLICE),
    "sendai_puzzle_right_boards": (Boards, [Puzzle, c_size_t] + SLICE),
    "sendai_room_make": (RoomAnswer, [c_size_t] + SLICE + SLICE + [c_uint32]),
    "sendai_room_check": (c_uint8, [Room]),
    "sendai_room_decide": (RoomAnswer, [Room, c_size_t, c_bool]),
    "sendai_room_stroke": (RoomAnswer, [Room] + SLICE),
    "sendai_room_undo": (RoomAnswer, [Room]),
    "sendai_room_ask": (Answer, [Room] + SLICE),
    "sendai_union_new": (UnionMade, [c_size_t]),
    "sendai_union_find": (Found, [Union, c_size_t]),
    "sendai_union_unite": (United, [Union, c_size_t, c_size_t]),
    "sendai_hand_over": (Answer, SLICE + SLICE),
    "sendai_case_generate": (Answer, [c_uint32, c_size_t, c_size_t, c_size_t] + SLICE),
    "sendai_case_open": (Case, SLICE),
    "sendai_case_run": (Ran, SLICE + [c_size_t, c_size_t, Puzzle] + SLICE),
}

# A call that the archive may not have yet: 10000 * major + 100 * minor + patch.
VERSION = "sendai_version"
