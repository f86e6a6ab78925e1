/* The Sendai border checker for C11 and C++11: the functions of target/staticlib/libexports.a, which `bindings/prove archive` writes.
 *
 * Every call answers on every input: numbers and records may be anything, and bad ones are refused by number (below). What the caller
 * owes is its pointers: each points to as many elements as the length behind it says, or to one record, and is never null, not even where
 * the length is 0; a buffer or record that a call writes overlaps no other argument. No call allocates, keeps a pointer or has state of its
 * own, so threads with buffers and records of their own need no lock. The most stack is listed in docs/PERFORMANCE.md.
 *
 * Cell (y, x) of a board of h by w has number y*w + x. The border between (y, x) and (y, x+1) has number y*(w-1) + x, the one between
 * (y, x) and (y+1, x) has h*(w-1) + y*w + x. A list has entries: 2*border + 1 for Wall, 2*border for Connected.
 *
 * A call that writes a list fills the first `length` places of the buffer and leaves the others. A refusal changes no buffer, returns
 * the record that came in, and has all other numbers 0; a refused making, into which no record came, returns a record of zeros.
 *
 * Decide, stroke, undo and ask of boards and puzzles come in two forms that answer alike: by value, and with `_in_place` behind the name on
 * a lent record. Of a lent record nothing is copied: it is changed where it is, by an ask only read, and a refusal leaves it as it was.
 */
#ifndef SENDAI_H
#define SENDAI_H

#include <assert.h>
#include <stdbool.h>
#include <stddef.h>
#include <stdint.h>

#ifdef __cplusplus
extern "C" {
#endif

/* The version that this header is of, as one number: 20100 for 2.1.0. */
#define SENDAI_VERSION_MAJOR 2
#define SENDAI_VERSION_MINOR 1
#define SENDAI_VERSION_PATCH 0
#define SENDAI_VERSION (SENDAI_VERSION_MAJOR * 10000 + SENDAI_VERSION_MINOR * 100 + SENDAI_VERSION_PATCH)

/* The version that the library is of, as one number: SENDAI_VERSION where header and library belong together. */
uint32_t sendai_version(void);

/* The questions put to each call, in this order, but 11 first, 13 after 1, 12 between 2 and 6, 14 between 3 and 4; the first no is the code
 * that refuses it. Each is put to a whole stroke before the next. */
enum {
    SENDAI_ACCEPTED = 0,
    SENDAI_SIZES = 1,           /* are the sizes within the limits, and two edge slices equally long? */
    SENDAI_RECORD = 2,          /* does the record hold together? */
    SENDAI_MISSING = 3,         /* does every border, cell, vertex or group named exist? */
    SENDAI_DECIDED = 4,         /* decide, stroke: is every border undecided? */
    SENDAI_EMPTY_LEDGER = 5,    /* undo: is the ledger non-empty? */
    SENDAI_SHORT_BUFFER = 6,    /* is the buffer long enough? each call below says what it wants */
    SENDAI_GIVEN_ORDER = 7,     /* do the given walls rise strictly? */
    SENDAI_CLUE_COUNT = 8,      /* are there as many clues as rooms? */
    SENDAI_CLUE_VALUE = 9,      /* is each clue 65535 or at most its room's cells? */
    SENDAI_NOT_JOINED = 10,     /* path: are the cells joined by Connected borders? */
    SENDAI_FILE = 11,           /* is the file sound? */
    SENDAI_MANY_UNDECIDED = 12, /* all answers: are at most 24 borders undecided? */
    SENDAI_ZERO_SEED = 13,      /* case file from a seed: is the seed not 0? */
    SENDAI_TWICE = 14           /* stroke: does no border stand twice in it, whatever the values? */
};

/* The limits, the most undecided borders for all answers, a length that any list of a board or of a puzzle of translates fits (9*h*w at
 * 32 by 32), one that any list of a puzzle of images fits (16*h*w), and the bytes of the longest case file. */
enum {
    SENDAI_MAX_SIDE = 32,
    SENDAI_MAX_CELLS = 1024,
    SENDAI_MAX_BORDERS = 1984,
    SENDAI_MAX_UNDECIDED = 24,
    SENDAI_MAX_LIST = 9216,
    SENDAI_MAX_LIST_IMAGES = 16384,
    SENDAI_MAX_FILE = 60003
};

/* A border's or edge's state. */
enum { SENDAI_UNDECIDED = 0, SENDAI_CONNECTED = 1, SENDAI_WALL = 2 };

/* No clue for a room. */
enum { SENDAI_NO_CLUE = 65535 };

/* Kinds of SendaiPuzzle: a unit's partner is its translate, or any of its eight images, turned and mirrored ones among them. */
enum { SENDAI_TRANSLATES = 0, SENDAI_IMAGES = 1 };

/* How many entries an ask of a puzzle of this kind and size wants: 16*h*w of images, 9*h*w of translates. */
#define SENDAI_ASK_ENTRIES(kind, height, width) ((size_t)((kind) == SENDAI_IMAGES ? 16 : 9) * (height) * (width))

/* Directions of sendai_neighbour; any other number is read as right. */
enum { SENDAI_UP = 0, SENDAI_DOWN = 1, SENDAI_LEFT = 2, SENDAI_RIGHT = 3 };

/* Kinds of SendaiFileCall. */
enum { SENDAI_CALL_UNDO = 0, SENDAI_CALL_CONNECTED = 1, SENDAI_CALL_WALL = 2, SENDAI_CALL_ASK = 3 };

/* Kinds of sendai_line; any other number is read as refused. */
enum {
    SENDAI_LINE_DECIDED = 0,
    SENDAI_LINE_UNDONE = 1,
    SENDAI_LINE_CLEAR = 2,
    SENDAI_LINE_SHAPE = 3,
    SENDAI_LINE_ROOM = 4,
    SENDAI_LINE_REFUSED = 5
};

/* The bytes that any call's line fits. */
enum { SENDAI_MAX_LINE = 55323 };

/* Kinds of SendaiOutcome. */
enum { SENDAI_CLEAR = 0, SENDAI_SHAPE_FAULT = 1, SENDAI_ROOM_FAULT = 2, SENDAI_REFUSED = 3 };

/* A layout other than the archive's is an error here, not at run time. */
#define SENDAI_LAYOUT(type, size, last, offset) \
    static_assert(sizeof(type) == (size) && offsetof(type, last) == (offset), "the layout of " #type)

/* ---- Records. Read them as you like; let the calls alone write them (a record that does not hold together is refused, 2). ---- */

/* A board: the states of its borders by number, and in the first `len` places of the ledger the names of the decided ones, in order, stroke
 * by stroke. A name is 2*border + 1 for the first border of a stroke and 2*border for the others; the first name is always odd. */
typedef struct SendaiBoard {
    size_t height;
    size_t width;
    uint8_t states[1984];
    uint16_t ledger[1984];
    size_t len;
} SendaiBoard;
SENDAI_LAYOUT(SendaiBoard, 5976, len, 5968);
SENDAI_LAYOUT(SendaiBoard, 5976, states, 16);
SENDAI_LAYOUT(SendaiBoard, 5976, ledger, 2000);

/* A board, its given walls (Wall from the start, never undone), a clue for each room, and the puzzle's kind, SENDAI_TRANSLATES or
 * SENDAI_IMAGES: a record with another number there does not hold together. The bytes behind it mean nothing. */
typedef struct SendaiPuzzle {
    SendaiBoard board;
    uint16_t given[1984];
    size_t given_len;
    uint16_t clues[1024];
    size_t clues_len;
    uint8_t kind;
} SendaiPuzzle;
SENDAI_LAYOUT(SendaiPuzzle, 12016, kind, 12008);
SENDAI_LAYOUT(SendaiPuzzle, 12016, given, 5976);
SENDAI_LAYOUT(SendaiPuzzle, 12016, given_len, 9944);
SENDAI_LAYOUT(SendaiPuzzle, 12016, clues, 9952);
SENDAI_LAYOUT(SendaiPuzzle, 12016, clues_len, 12000);

/* An edge between two vertices. */
typedef struct SendaiEdge {
    uint16_t u;
    uint16_t v;
} SendaiEdge;
SENDAI_LAYOUT(SendaiEdge, 4, v, 2);

/* The states of a room graph's edges by number, and in the first `len` places of the ledger the names of the decided ones, as a board's. */
typedef struct SendaiBook {
    uint8_t states[1984];
    uint16_t ledger[1984];
    size_t len;
} SendaiBook;
SENDAI_LAYOUT(SendaiBook, 5960, len, 5952);
SENDAI_LAYOUT(SendaiBook, 5960, ledger, 1984);

/* A room graph: edge i joins us[i] and vs[i]. */
typedef struct SendaiRoom {
    size_t vertices;
    size_t edges;
    uint16_t us[1984];
    uint16_t vs[1984];
    uint32_t count;
    SendaiBook book;
} SendaiRoom;
SENDAI_LAYOUT(SendaiRoom, 13920, us, 16);
SENDAI_LAYOUT(SendaiRoom, 13920, vs, 3984);
SENDAI_LAYOUT(SendaiRoom, 13920, count, 7952);
SENDAI_LAYOUT(SendaiRoom, 13920, book, 7960);

/* The groups of a board: each cell's group, and where each of the `count` groups starts in the buffer of cells. */
typedef struct SendaiGroupInfo {
    size_t height;
    size_t width;
    size_t count;
    uint16_t ids[1024];
    uint16_t starts[1024];
} SendaiGroupInfo;
SENDAI_LAYOUT(SendaiGroupInfo, 4120, starts, 2072);
SENDAI_LAYOUT(SendaiGroupInfo, 4120, ids, 24);

/* A union of `n` vertices, each with its parent. */
typedef struct SendaiUnion {
    uint16_t parent[1024];
    size_t n;
} SendaiUnion;
SENDAI_LAYOUT(SendaiUnion, 2056, n, 2048);

/* ---- Answers. A code is 0 where the call was accepted, else the refusal's number. ---- */

typedef struct SendaiBoardAnswer {
    uint8_t code;
    SendaiBoard board;
} SendaiBoardAnswer;
SENDAI_LAYOUT(SendaiBoardAnswer, 5984, board, 8);

typedef struct SendaiPuzzleAnswer {
    uint8_t code;
    SendaiPuzzle puzzle;
} SendaiPuzzleAnswer;
SENDAI_LAYOUT(SendaiPuzzleAnswer, 12024, puzzle, 8);

typedef struct SendaiRoomAnswer {
    uint8_t code;
    SendaiRoom room;
} SendaiRoomAnswer;
SENDAI_LAYOUT(SendaiRoomAnswer, 13928, room, 8);

typedef struct SendaiGrouping {
    uint8_t code;
    SendaiGroupInfo info;
} SendaiGrouping;
SENDAI_LAYOUT(SendaiGrouping, 4128, info, 8);

typedef struct SendaiUnionMade {
    uint8_t code;
    SendaiUnion parts;
} SendaiUnionMade;
SENDAI_LAYOUT(SendaiUnionMade, 2064, parts, 8);

typedef struct SendaiFound {
    uint8_t code;
    size_t root;
    SendaiUnion parts;
} SendaiFound;
SENDAI_LAYOUT(SendaiFound, 2072, parts, 16);
SENDAI_LAYOUT(SendaiFound, 2072, root, 8);

typedef struct SendaiUnited {
    uint8_t code;
    bool united;
    SendaiUnion parts;
} SendaiUnited;
SENDAI_LAYOUT(SendaiUnited, 2064, parts, 8);
SENDAI_LAYOUT(SendaiUnited, 2064, united, 1);

/* A neighbour and the border before it, or `ends` where the board ends there. */
typedef struct SendaiPlace {
    uint8_t code;
    bool ends;
    size_t cell;
    size_t border;
} SendaiPlace;
SENDAI_LAYOUT(SendaiPlace, 24, border, 16);
SENDAI_LAYOUT(SendaiPlace, 24, ends, 1);
SENDAI_LAYOUT(SendaiPlace, 24, cell, 8);

/* A list of this length in the buffer; of an ask: clear, or a fault with such a list. */
typedef struct SendaiAnswer {
    uint8_t code;
    bool fault;
    size_t length;
} SendaiAnswer;
SENDAI_LAYOUT(SendaiAnswer, 16, length, 8);
SENDAI_LAYOUT(SendaiAnswer, 16, fault, 1);

/* What a puzzle's ask answered: its kind; of a refusal the code, of a room's fault the room, of a fault the list's length. */
typedef struct SendaiOutcome {
    uint8_t kind;
    uint8_t code;
    size_t room;
    size_t length;
} SendaiOutcome;
SENDAI_LAYOUT(SendaiOutcome, 24, length, 16);
SENDAI_LAYOUT(SendaiOutcome, 24, code, 1);
SENDAI_LAYOUT(SendaiOutcome, 24, room, 8);

/* How many right boards stand in the buffer, and whether more exist beyond them. */
typedef struct SendaiBoards {
    uint8_t code;
    bool more;
    size_t count;
} SendaiBoards;
SENDAI_LAYOUT(SendaiBoards, 16, count, 8);
SENDAI_LAYOUT(SendaiBoards, 16, more, 1);

/* A case file's puzzle, the first call's byte, and how many calls there are; or zeros, and the number that refuses the file (11) or its
 * puzzle. */
typedef struct SendaiCase {
    uint8_t code;
    SendaiPuzzle puzzle;
    size_t at;
    size_t count;
} SendaiCase;
SENDAI_LAYOUT(SendaiCase, 12040, count, 12032);
SENDAI_LAYOUT(SendaiCase, 12040, puzzle, 8);
SENDAI_LAYOUT(SendaiCase, 12040, at, 12024);

/* What calls of a case file left: the puzzle, the byte behind the last call, how many were done, and how many bytes their lines have. */
typedef struct SendaiRan {
    uint8_t code;
    SendaiPuzzle puzzle;
    size_t at;
    size_t done;
    size_t length;
} SendaiRan;
SENDAI_LAYOUT(SendaiRan, 12048, length, 12040);
SENDAI_LAYOUT(SendaiRan, 12048, puzzle, 8);
SENDAI_LAYOUT(SendaiRan, 12048, at, 12024);
SENDAI_LAYOUT(SendaiRan, 12048, done, 12032);

/* Where a sound file's parts stand: of each list the first byte, behind its count, and how many items it has. */
typedef struct SendaiFileParts {
    uint8_t code;
    size_t height;
    size_t width;
    size_t walls_at;
    size_t walls_count;
    size_t clues_at;
    size_t clues_count;
    size_t calls_at;
    size_t calls_count;
} SendaiFileParts;
SENDAI_LAYOUT(SendaiFileParts, 72, calls_count, 64);
SENDAI_LAYOUT(SendaiFileParts, 72, height, 8);
SENDAI_LAYOUT(SendaiFileParts, 72, walls_at, 24);
SENDAI_LAYOUT(SendaiFileParts, 72, clues_at, 40);

/* A call of a file: its kind, a decide's border, and the byte behind the call. */
typedef struct SendaiFileCall {
    uint8_t code;
    uint8_t kind;
    size_t border;
    size_t behind;
} SendaiFileCall;
SENDAI_LAYOUT(SendaiFileCall, 24, behind, 16);
SENDAI_LAYOUT(SendaiFileCall, 24, kind, 1);
SENDAI_LAYOUT(SendaiFileCall, 24, border, 8);

/* ---- Cells and borders ---- */

/* What lies beyond a cell. Refused: 1, 3. */
SendaiPlace sendai_neighbour(size_t height, size_t width, size_t cell, uint8_t direction);

/* ---- Boards ---- */

/* A fresh board, all borders undecided. Refused: 1 (each side 1 to 32). */
SendaiBoardAnswer sendai_board_make(size_t height, size_t width);

/* 0 where the record holds together, else 1 or 2. */
uint8_t sendai_board_check(SendaiBoard board);

/* The board with the border decided as Wall or Connected: a stroke of one. Refused: 1, 2, 3, 4, with the board as it came. */
SendaiBoardAnswer sendai_board_decide(SendaiBoard board, size_t border, bool wall);

/* The board with the borders of all entries decided, as one stroke. An empty stroke is accepted and not kept: the board stays as it was, and
 * an undo takes the stroke before it back. Refused: 1, 2, 3, 14, 4, with the board as it came and nothing decided. */
SendaiBoardAnswer sendai_board_stroke(SendaiBoard board, const uint16_t *entries, size_t entries_length);

/* The board without its last stroke, all of it: the very board from before, if calls made it. Refused: 1, 2, 5, with the board as it came. */
SendaiBoardAnswer sendai_board_undo(SendaiBoard board);

/* As the three calls above, on a lent board, which is changed where it is; returned is the code. Refused likewise: 1, 2, 3, 4; 1, 2, 3, 14, 4;
 * 1, 2, 5, with the board as it was, every byte of it. */
uint8_t sendai_board_decide_in_place(SendaiBoard *board, size_t border, bool wall);
uint8_t sendai_board_stroke_in_place(SendaiBoard *board, const uint16_t *entries, size_t entries_length);
uint8_t sendai_board_undo_in_place(SendaiBoard *board);

/* The shape check, for translates: clear, or a fault whose listed borders can't all hold. Refused: 1, 2, 6 (9*h*w entries). */
SendaiAnswer sendai_board_ask(SendaiBoard board, uint16_t *buffer, size_t buffer_length);

/* The same of a lent board, which is only read. Refused: 1, 2, 6 (9*h*w entries). */
SendaiAnswer sendai_board_ask_in_place(const SendaiBoard *board, uint16_t *buffer, size_t buffer_length);

/* Each cell's group and each group's start; the cells of all groups, in turn, go to the buffer's first h*w places. Units are joined by
 * Connected borders, potential units also by undecided ones. Refused: 1, 2, 6 (h*w cells), with a record of zeros. */
SendaiGrouping sendai_groups(SendaiBoard board, bool is_potential, uint16_t *buffer, size_t buffer_length);

/* How many cells a group has; they are copied from the buffer that sendai_groups filled to the front of `out` (h*w places hold any
 * group). 0, and nothing is copied, where the record, the buffer's length or the number is bad, or `out` has fewer places. */
size_t sendai_group(SendaiGroupInfo info, const uint16_t *buffer, size_t buffer_length, size_t group, uint16_t *out, size_t out_length);

/* The list of the Connected borders that lead from target back to start, as a first-in first-out search from start finds them.
 * Refused: 1, 2, 3, 6 (9*h*w entries), 10. */
SendaiAnswer sendai_path(SendaiBoard board, size_t start, size_t target, uint16_t *buffer, size_t buffer_length);

/* The list of a unit's Connected borders and its Walls, by the unit's number as sendai_groups numbers it. Refused: 1, 2, 3, 6 (9*h*w entries). */
SendaiAnswer sendai_unit_boundary(SendaiBoard board, size_t unit, uint16_t *buffer, size_t buffer_length);

/* The list of a potential unit's Walls to other potential units. Refused: 1, 2, 3, 6 (9*h*w entries). */
SendaiAnswer sendai_potential_unit_boundary(SendaiBoard board, size_t unit, uint16_t *buffer, size_t buffer_length);

/* ---- Puzzles ---- */

/* A fresh puzzle of translates: the given walls' numbers, rising, and a clue for each room (SENDAI_NO_CLUE for none). Rooms are the parts
 * into which the given walls cut the board, numbered by first cell. Refused: 1, 3, 7, 8, 9. */
SendaiPuzzleAnswer sendai_puzzle_make(size_t height, size_t width, const uint16_t *given, size_t given_length, const uint16_t *clues,
                                      size_t clues_length);

/* The same, of images. Refused: 1, 3, 7, 8, 9. */
SendaiPuzzleAnswer sendai_puzzle_make_images(size_t height, size_t width, const uint16_t *given, size_t given_length, const uint16_t *clues,
                                             size_t clues_length);

/* 0 where the record holds together, else 1 or 2. */
uint8_t sendai_puzzle_check(SendaiPuzzle puzzle);

/* The puzzle with the border decided as Wall or Connected: a stroke of one. Refused: 1, 2, 3, 4 (a given wall too), with the puzzle as it
 * came. */
SendaiPuzzleAnswer sendai_puzzle_decide(SendaiPuzzle puzzle, size_t border, bool wall);

/* The puzzle with the borders of all entries decided, as one stroke; an empty one is accepted and not kept. Refused: 1, 2, 3, 14, 4 (a given
 * wall too), with the puzzle as it came and nothing decided. */
SendaiPuzzleAnswer sendai_puzzle_stroke(SendaiPuzzle puzzle, const uint16_t *entries, size_t entries_length);

/* The puzzle without its last stroke, all of it. Refused: 1, 2, 5, with the puzzle as it came. */
SendaiPuzzleAnswer sendai_puzzle_undo(SendaiPuzzle puzzle);

/* As the three calls above, on a lent puzzle, which is changed where it is; returned is the code. Refused likewise: 1, 2, 3, 4; 1, 2, 3, 14, 4
 * (a given wall too); 1, 2, 5, with the puzzle as it was, every number of it. */
uint8_t sendai_puzzle_decide_in_place(SendaiPuzzle *puzzle, size_t border, bool wall);
uint8_t sendai_puzzle_stroke_in_place(SendaiPuzzle *puzzle, const uint16_t *entries, size_t entries_length);
uint8_t sendai_puzzle_undo_in_place(SendaiPuzzle *puzzle);

/* The shape check, for the images of the puzzle's kind, then the counts of the clued rooms: clear, or the first fault, whose listed borders
 * can't all hold. Refused (kind SENDAI_REFUSED): 1, 2, 6 (SENDAI_ASK_ENTRIES of kind, height and width). */
SendaiOutcome sendai_puzzle_ask(SendaiPuzzle puzzle, uint16_t *buffer, size_t buffer_length);

/* The same of a lent puzzle, which is only read. Refused (kind SENDAI_REFUSED): 1, 2, 6 (SENDAI_ASK_ENTRIES of kind, height and width). */
SendaiOutcome sendai_puzzle_ask_in_place(const SendaiPuzzle *puzzle, uint16_t *buffer, size_t buffer_length);

/* All answers: the full boards, right for the puzzle's kind, on which all that is decided stands, at most `cap` of them, each once, and
 * whether more exist beyond these: a cap of 0 tells whether there is one, a cap of 1 whether there is just one. A board has a byte a border
 * (SENDAI_CONNECTED or SENDAI_WALL); they stand one behind the other from the buffer's front, rising, border 0 compared first, and the
 * bytes behind them stay. Refused: 1, 2, 12, 6 (cap times borders bytes). */
SendaiBoards sendai_puzzle_right_boards(SendaiPuzzle puzzle, size_t cap, uint8_t *buffer, size_t buffer_length);

/* ---- Room graphs ---- */

/* A fresh room graph: edge i joins us[i] and vs[i]; `count` parts are wanted. Refused: 1 (1,024 vertices, 1,984 edges, slices equally
 * long), 3. */
SendaiRoomAnswer sendai_room_make(size_t vertices, const uint16_t *us, size_t us_length, const uint16_t *vs, size_t vs_length,
                                  uint32_t count);

/* The same graph from edge records. Refused: 1, 3. */
SendaiRoomAnswer sendai_room_make_of_edges(size_t vertices, const SendaiEdge *edges, size_t edges_length, uint32_t count);

/* 0 where the record holds together, else 1 or 2. */
uint8_t sendai_room_check(SendaiRoom room);

/* The graph with the edge decided as Wall or Connected: a stroke of one. Refused: 1, 2, 3, 4, with the graph as it came. */
SendaiRoomAnswer sendai_room_decide(SendaiRoom room, size_t edge, bool wall);

/* The graph with the edges of all entries decided, as one stroke; an empty one is accepted and not kept. Refused: 1, 2, 3, 14, 4, with the
 * graph as it came and nothing decided. */
SendaiRoomAnswer sendai_room_stroke(SendaiRoom room, const uint16_t *entries, size_t entries_length);

/* The graph without its last stroke, all of it. Refused: 1, 2, 5, with the graph as it came. */
SendaiRoomAnswer sendai_room_undo(SendaiRoom room);

/* The room count: clear, or a fault whose listed edges can't all hold. An empty list says that no states of the edges meet the count, as
 * whenever it is above the vertices. Refused: 1, 2, 6 (as many entries as edges). */
SendaiAnswer sendai_room_ask(SendaiRoom room, uint16_t *buffer, size_t buffer_length);

/* ---- Unions ---- */

/* A union of n vertices, each its own part. Refused: 1 (at most 1,024). */
SendaiUnionMade sendai_union_new(size_t n);

/* The root of x's part; each vertex on the way names it afterwards. Refused: 1, 2, 3, with the union as it came. */
SendaiFound sendai_union_find(SendaiUnion parts, size_t x);

/* Whether two parts became one: x's root is hung under y's. Refused: 1, 2, 3, with the union as it came. */
SendaiUnited sendai_union_unite(SendaiUnion parts, size_t x, size_t y);

/* ---- Hand-over ---- */

/* The entries, rising, each once: what a clause learner reads. Refused: 6 (as many entries as the input has). */
SendaiAnswer sendai_hand_over(const uint16_t *entries, size_t entries_length, uint16_t *buffer, size_t buffer_length);

/* ---- Case files, in the format of the README ---- */

/* Writes the case file that a seed makes, the same each time: no given walls, one room without a clue, `count` calls. For each call a 32-bit
 * state, at first the seed, is replaced by its xor with itself shifted left 13, that by the same with right 17, that with left 5; modulo 4
 * it is the kind. For a decide it is replaced again; modulo the number of borders it is the border. Without borders an ask takes a decide's
 * place, and nothing is replaced again. The file has `length` bytes, those behind it stay; sendai_case_open accepts it, and every border
 * in it exists. Refused: 1 (each side 1 to 32), 13, 6 (as many places as the file has bytes, and it may have at most SENDAI_MAX_FILE). */
SendaiAnswer sendai_case_generate(uint32_t seed, size_t height, size_t width, size_t count, uint8_t *buffer, size_t buffer_length);

/* A case file's puzzle, of translates, and where its calls stand. Refused: 11, or as sendai_puzzle_make refuses the file's puzzle. */
SendaiCase sendai_case_open(const uint8_t *file, size_t file_length);

/* Does `count` calls that stand in the file from a byte on, up to the first that is unsound, and writes a line for each to the front of
 * `out`. Each ask has places of its own, enough for the puzzle's kind. Refused: 6 (SENDAI_MAX_LINE places for each call), with the puzzle and the
 * byte as they came. */
SendaiRan sendai_case_run(const uint8_t *file, size_t file_length, size_t at, size_t count, SendaiPuzzle puzzle, uint8_t *out,
                          size_t out_length);

/* Where the parts of a file stand. Refused: 11. */
SendaiFileParts sendai_file_decode(const uint8_t *file, size_t file_length);

/* The call at a byte. Refused: 11, where no sound call stands there. */
SendaiFileCall sendai_file_call(const uint8_t *file, size_t file_length, size_t at);

/* The k-th number, counted from 0, of the list that has `count` numbers from a byte on; 0 where there is none. */
size_t sendai_file_number(const uint8_t *file, size_t file_length, size_t at, size_t count, size_t k);

/* The numbers of such a list, as far as the file goes. Refused: 6 (as many places as there are numbers). */
SendaiAnswer sendai_file_numbers(const uint8_t *file, size_t file_length, size_t at, size_t count, uint16_t *buffer, size_t buffer_length);

/* A line as the program prints it: by its kind, with the room's or refusal's number and a fault's entries; `length` is how many bytes it
 * has. Refused: 6 (27 places and 6 for each entry). */
SendaiAnswer sendai_line(uint8_t kind, size_t number, const uint16_t *entries, size_t entries_length, uint8_t *buffer, size_t buffer_length);

#undef SENDAI_LAYOUT

#ifdef __cplusplus
}
#endif

#endif
