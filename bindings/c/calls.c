/* Every call of sendai.h once or twice, with arguments that tell their places apart: the header declares the calls as they are. */
#include "sendai.h"

#include <stdio.h>
#include <string.h>

static int failed = 0;

#define CHECK(truth) \
    do { \
        if (!(truth)) { \
            printf("line %d: not so: %s\n", __LINE__, #truth); \
            failed = 1; \
        } \
    } while (0)

static uint16_t list[SENDAI_MAX_LIST_IMAGES];

/* Whether the list's front is these entries. */
static bool is(size_t length, const uint16_t *entries, size_t count) {
    return length == count && memcmp(list, entries, count * sizeof *entries) == 0;
}

static void places(void) {
    SendaiPlace down = sendai_neighbour(2, 3, 1, SENDAI_DOWN);
    CHECK(down.code == SENDAI_ACCEPTED && !down.ends && down.cell == 4 && down.border == 5);
    CHECK(sendai_neighbour(2, 3, 2, SENDAI_RIGHT).ends);
    CHECK(sendai_neighbour(2, 3, 6, SENDAI_UP).code == SENDAI_MISSING);
}

static void boards(void) {
    SendaiBoard board = sendai_board_make(1, 3).board;
    CHECK(board.height == 1 && board.width == 3);
    CHECK(sendai_board_make(33, 1).code == SENDAI_SIZES);
    SendaiBoardAnswer decided = sendai_board_decide(board, 0, true);
    CHECK(decided.code == SENDAI_ACCEPTED && decided.board.states[0] == SENDAI_WALL && decided.board.len == 1);
    SendaiBoardAnswer undone = sendai_board_undo(decided.board);
    CHECK(undone.code == SENDAI_ACCEPTED && memcmp(&undone.board, &board, sizeof board) == 0);
    CHECK(sendai_board_undo(board).code == SENDAI_EMPTY_LEDGER);

    CHECK(sendai_board_decide_in_place(&board, 0, true) == SENDAI_ACCEPTED);
    CHECK(memcmp(&decided.board, &board, sizeof board) == 0);
    CHECK(sendai_board_decide_in_place(&board, 0, false) == SENDAI_DECIDED);
    CHECK(sendai_board_decide_in_place(&board, 2, true) == SENDAI_MISSING);
    CHECK(memcmp(&decided.board, &board, sizeof board) == 0);
    CHECK(sendai_board_undo_in_place(&board) == SENDAI_ACCEPTED && board.len == 0);
    CHECK(sendai_board_undo_in_place(&board) == SENDAI_EMPTY_LEDGER);
    CHECK(memcmp(&undone.board, &board, sizeof board) == 0);
    CHECK(sendai_board_check(board) == SENDAI_ACCEPTED);
    board.states[1] = SENDAI_CONNECTED;
    CHECK(sendai_board_check(board) == SENDAI_RECORD);
}

static void lists(void) {
    const uint16_t fault[] = {2, 2, 1, 1, 1}, path[] = {2}, unit[] = {2, 1}, potential[] = {1};
    SendaiBoard board = sendai_board_make(1, 3).board;
    sendai_board_decide_in_place(&board, 0, true);
    sendai_board_decide_in_place(&board, 1, false);
    SendaiAnswer verdict = sendai_board_ask(board, list, 27);
    CHECK(verdict.code == SENDAI_ACCEPTED && verdict.fault && is(verdict.length, fault, 5));
    CHECK(is(sendai_path(board, 2, 1, list, 27).length, path, 1));
    CHECK(sendai_path(board, 0, 1, list, 27).code == SENDAI_NOT_JOINED);
    CHECK(is(sendai_unit_boundary(board, 1, list, 27).length, unit, 2));
    CHECK(is(sendai_potential_unit_boundary(board, 0, list, 27).length, potential, 1));
    CHECK(sendai_potential_unit_boundary(board, 2, list, 27).code == SENDAI_MISSING);
    CHECK(sendai_unit_boundary(board, 0, list, 26).code == SENDAI_SHORT_BUFFER);

    uint16_t out[3] = {9, 9, 9};
    SendaiGrouping units = sendai_groups(board, false, list, 3);
    CHECK(units.code == SENDAI_ACCEPTED && units.info.count == 2 && units.info.ids[2] == 1 && units.info.starts[1] == 1);
    CHECK(sendai_group(units.info, list, 3, 1, out, 3) == 2 && out[0] == 1 && out[1] == 2 && out[2] == 9);
    CHECK(sendai_group(units.info, list, 3, 2, out, 3) == 0);
    CHECK(sendai_group(units.info, list, 3, 1, out + 2, 1) == 0 && out[2] == 9);
}

/* A puzzle has bytes behind its kind that mean nothing. */
static bool same_puzzle(SendaiPuzzle a, SendaiPuzzle b) {
    return memcmp(&a, &b, offsetof(SendaiPuzzle, kind)) == 0 && a.kind == b.kind;
}

static void puzzles(void) {
    const uint16_t given[] = {1}, clues[] = {1, SENDAI_NO_CLUE}, fault[] = {1};
    SendaiPuzzleAnswer made = sendai_puzzle_make(1, 4, given, 1, clues, 2);
    CHECK(made.code == SENDAI_ACCEPTED && made.puzzle.given_len == 1 && made.puzzle.clues[0] == 1 && made.puzzle.kind == SENDAI_TRANSLATES);
    CHECK(sendai_puzzle_make(1, 4, given, 1, clues, 1).code == SENDAI_CLUE_COUNT);
    SendaiPuzzle puzzle = sendai_puzzle_decide(made.puzzle, 0, true).puzzle;
    SendaiOutcome outcome = sendai_puzzle_ask(puzzle, list, 36);
    CHECK(outcome.kind == SENDAI_ROOM_FAULT && outcome.room == 0 && is(outcome.length, fault, 1));
    SendaiPuzzleAnswer undone = sendai_puzzle_undo(puzzle);
    CHECK(undone.code == SENDAI_ACCEPTED && same_puzzle(made.puzzle, undone.puzzle));
    outcome = sendai_puzzle_ask(puzzle, list, 35);
    CHECK(outcome.kind == SENDAI_REFUSED && outcome.code == SENDAI_SHORT_BUFFER);
    puzzle.given[0] = 3;
    CHECK(sendai_puzzle_check(puzzle) == SENDAI_RECORD);
}

/* Some more bytes than the longest file has: those behind a lent buffer stand here too. */
static uint8_t bytes[SENDAI_MAX_FILE + 8];

/* What each byte holds before a call. */
enum { UNTOUCHED = 0x55 };

static SendaiBoards right_boards(SendaiPuzzle puzzle, size_t cap, size_t length) {
    memset(bytes, UNTOUCHED, sizeof bytes);
    return sendai_puzzle_right_boards(puzzle, cap, bytes, length);
}

/* Whether all bytes are untouched from a place on. */
static bool untouched(size_t place) {
    while (place < sizeof bytes && bytes[place] == UNTOUCHED) place++;
    return place == sizeof bytes;
}

/* Whether the bytes are these boards, written as digits, and untouched behind them. */
static bool stand(const char *boards) {
    size_t count = strlen(boards);
    for (size_t i = 0; i < count; i++)
        if (bytes[i] != boards[i] - '0') return false;
    return untouched(count);
}

/* Whether these are the answers up to a cap, with a buffer of just the length that is wanted. */
static bool answers(SendaiPuzzle puzzle, size_t cap, size_t borders, size_t count, const char *boards, bool more) {
    SendaiBoards told = right_boards(puzzle, cap, cap * borders);
    return told.code == SENDAI_ACCEPTED && told.count == count && told.more == more && stand(boards);
}

/* Whether a call is refused by this number, with no byte changed. */
static bool refuses(SendaiPuzzle puzzle, size_t cap, size_t length, int code) {
    SendaiBoards told = right_boards(puzzle, cap, length);
    return told.code == code && told.count == 0 && !told.more && stand("");
}

/* A puzzle of one room without given walls and clue. */
static SendaiPuzzle plain(size_t height, size_t width) {
    const uint16_t nothing[] = {0}, clues[] = {SENDAI_NO_CLUE};
    return sendai_puzzle_make(height, width, nothing, 0, clues, 1).puzzle;
}

/* The same, of images. */
static SendaiPuzzle plain_images(size_t height, size_t width) {
    const uint16_t nothing[] = {0}, clues[] = {SENDAI_NO_CLUE};
    return sendai_puzzle_make_images(height, width, nothing, 0, clues, 1).puzzle;
}

static void all_answers(void) {
    const uint16_t given[] = {1}, clues[] = {1, SENDAI_NO_CLUE};
    const size_t huge = (size_t)1 << 63;
    SendaiPuzzle one_by_two = plain(1, 2), one_by_four = plain(1, 4), two_by_two = plain(2, 2), many = plain(4, 5);
    CHECK(answers(one_by_two, 0, 1, 0, "", true));
    CHECK(answers(one_by_two, 1, 1, 1, "2", false));
    CHECK(answers(one_by_four, 1, 3, 1, "121", true));
    CHECK(answers(one_by_four, 2, 3, 2, "121222", false));
    CHECK(answers(one_by_four, 5, 3, 2, "121222", false));
    CHECK(answers(two_by_two, 2, 4, 2, "11222211", true));
    CHECK(answers(two_by_two, 3, 4, 3, "112222112222", false));
    CHECK(answers(plain(1, 1), 0, 0, 0, "", false));
    CHECK(answers(plain(1, 1), huge, 0, 0, "", false));

    /* what stands is kept, a fault that stands leaves no answer, and given walls and clues count */
    CHECK(answers(sendai_puzzle_decide(two_by_two, 3, true).puzzle, 4, 4, 2, "11222222", false));
    CHECK(answers(sendai_puzzle_decide(one_by_two, 0, false).puzzle, 1, 1, 0, "", false));
    CHECK(answers(sendai_puzzle_make(1, 4, given, 1, clues, 2).puzzle, 4, 3, 1, "121", false));

    /* 24 undecided borders are few enough, 25 are not; the questions in their order */
    CHECK(answers(plain(1, 25), 0, 24, 0, "", true));
    CHECK(refuses(plain(1, 26), 0, 0, SENDAI_MANY_UNDECIDED));
    CHECK(answers(sendai_puzzle_decide(plain(1, 26), 0, true).puzzle, 0, 25, 0, "", true));
    CHECK(refuses(one_by_four, 2, 5, SENDAI_SHORT_BUFFER));
    CHECK(refuses(plain(1, 3), huge, 0, SENDAI_SHORT_BUFFER));
    CHECK(refuses(many, 1, 0, SENDAI_MANY_UNDECIDED));
    many.board.states[0] = SENDAI_WALL;
    CHECK(refuses(many, 1, 0, SENDAI_RECORD));
    many.board.width = 33;
    CHECK(refuses(many, 1, 0, SENDAI_SIZES));
}

/* A stroke's entries, each written as a digit. */
typedef struct {
    uint16_t entries[8];
    size_t length;
} Stroke;

static Stroke drawn(const char *digits) {
    Stroke stroke = {{0}, strlen(digits)};
    for (size_t i = 0; i < stroke.length; i++) stroke.entries[i] = (uint16_t)(digits[i] - '0');
    return stroke;
}

static bool same_board(SendaiBoard a, SendaiBoard b) {
    return memcmp(&a, &b, sizeof a) == 0;
}

/* A room has bytes between its numbers that mean nothing. */
static bool same_room(SendaiRoom a, SendaiRoom b) {
    return a.vertices == b.vertices && a.edges == b.edges && a.count == b.count && memcmp(a.us, b.us, sizeof a.us) == 0 &&
           memcmp(a.vs, b.vs, sizeof a.vs) == 0 && memcmp(&a.book, &b.book, sizeof a.book) == 0;
}

/* Whether a board answers a stroke by this code, by value and in place. Refused or empty, it leaves the very board; else an undo does. */
static bool on_board(SendaiBoard board, const char *digits, int code) {
    Stroke stroke = drawn(digits);
    SendaiBoardAnswer told = sendai_board_stroke(board, stroke.entries, stroke.length);
    SendaiBoard lent = board;
    if (sendai_board_stroke_in_place(&lent, stroke.entries, stroke.length) != code || !same_board(lent, told.board)) return false;
    if (told.code != code) return false;
    if (code != SENDAI_ACCEPTED || stroke.length == 0) return same_board(told.board, board);
    return told.board.len == board.len + stroke.length && sendai_board_undo_in_place(&lent) == SENDAI_ACCEPTED &&
           same_board(lent, board) && same_board(sendai_board_undo(told.board).board, board);
}

static bool on_puzzle(SendaiPuzzle puzzle, const char *digits, int code) {
    Stroke stroke = drawn(digits);
    SendaiPuzzleAnswer told = sendai_puzzle_stroke(puzzle, stroke.entries, stroke.length);
    SendaiPuzzle lent = puzzle;
    if (sendai_puzzle_stroke_in_place(&lent, stroke.entries, stroke.length) != code || !same_puzzle(lent, told.puzzle)) return false;
    if (told.code != code) return false;
    if (code != SENDAI_ACCEPTED || stroke.length == 0) return same_puzzle(told.puzzle, puzzle);
    return told.puzzle.board.len == puzzle.board.len + stroke.length && sendai_puzzle_undo_in_place(&lent) == SENDAI_ACCEPTED &&
           same_puzzle(lent, puzzle) && same_puzzle(sendai_puzzle_undo(told.puzzle).puzzle, puzzle);
}

static bool on_room(SendaiRoom room, const char *digits, int code) {
    Stroke stroke = drawn(digits);
    SendaiRoomAnswer told = sendai_room_stroke(room, stroke.entries, stroke.length);
    if (told.code != code) return false;
    if (code == SENDAI_ACCEPTED && stroke.length != 0) {
        if (told.room.book.len != room.book.len + stroke.length) return false;
        told = sendai_room_undo(told.room);
    }
    return same_room(told.room, room);
}

/* The record that a stroke leaves: the first name of a stroke is odd, and an undo takes the whole stroke. */
static void strokes(void) {
    const uint16_t ledger[] = {5, 3, 0, 0};
    Stroke two = drawn("21");
    SendaiBoard fresh = sendai_board_make(1, 4).board;
    SendaiBoard one = sendai_board_decide(fresh, 2, true).board;
    SendaiBoard board = sendai_board_stroke(one, two.entries, two.length).board;
    CHECK(board.len == 3 && memcmp(board.ledger, ledger, sizeof ledger) == 0);
    CHECK(board.states[0] == SENDAI_WALL && board.states[1] == SENDAI_CONNECTED && board.states[2] == SENDAI_WALL);
    CHECK(sendai_board_check(board) == SENDAI_ACCEPTED);
    CHECK(same_board(sendai_board_undo(board).board, one));
    CHECK(same_board(sendai_board_undo(one).board, fresh));
    CHECK(on_board(one, "", SENDAI_ACCEPTED) && on_board(one, "0", SENDAI_ACCEPTED) && on_board(one, "310", SENDAI_TWICE));

    /* without the mark all three are one stroke, but the first name keeps its own */
    board.ledger[1] = 2;
    CHECK(sendai_board_check(board) == SENDAI_ACCEPTED && same_board(sendai_board_undo(board).board, fresh));
    board.ledger[0] = 4;
    CHECK(sendai_board_check(board) == SENDAI_RECORD && on_board(board, "", SENDAI_RECORD) && on_board(board, "88", SENDAI_RECORD));
    board.width = 0;
    CHECK(on_board(board, "", SENDAI_SIZES) && on_board(board, "88", SENDAI_SIZES));
}

/* Each question is put to the whole stroke before the next; an empty stroke is accepted and not kept. */
static void stroke_questions(void) {
    const uint16_t us[] = {0}, vs[] = {1}, given[] = {0}, clues[] = {SENDAI_NO_CLUE, SENDAI_NO_CLUE};
    SendaiBoard board = sendai_board_make(1, 2).board;
    SendaiPuzzle puzzle = plain(1, 2), walled = sendai_puzzle_make(1, 2, given, 1, clues, 2).puzzle;
    SendaiRoom room = sendai_room_make(2, us, 1, vs, 1, 1).room;
    const struct {
        const char *stroke;
        int fresh, drawn;
    } told[] = {{"", 0, 0}, {"0", 0, 4}, {"1", 0, 4}, {"2", 3, 3}, {"00", 14, 14}, {"01", 14, 14}, {"02", 3, 3}, {"002", 3, 3}, {"220", 3, 3}};
    SendaiBoard board_drawn = sendai_board_decide(board, 0, true).board;
    SendaiPuzzle puzzle_drawn = sendai_puzzle_decide(puzzle, 0, true).puzzle;
    SendaiRoom room_drawn = sendai_room_decide(room, 0, true).room;
    for (size_t i = 0; i < sizeof told / sizeof *told; i++) {
        CHECK(on_board(board, told[i].stroke, told[i].fresh) && on_board(board_drawn, told[i].stroke, told[i].drawn));
        CHECK(on_puzzle(puzzle, told[i].stroke, told[i].fresh) && on_puzzle(puzzle_drawn, told[i].stroke, told[i].drawn));
        CHECK(on_puzzle(walled, told[i].stroke, told[i].drawn));
        CHECK(on_room(room, told[i].stroke, told[i].fresh) && on_room(room_drawn, told[i].stroke, told[i].drawn));
    }
    Stroke none = drawn("");
    CHECK(same_board(sendai_board_undo(sendai_board_stroke(board_drawn, none.entries, 0).board).board, board));
    CHECK(sendai_board_undo(sendai_board_stroke(board, none.entries, 0).board).code == SENDAI_EMPTY_LEDGER);
    CHECK(sendai_puzzle_undo(sendai_puzzle_stroke(walled, none.entries, 0).puzzle).code == SENDAI_EMPTY_LEDGER);
    CHECK(sendai_room_undo(sendai_room_stroke(room, none.entries, 0).room).code == SENDAI_EMPTY_LEDGER);
}

/* The largest board in one stroke, and strokes that are longer than it has borders. */
static void long_strokes(void) {
    static uint16_t entries[SENDAI_MAX_BORDERS + 1];
    SendaiPuzzle fresh = plain(32, 32);
    for (size_t i = 0; i < SENDAI_MAX_BORDERS; i++) entries[i] = (uint16_t)(2 * (SENDAI_MAX_BORDERS - 1 - i) + i % 2);
    SendaiPuzzleAnswer all = sendai_puzzle_stroke(fresh, entries, SENDAI_MAX_BORDERS);
    CHECK(all.code == SENDAI_ACCEPTED && all.puzzle.board.len == SENDAI_MAX_BORDERS && sendai_puzzle_check(all.puzzle) == SENDAI_ACCEPTED);
    CHECK(all.puzzle.board.ledger[0] == 3967 && all.puzzle.board.ledger[1] == 3964 && all.puzzle.board.ledger[1983] == 0);
    CHECK(same_puzzle(sendai_puzzle_undo(all.puzzle).puzzle, fresh));
    SendaiPuzzle lent = fresh;
    CHECK(sendai_puzzle_stroke_in_place(&lent, entries, SENDAI_MAX_BORDERS) == SENDAI_ACCEPTED && same_puzzle(lent, all.puzzle));
    CHECK(sendai_puzzle_undo_in_place(&lent) == SENDAI_ACCEPTED && same_puzzle(lent, fresh));
    CHECK(sendai_puzzle_stroke_in_place(&lent, entries, SENDAI_MAX_BORDERS + 1) == SENDAI_TWICE && same_puzzle(lent, fresh));
    CHECK(sendai_puzzle_stroke(fresh, entries, SENDAI_MAX_BORDERS + 1).code == SENDAI_TWICE);
    entries[SENDAI_MAX_BORDERS] = 65535;
    CHECK(sendai_puzzle_stroke(fresh, entries, SENDAI_MAX_BORDERS + 1).code == SENDAI_MISSING);
    CHECK(sendai_board_stroke(fresh.board, entries, SENDAI_MAX_BORDERS + 1).code == SENDAI_MISSING);
}

/* Whether a puzzle answers a decide by this code, by value and in place. Refused, it is the very puzzle. */
static bool decides(SendaiPuzzle puzzle, size_t border, bool wall, int code) {
    SendaiPuzzleAnswer told = sendai_puzzle_decide(puzzle, border, wall);
    SendaiPuzzle lent = puzzle;
    return sendai_puzzle_decide_in_place(&lent, border, wall) == code && told.code == code && same_puzzle(lent, told.puzzle) &&
           same_puzzle(lent, puzzle) == (code != SENDAI_ACCEPTED);
}

/* The same of an undo. */
static bool undoes(SendaiPuzzle puzzle, int code) {
    SendaiPuzzleAnswer told = sendai_puzzle_undo(puzzle);
    SendaiPuzzle lent = puzzle;
    return sendai_puzzle_undo_in_place(&lent) == code && told.code == code && same_puzzle(lent, told.puzzle) &&
           same_puzzle(lent, puzzle) == (code != SENDAI_ACCEPTED);
}

/* What an ask by value writes, beside the list of one on a lent record. */
static uint16_t by_value[SENDAI_MAX_LIST_IMAGES];

static void mark_lists(void) {
    memset(list, UNTOUCHED, sizeof list);
    memset(by_value, UNTOUCHED, sizeof by_value);
}

/* Whether both lists are these entries, with all other places untouched. */
static bool both_are(size_t length, const uint16_t *entries, size_t count) {
    for (size_t i = count; i < SENDAI_MAX_LIST_IMAGES; i++)
        if (list[i] != UNTOUCHED * 257) return false;
    return is(length, entries, count) && memcmp(list, by_value, sizeof list) == 0;
}

/* Whether an ask of a board of one row finds this list, or none, by value and on the board where it is, which is only read. */
static bool asks_board(SendaiBoard board, const uint16_t *entries, size_t count) {
    SendaiBoard lent = board;
    mark_lists();
    SendaiAnswer told = sendai_board_ask(board, by_value, 9 * board.width), same = sendai_board_ask_in_place(&lent, list, 9 * board.width);
    return told.code == SENDAI_ACCEPTED && told.fault == (count != 0) && told.length == count && same.code == told.code &&
           same.fault == told.fault && both_are(same.length, entries, count) && same_board(lent, board);
}

/* Whether it is refused by this number, with the board and every place of the buffer as it was. */
static bool asks_no_board(SendaiBoard board, size_t length, int code) {
    SendaiBoard lent = board;
    mark_lists();
    SendaiAnswer told = sendai_board_ask(board, by_value, length), same = sendai_board_ask_in_place(&lent, list, length);
    return told.code == code && same.code == code && !same.fault && both_are(same.length, list, 0) && same_board(lent, board);
}

/* The same two of a puzzle: which check found this list, and which number refuses it. */
static bool asks_puzzle(SendaiPuzzle puzzle, int kind, size_t room, const uint16_t *entries, size_t count) {
    const size_t length = SENDAI_ASK_ENTRIES(puzzle.kind, puzzle.board.height, puzzle.board.width);
    SendaiPuzzle lent = puzzle;
    mark_lists();
    SendaiOutcome told = sendai_puzzle_ask(puzzle, by_value, length), same = sendai_puzzle_ask_in_place(&lent, list, length);
    return told.kind == kind && told.room == room && told.length == count && same.kind == kind && same.code == SENDAI_ACCEPTED &&
           same.room == room && both_are(same.length, entries, count) && same_puzzle(lent, puzzle);
}

static bool asks_no_puzzle(SendaiPuzzle puzzle, size_t length, int code) {
    SendaiPuzzle lent = puzzle;
    mark_lists();
    SendaiOutcome told = sendai_puzzle_ask(puzzle, by_value, length), same = sendai_puzzle_ask_in_place(&lent, list, length);
    return told.kind == SENDAI_REFUSED && told.code == code && same.kind == SENDAI_REFUSED && same.code == code && same.room == 0 &&
           both_are(same.length, list, 0) && same_puzzle(lent, puzzle);
}

/* Boards and puzzles of one row, lent to their calls. */
static void lent_records(void) {
    const uint16_t given[] = {1}, clues[] = {1, SENDAI_NO_CLUE}, shape[] = {2, 2, 1, 1, 1}, room[] = {1};
    SendaiBoard board = sendai_board_make(1, 3).board;
    CHECK(asks_board(board, shape, 0));
    CHECK(sendai_board_decide_in_place(&board, 0, true) == SENDAI_ACCEPTED);
    CHECK(sendai_board_decide_in_place(&board, 1, false) == SENDAI_ACCEPTED);
    CHECK(asks_board(board, shape, 5));
    CHECK(asks_no_board(board, 26, SENDAI_SHORT_BUFFER) && asks_no_board(board, 0, SENDAI_SHORT_BUFFER));
    board.len = 1;
    CHECK(asks_no_board(board, 27, SENDAI_RECORD));
    board.width = 33;
    CHECK(asks_no_board(board, 27, SENDAI_SIZES));

    SendaiPuzzle fresh = sendai_puzzle_make(1, 4, given, 1, clues, 2).puzzle, puzzle = fresh;
    CHECK(decides(fresh, 0, true, SENDAI_ACCEPTED) && decides(fresh, 2, false, SENDAI_ACCEPTED));
    CHECK(decides(fresh, 1, true, SENDAI_DECIDED) && decides(fresh, 3, true, SENDAI_MISSING) && decides(fresh, SIZE_MAX, true, SENDAI_MISSING));
    CHECK(undoes(fresh, SENDAI_EMPTY_LEDGER));
    CHECK(asks_puzzle(fresh, SENDAI_CLEAR, 0, room, 0));
    CHECK(sendai_puzzle_decide_in_place(&puzzle, 0, true) == SENDAI_ACCEPTED && puzzle.board.states[0] == SENDAI_WALL && puzzle.board.len == 1);
    CHECK(asks_puzzle(puzzle, SENDAI_ROOM_FAULT, 0, room, 1));
    CHECK(asks_no_puzzle(puzzle, 35, SENDAI_SHORT_BUFFER) && asks_no_puzzle(puzzle, 0, SENDAI_SHORT_BUFFER));
    CHECK(undoes(puzzle, SENDAI_ACCEPTED) && decides(puzzle, 0, false, SENDAI_DECIDED) && on_puzzle(puzzle, "45", SENDAI_TWICE));
    puzzle.clues[0] = 3;
    CHECK(decides(puzzle, 2, true, SENDAI_RECORD) && undoes(puzzle, SENDAI_RECORD) && on_puzzle(puzzle, "4", SENDAI_RECORD));
    CHECK(asks_no_puzzle(puzzle, 36, SENDAI_RECORD));
    puzzle.board.height = 0;
    CHECK(decides(puzzle, 2, true, SENDAI_SIZES) && undoes(puzzle, SENDAI_SIZES) && on_puzzle(puzzle, "4", SENDAI_SIZES));
    CHECK(asks_no_puzzle(puzzle, 0, SENDAI_SIZES));

    SendaiPuzzle row = plain(1, 3);
    Stroke two = drawn("12");
    CHECK(sendai_puzzle_stroke_in_place(&row, two.entries, two.length) == SENDAI_ACCEPTED && row.board.len == 2);
    CHECK(asks_puzzle(row, SENDAI_SHAPE_FAULT, 0, shape, 5));
    CHECK(sendai_puzzle_undo_in_place(&row) == SENDAI_ACCEPTED && same_puzzle(row, plain(1, 3)));
}

/* Whether a puzzle is refused by this number whatever its call, with the puzzle and each buffer as they were. */
static bool refuses_all(SendaiPuzzle puzzle, int code) {
    return sendai_puzzle_check(puzzle) == code && decides(puzzle, 0, true, code) && undoes(puzzle, code) && on_puzzle(puzzle, "", code) &&
           on_puzzle(puzzle, "02", code) && asks_no_puzzle(puzzle, SENDAI_MAX_LIST_IMAGES, code) && asks_no_puzzle(puzzle, 0, code) &&
           refuses(puzzle, 1, sizeof bytes, code) && refuses(puzzle, 1, 0, code);
}

/* A refused making, of either kind, returns a record of zeros: its kind is that of translates. */
static bool makes_none(size_t height, size_t width, const uint16_t *given, size_t walls, const uint16_t *clues, size_t counts, int code) {
    static SendaiPuzzle zeros;
    SendaiPuzzleAnswer made = sendai_puzzle_make(height, width, given, walls, clues, counts);
    SendaiPuzzleAnswer images = sendai_puzzle_make_images(height, width, given, walls, clues, counts);
    return made.code == code && images.code == code && same_puzzle(made.puzzle, zeros) && same_puzzle(images.puzzle, zeros);
}

/* Whether an ask that a case file has prints this line for a puzzle, which stays of its kind. */
static bool prints(SendaiPuzzle puzzle, const char *line) {
    const uint8_t ask[] = {SENDAI_CALL_ASK};
    SendaiRan ran = sendai_case_run(ask, 1, 0, 1, puzzle, bytes, SENDAI_MAX_LINE);
    return ran.code == SENDAI_ACCEPTED && ran.done == 1 && same_puzzle(ran.puzzle, puzzle) && ran.length == strlen(line) &&
           memcmp(bytes, line, ran.length) == 0;
}

/* Puzzles of images. */
static void images(void) {
    const uint16_t given[] = {1, 1, 9}, clues[] = {1, SENDAI_NO_CLUE, SENDAI_NO_CLUE}, nothing[] = {0};
    SendaiPuzzle puzzle = sendai_puzzle_make_images(1, 4, given, 1, clues, 2).puzzle, same = sendai_puzzle_make(1, 4, given, 1, clues, 2).puzzle;
    CHECK(puzzle.board.height == 1 && puzzle.board.width == 4 && puzzle.given_len == 1 && puzzle.clues[0] == 1);
    CHECK(puzzle.kind == SENDAI_IMAGES && !same_puzzle(puzzle, same));
    same.kind = SENDAI_IMAGES;
    CHECK(same_puzzle(puzzle, same));
    CHECK(makes_none(1, 33, nothing, 0, clues + 1, 1, SENDAI_SIZES) && makes_none(1, 4, given + 2, 1, clues, 2, SENDAI_MISSING));
    CHECK(makes_none(1, 4, given, 2, clues, 3, SENDAI_GIVEN_ORDER) && makes_none(1, 4, given, 1, clues, 1, SENDAI_CLUE_COUNT));
    CHECK(makes_none(1, 2, given, 0, given + 2, 1, SENDAI_CLUE_VALUE));

    /* the unit of one cell has no partner: of its eight images on each of the two other cells border 1 would have to be a Wall */
    const uint16_t listed[] = {2, 2, 2, 2, 2, 2, 2, 2, 2, 2, 2, 2, 2, 2, 2, 2, 1, 1, 1}, of_translates[] = {2, 2, 1, 1, 1};
    Stroke two = drawn("12");
    SendaiPuzzle row = plain_images(1, 3), translates = plain(1, 3);
    CHECK(asks_puzzle(row, SENDAI_CLEAR, 0, listed, 0) && on_puzzle(row, "12", SENDAI_ACCEPTED) && undoes(row, SENDAI_EMPTY_LEDGER));
    CHECK(sendai_puzzle_stroke_in_place(&row, two.entries, two.length) == SENDAI_ACCEPTED && row.kind == SENDAI_IMAGES);
    CHECK(sendai_puzzle_stroke_in_place(&translates, two.entries, two.length) == SENDAI_ACCEPTED && translates.kind == SENDAI_TRANSLATES);
    CHECK(asks_puzzle(row, SENDAI_SHAPE_FAULT, 0, listed, 19) && asks_puzzle(translates, SENDAI_SHAPE_FAULT, 0, of_translates, 5));
    CHECK(asks_no_puzzle(row, 47, SENDAI_SHORT_BUFFER) && asks_no_puzzle(row, 27, SENDAI_SHORT_BUFFER));
    CHECK(sendai_puzzle_ask(row, list, 48).kind == SENDAI_SHAPE_FAULT && prints(row, "shape: 1 2\n"));
    CHECK(same_puzzle(sendai_puzzle_undo(row).puzzle, plain_images(1, 3)));
    CHECK(sendai_puzzle_undo_in_place(&row) == SENDAI_ACCEPTED && same_puzzle(row, plain_images(1, 3)));
    CHECK(sendai_puzzle_decide(row, 0, true).puzzle.kind == SENDAI_IMAGES);

    /* two units of three cells, of which one is the other turned by half a turn */
    const uint16_t full[] = {0, 3, 5, 6, 8, 11, 12};
    puzzle = sendai_puzzle_stroke(plain_images(2, 3), full, 7).puzzle;
    CHECK(asks_puzzle(puzzle, SENDAI_CLEAR, 0, listed, 0) && answers(puzzle, 1, 7, 1, "1221121", false) && prints(puzzle, "clear\n"));
    translates = sendai_puzzle_stroke(plain(2, 3), full, 7).puzzle;
    CHECK(sendai_puzzle_ask(translates, list, 54).kind == SENDAI_SHAPE_FAULT && answers(translates, 1, 7, 0, "", false));
    puzzle = sendai_puzzle_decide(plain_images(2, 3), 0, false).puzzle;
    CHECK(answers(puzzle, 9, 7, 5, "11112221212221121222212211211222221", false));
    CHECK(answers(puzzle, 2, 7, 2, "11112221212221", true));
    CHECK(answers(sendai_puzzle_decide(plain(2, 3), 0, false).puzzle, 9, 7, 2, "11112221212222", false));

    /* a unit falls on the same two cells as two of its images, and is good there by the later one alone */
    puzzle = sendai_puzzle_stroke(plain_images(2, 3), drawn("1248").entries, 4).puzzle;
    CHECK(asks_puzzle(puzzle, SENDAI_CLEAR, 0, listed, 0));

    /* the largest board; and a clue, which is asked about after the shapes */
    CHECK(asks_puzzle(plain_images(32, 32), SENDAI_CLEAR, 0, listed, 0) && prints(plain_images(32, 32), "clear\n"));
    CHECK(asks_no_puzzle(plain_images(32, 32), SENDAI_MAX_LIST_IMAGES - 1, SENDAI_SHORT_BUFFER));
    CHECK(SENDAI_ASK_ENTRIES(SENDAI_IMAGES, 32, 32) == SENDAI_MAX_LIST_IMAGES && SENDAI_ASK_ENTRIES(SENDAI_TRANSLATES, 32, 32) == SENDAI_MAX_LIST);
    CHECK(asks_puzzle(sendai_puzzle_decide(same, 0, true).puzzle, SENDAI_ROOM_FAULT, 0, given, 1));

    /* no other number is a kind */
    for (int kind = 2; kind <= UINT8_MAX; kind = 2 * kind + 1) {
        same.kind = (uint8_t)kind;
        CHECK(refuses_all(same, SENDAI_RECORD) && prints(same, "refused 2\n"));
    }
    same.board.width = 33;
    CHECK(refuses_all(same, SENDAI_SIZES));
}

static void rooms(void) {
    const uint16_t us[] = {0, 1}, vs[] = {1, 2}, fault[] = {1};
    const SendaiEdge edges[] = {{0, 1}, {1, 2}};
    SendaiRoom room = sendai_room_make(3, us, 2, vs, 2, 1).room;
    CHECK(room.vertices == 3 && room.edges == 2 && room.vs[1] == 2 && room.count == 1);
    SendaiRoom same = sendai_room_make_of_edges(3, edges, 2, 1).room;
    CHECK(same.vertices == 3 && same.edges == 2 && same.us[1] == 1 && same.vs[1] == 2 && same.count == 1);
    room = sendai_room_decide(room, 0, true).room;
    SendaiAnswer verdict = sendai_room_ask(room, list, 2);
    CHECK(verdict.code == SENDAI_ACCEPTED && verdict.fault && is(verdict.length, fault, 1));
    CHECK(sendai_room_ask(room, list, 1).code == SENDAI_SHORT_BUFFER);
    CHECK(sendai_room_undo(room).room.book.len == 0);
    CHECK(sendai_room_check(room) == SENDAI_ACCEPTED);
}

/* A count above the vertices is a fault that lists nothing, whatever stands; the buffer is asked for before. */
static void rooms_above(void) {
    const uint16_t us[] = {0}, vs[] = {1}, joined[] = {0};
    const uint32_t counts[] = {3, 65538, UINT32_MAX};
    for (size_t i = 0; i < 3; i++) {
        SendaiRoom room = sendai_room_make(2, us, 1, vs, 1, counts[i]).room;
        for (int turn = 0; turn < 3; turn++) {
            SendaiRoom asked = turn == 0 ? room : sendai_room_decide(room, 0, turn == 2).room;
            SendaiAnswer verdict = sendai_room_ask(asked, list, 1);
            CHECK(verdict.code == SENDAI_ACCEPTED && verdict.fault && is(verdict.length, joined, 0));
            CHECK(sendai_room_ask(asked, list, 0).code == SENDAI_SHORT_BUFFER);
        }
    }
    SendaiRoom as_many = sendai_room_make(2, us, 1, vs, 1, 2).room;
    CHECK(!sendai_room_ask(as_many, list, 1).fault);
    SendaiAnswer verdict = sendai_room_ask(sendai_room_decide(as_many, 0, false).room, list, 1);
    CHECK(verdict.fault && is(verdict.length, joined, 1));
    CHECK(!sendai_room_ask(sendai_room_make(0, us, 0, vs, 0, 0).room, list, 0).fault);
    CHECK(sendai_room_ask(sendai_room_make(0, us, 0, vs, 0, 5).room, list, 0).fault);
    CHECK(sendai_room_ask(sendai_room_make(1, us, 0, vs, 0, 65537).room, list, 0).fault);
}

static void unions(void) {
    SendaiUnion parts = sendai_union_new(3).parts;
    CHECK(parts.n == 3 && parts.parent[2] == 2);
    SendaiUnited united = sendai_union_unite(parts, 0, 1);
    CHECK(united.code == SENDAI_ACCEPTED && united.united && united.parts.parent[0] == 1);
    SendaiFound found = sendai_union_find(united.parts, 0);
    CHECK(found.code == SENDAI_ACCEPTED && found.root == 1 && found.parts.n == 3);
    CHECK(sendai_union_find(parts, 3).code == SENDAI_MISSING);
}

static void files(void) {
    const uint8_t file[] = {1, 0, 0x12, 1, 3, 0, 0, 0, 1, 0xff, 0xff, 0, 4, 2, 0, 0, 1, 0, 1, 3, 0};
    const char lines[] = "decided\ndecided\nshape: 1 2\nundone\n";
    static uint8_t out[4 * SENDAI_MAX_LINE];
    SendaiCase opened = sendai_case_open(file, 21);
    CHECK(opened.code == SENDAI_ACCEPTED && opened.puzzle.board.width == 3 && opened.at == 13 && opened.count == 4);
    CHECK(sendai_case_open(file, 20).code == SENDAI_FILE);
    SendaiRan ran = sendai_case_run(file, 21, opened.at, opened.count, opened.puzzle, out, sizeof out);
    CHECK(ran.code == SENDAI_ACCEPTED && ran.done == 4 && ran.at == 21 && ran.puzzle.board.len == 1);
    CHECK(ran.length == sizeof lines - 1 && memcmp(out, lines, ran.length) == 0);
    ran = sendai_case_run(file, 21, opened.at, opened.count, opened.puzzle, out, sizeof out - 1);
    CHECK(ran.code == SENDAI_SHORT_BUFFER && ran.done == 0 && ran.at == opened.at && ran.length == 0);

    SendaiFileParts parts = sendai_file_decode(file, 21);
    CHECK(parts.code == SENDAI_ACCEPTED && parts.height == 1 && parts.width == 3 && parts.walls_at == 7 && parts.walls_count == 0);
    CHECK(parts.clues_at == 9 && parts.clues_count == 1 && parts.calls_at == 13 && parts.calls_count == 4);
    SendaiFileCall call = sendai_file_call(file, 21, 16);
    CHECK(call.code == SENDAI_ACCEPTED && call.kind == SENDAI_CALL_CONNECTED && call.border == 1 && call.behind == 19);
    CHECK(sendai_file_number(file, 21, 9, 1, 0) == SENDAI_NO_CLUE);
    CHECK(sendai_file_numbers(file, 21, 13, 2, list, 2).length == 2 && list[0] == 0x0200 && list[1] == 1);
    CHECK(sendai_file_numbers(file, 21, 13, 2, list, 1).code == SENDAI_SHORT_BUFFER);

    const uint16_t entries[] = {1, 2};
    CHECK(sendai_line(SENDAI_LINE_ROOM, 4, entries, 2, out, 39).length == 12 && memcmp(out, "room 4: 1 2\n", 12) == 0);
    CHECK(sendai_line(SENDAI_LINE_ROOM, 4, entries, 2, out, 38).code == SENDAI_SHORT_BUFFER);
}

static SendaiAnswer generate(uint32_t seed, size_t height, size_t width, size_t count, size_t length) {
    memset(bytes, UNTOUCHED, sizeof bytes);
    return sendai_case_generate(seed, height, width, count, bytes, length);
}

/* Whether a call is refused by this number, with no byte changed. */
static bool generates_none(uint32_t seed, size_t height, size_t width, size_t count, size_t length, int code) {
    SendaiAnswer told = generate(seed, height, width, count, length);
    return told.code == code && !told.fault && told.length == 0 && untouched(0);
}

/* Whether this file is generated, with a buffer just as long and with a longer one, and none with a buffer one byte short. */
static bool generates(uint32_t seed, size_t height, size_t width, size_t count, const uint8_t *file, size_t length) {
    for (size_t more = 0; more <= 5; more += 5) {
        SendaiAnswer told = generate(seed, height, width, count, length + more);
        if (told.code != SENDAI_ACCEPTED || told.fault || told.length != length) return false;
        if (memcmp(bytes, file, length) != 0 || !untouched(length)) return false;
    }
    return generates_none(seed, height, width, count, length - 1, SENDAI_SHORT_BUFFER);
}

/* Whether so many calls of the seed 1 make a file of the greatest length, and one call more makes none, whatever the buffer. */
static bool generates_at_most(size_t height, size_t width, size_t count) {
    SendaiAnswer told = generate(1, height, width, count, SENDAI_MAX_FILE);
    return told.code == SENDAI_ACCEPTED && told.length == SENDAI_MAX_FILE && untouched(SENDAI_MAX_FILE) &&
           sendai_case_open(bytes, SENDAI_MAX_FILE).count == count &&
           generates_none(1, height, width, count, SENDAI_MAX_FILE - 1, SENDAI_SHORT_BUFFER) &&
           generates_none(1, height, width, count + 1, sizeof bytes, SENDAI_SHORT_BUFFER);
}

static void generated_files(void) {
    const uint8_t no_call[] = {1, 0, 10, 3, 2, 0, 0, 0, 1, 0xff, 0xff, 0, 0};
    const uint8_t one_ask[] = {1, 0, 11, 1, 1, 0, 0, 0, 1, 0xff, 0xff, 0, 1, 3};
    const uint8_t two_asks[] = {1, 0, 12, 1, 1, 0, 0, 0, 1, 0xff, 0xff, 0, 2, 3, 3};
    const uint8_t two_decides[] = {1, 0, 16, 1, 2, 0, 0, 0, 1, 0xff, 0xff, 0, 2, 1, 0, 0, 1, 0, 0};
    const uint8_t every_kind[] = {1, 0, 18, 2, 3, 0, 0, 0, 1, 0xff, 0xff, 0, 4, 1, 0, 3, 0, 2, 0, 5, 3};
    const uint8_t all_bits[] = {1, 0, 16, 2, 3, 0, 0, 0, 1, 0xff, 0xff, 0, 4, 3, 3, 3, 2, 0, 4};
    CHECK(generates(7, 3, 2, 0, no_call, sizeof no_call));
    CHECK(generates(16, 1, 1, 1, one_ask, sizeof one_ask));
    CHECK(generates(9, 1, 1, 2, two_asks, sizeof two_asks));
    CHECK(generates(1, 1, 2, 2, two_decides, sizeof two_decides));
    CHECK(generates(20, 2, 3, 4, every_kind, sizeof every_kind));
    CHECK(generates(UINT32_MAX, 2, 3, 4, all_bits, sizeof all_bits));
    /* the seed 1 is replaced by 270369, kind 1, and that by 67634689, which leaves 129 for the 1,984 borders */
    const uint8_t one_decide[] = {1, 0, 13, 32, 32, 0, 0, 0, 1, 0xff, 0xff, 0, 1, 1, 0, 129};
    CHECK(generates(1, 32, 32, 1, one_decide, sizeof one_decide));

    /* 1 by 1 has no borders, and each call is a byte; with borders a decide takes three */
    CHECK(generates_at_most(1, 1, 59990));
    CHECK(generates_at_most(32, 32, 29984));
    CHECK(generates_none(1, 1, 1, SIZE_MAX, sizeof bytes, SENDAI_SHORT_BUFFER));

    /* no number is cut off: in fewer bits each of these is 1 */
    for (int bits = 8; bits <= 32; bits *= 2) {
        const size_t beyond = ((size_t)1 << bits) + 1;
        CHECK(generates_none(1, beyond, 1, 1, sizeof bytes, SENDAI_SIZES));
        CHECK(generates_none(1, 1, beyond, 1, sizeof bytes, SENDAI_SIZES));
        CHECK(generates_none(1, 1, 1, beyond, 14, SENDAI_SHORT_BUFFER));
    }

    /* the questions in their order */
    CHECK(generates_none(1, 1, 1, 0, 0, SENDAI_SHORT_BUFFER));
    CHECK(generates_none(0, 1, 1, 1, sizeof bytes, SENDAI_ZERO_SEED));
    CHECK(generates_none(0, 32, 32, SIZE_MAX, 0, SENDAI_ZERO_SEED));
    CHECK(generates_none(1, 0, 1, 1, sizeof bytes, SENDAI_SIZES));
    CHECK(generates_none(1, 1, 33, 1, sizeof bytes, SENDAI_SIZES));
    CHECK(generates_none(0, 33, 1, SIZE_MAX, 0, SENDAI_SIZES));
    CHECK(generates_none(0, 1, 0, SIZE_MAX, 0, SENDAI_SIZES));
}

int main(void) {
    CHECK(sendai_version() == SENDAI_VERSION);
    const uint16_t entries[] = {7, 2, 7}, handed[] = {2, 7};
    CHECK(is(sendai_hand_over(entries, 3, list, 3).length, handed, 2));
    CHECK(sendai_hand_over(entries, 3, list, 2).code == SENDAI_SHORT_BUFFER);
    places();
    boards();
    lists();
    puzzles();
    all_answers();
    strokes();
    stroke_questions();
    long_strokes();
    lent_records();
    images();
    rooms();
    rooms_above();
    unions();
    files();
    generated_files();
    return failed;
}
