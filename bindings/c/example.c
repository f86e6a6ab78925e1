/* One row of three cells: a Wall after the first, none after the second. Asks, hands the fault's list over, prints it, undoes, and
 * prints every answer that is left. The puzzle is lent to its calls, which change or read it where it is. */
#include "sendai.h"

#include <stdio.h>
#include <stdlib.h>

static void print(const char *what, const uint16_t *list, size_t length) {
    printf("%s:", what);
    for (size_t i = 0; i < length; i++) printf(" %d", list[i]);
    printf("\n");
}

/* The right boards on which all that is decided stands, up to two of them. */
static void print_answers(SendaiPuzzle puzzle) {
    enum { BORDERS = 2, CAP = 2 };
    uint8_t boards[CAP * BORDERS];
    SendaiBoards right = sendai_puzzle_right_boards(puzzle, CAP, boards, sizeof boards);
    if (right.code != SENDAI_ACCEPTED) printf("refused %d\n", right.code);
    for (size_t k = 0; k < right.count; k++) {
        printf("answer %d:", (int)k + 1);
        for (size_t i = 0; i < BORDERS; i++) printf(" %s", boards[k * BORDERS + i] == SENDAI_WALL ? "Wall" : "Connected");
        printf("\n");
    }
    printf(right.more ? "and more\n" : "and no other\n");
}

/* Ends the program where a call was refused. */
static void accepted(int code) {
    if (code == SENDAI_ACCEPTED) return;
    printf("refused %d\n", code);
    exit(1);
}

int main(void) {
    const uint16_t no_given_walls[1] = {0};
    const uint16_t clues[1] = {SENDAI_NO_CLUE};
    static uint16_t list[SENDAI_MAX_LIST], handed[SENDAI_MAX_LIST];

    SendaiPuzzleAnswer made = sendai_puzzle_make(1, 3, no_given_walls, 0, clues, 1);
    SendaiPuzzle *puzzle = &made.puzzle;
    accepted(made.code);
    accepted(sendai_puzzle_decide_in_place(puzzle, 0, true));
    accepted(sendai_puzzle_decide_in_place(puzzle, 1, false));

    SendaiOutcome outcome = sendai_puzzle_ask_in_place(puzzle, list, SENDAI_MAX_LIST);
    if (outcome.kind != SENDAI_SHAPE_FAULT) return 1;
    print("shape, as listed", list, outcome.length);

    SendaiAnswer over = sendai_hand_over(list, outcome.length, handed, SENDAI_MAX_LIST);
    if (over.code != SENDAI_ACCEPTED) return 1;
    print("handed over", handed, over.length);
    for (size_t i = 0; i < over.length; i++)
        printf("border %d is %s%s", handed[i] / 2, handed[i] % 2 ? "Wall" : "Connected", i + 1 < over.length ? " and " : ": can't be\n");

    accepted(sendai_puzzle_undo_in_place(puzzle));
    printf("after undo: kind %d\n", sendai_puzzle_ask_in_place(puzzle, list, SENDAI_MAX_LIST).kind);
    print_answers(*puzzle);
    printf("border 0 again: refused %d\n", sendai_puzzle_decide_in_place(puzzle, 0, false));
    printf("a buffer of 26 places: refused %d\n", sendai_puzzle_ask_in_place(puzzle, list, 26).code);

    /* a board by itself is changed where it is, too */
    SendaiBoard board = sendai_board_make(1, 3).board;
    int codes[3];
    codes[0] = sendai_board_decide_in_place(&board, 1, true);
    codes[1] = sendai_board_undo_in_place(&board);
    codes[2] = sendai_board_undo_in_place(&board);
    printf("in place: %d %d %d\n", codes[0], codes[1], codes[2]);
    return 0;
}
