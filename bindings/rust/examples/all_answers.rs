//! What a setter does with all answers: draws those of a started puzzle, then decides a border in which they differ, until one answer is
//! left. Run: `cargo run --example all_answers`.
use sendai::{Puzzle, Refusal, RightBoards, State, NO_CLUE};

/// At most this many answers are drawn.
const CAP: usize = 4;

/// The lines of a board: `|` and `---` are Walls, `#` given ones, `:` and `...` undecided, and a gap is Connected.
fn draw(puzzle: &Puzzle, states: impl Iterator<Item = State>) -> Vec<String> {
    let (height, width, states) = (puzzle.height(), puzzle.width(), states.collect::<Vec<_>>());
    let given = |border: usize| puzzle.given().iter().any(|&wall| usize::from(wall) == border);
    let sign = |border: usize, wall, open| match states[border] {
        State::Wall if given(border) => '#',
        State::Wall => wall,
        State::Connected => ' ',
        State::Undecided => open,
    };
    let edge = "+---".repeat(width) + "+";
    let mut lines = vec![edge.clone()];
    for y in 0..height {
        let right = (0..width - 1).map(|x| format!("   {}", sign(y * (width - 1) + x, '|', ':'))).collect::<String>();
        lines.push(format!("|{right}   |"));
        if y + 1 < height {
            let below = (0..width).map(|x| sign(height * (width - 1) + y * width + x, '-', '.').to_string().repeat(3));
            lines.push(format!("+{}+", below.collect::<Vec<_>>().join("+")));
        }
    }
    lines.push(edge);
    lines
}

/// Prints boards side by side.
fn print(boards: &[Vec<String>]) {
    for line in 0..boards.first().map_or(0, Vec::len) {
        println!("    {}", boards.iter().map(|board| board[line].as_str()).collect::<Vec<_>>().join("   "));
    }
}

/// The first border in which two of the boards differ.
fn first_difference(right: &RightBoards, borders: usize) -> Option<usize> {
    let first = right.get(0)?;
    (0..borders).find(|&border| right.iter().any(|board| board.state(border) != first.state(border)))
}

/// "1 answer", "4 answers and more".
fn counted(right: &RightBoards) -> String {
    let (answers, more) = (if right.len() == 1 { "answer" } else { "answers" }, if right.more() { " and more" } else { "" });
    format!("{} {answers}{more}", right.len())
}

fn main() -> Result<(), Refusal> {
    // two rooms of 2 by 2, the left one with two units
    let mut puzzle = Puzzle::make(2, 4, &[1, 4], &[2, NO_CLUE])?;
    puzzle.decide(2, true)?;
    let mut buffer = vec![0; puzzle.boards_len(CAP)?];
    loop {
        println!("\nstarted:");
        print(&[draw(&puzzle, puzzle.states())]);
        let right = puzzle.right_boards(CAP, &mut buffer)?;
        println!("{}:", counted(&right));
        print(&right.iter().map(|board| draw(&puzzle, board.states())).collect::<Vec<_>>());

        let Some(border) = first_difference(&right, puzzle.borders()) else { break };
        puzzle.decide(border, true)?;
        println!("they differ in border {border}: it is to be a Wall");
    }

    // to know whether there is just one answer, room for one is enough
    let mut one = vec![0; puzzle.boards_len(1)?];
    assert!(puzzle.right_boards(1, &mut one)?.unique());
    Ok(())
}
