//! Units and potential units: each cell's group, the cells in turn, the starts, and each group's cells handed out.
use super::{on_boards, Limits};
use crate::boards::Standing;
use crate::port;
use crate::reference::Board;
use crate::sample::{numbers, Sample};
use crate::tally::Tally;

fn compare(tally: &mut Tally, board: &Standing) {
    tally.case();
    let info = Board::standing(board.height, board.width, &board.states).info();
    let ours = port::Board::standing(board.height, board.width, &board.states);
    for potential in [false, true] {
        let grouping = ours.grouping(potential);
        let on = || format!("{board:?}, potential {potential}");
        tally.same(&Ok(info.groups(potential)), &grouping.as_ref().map(|g| g.groups()).map_err(|&code| code), on);
        let Ok(grouping) = grouping else { continue };
        for group in 0..info.count(potential) {
            let theirs = info.group(potential, group).unwrap_or_default();
            tally.same(&theirs, &grouping.group(group), || format!("group {group} of {}", on()));
        }
        // a group that does not exist: the Rust panics, and the part that is handed out is empty
        for group in [info.count(potential), 1024, usize::MAX] {
            let theirs = info.group(potential, group).unwrap_or_default();
            tally.same(&theirs, &grouping.group(group), || format!("group {group} of {}", on()));
        }
    }
}

pub fn run(limits: &Limits) -> Tally {
    let mut tally = Tally::new("groups");
    on_boards(limits, 10, |_, board| compare(&mut tally, board));
    tally.done()
}

/// The units and the potential units, and the cells that are handed out for some of them and for one that does not exist.
pub fn sample(sample: &mut Sample, board: &Standing) {
    let info = Board::standing(board.height, board.width, &board.states).info();
    for potential in [false, true] {
        let groups = info.groups(potential);
        let lists = [numbers(&groups.of), numbers(&groups.cells), numbers(&groups.starts)];
        sample.call("bg", board.cells(), potential as usize, format!("0{}", lists.join(";")));
        let count = info.count(potential);
        for group in (0..count.min(2)).chain([count]) {
            let cells = info.group(potential, group).unwrap_or_default();
            sample.call("bh", group, potential as usize, format!("{}{}", cells.len(), numbers(&cells)));
        }
    }
}
