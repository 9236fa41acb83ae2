//! What is measured of our replays, which the Rust has none of: a list of moves, on a lot of boards.
use crate::boards::Board;
use crate::lists::List;
use crate::lots::{Lot, largest, league};
use crate::ours::{Lent, Told};
use crate::sides::timed;

/// A row of the replays' table. Time is the median of so many samples, each of one replay a board.
#[derive(Clone, Copy)]
pub struct Row {
    pub list: List,
    pub lot: Lot,
    pub samples: usize,
}

/// The lots, and the lists that are replayed on each; the empty list comes first, for the others to be held to.
pub fn all() -> Vec<Row> {
    let row = |list, lot, samples| Row { list, lot, samples };
    vec![
        row(List::Empty, league(100), 51),
        row(List::Greedy, league(100), 51),
        row(List::Empty, league(1), 51),
        row(List::OneFlag, league(1), 11),
        row(List::AllFlags, league(1), 11),
        row(List::Chords, league(1), 11),
        row(List::Empty, largest(20), 11),
        row(List::Greedy, largest(20), 11),
        row(List::Empty, largest(0), 11),
        row(List::OneClick, largest(0), 11),
    ]
}

impl Row {
    /// The name of callgrind's file: list, boards, rows, columns, mines.
    pub fn file_name(&self) -> String {
        let (list, lot) = (self.list.file_name(), self.lot);
        format!("replay-{list}-{}-{}", lot.boards, lot.file_name())
    }
}

/// A board, its list lent, and what the replay has to tell.
pub struct Case<'a> {
    lent: Lent<'a>,
    pub moves: u64,
    told: Told,
}

/// The cases of a row.
pub fn cases<'a>(row: &Row, boards: &'a [Board]) -> Vec<Case<'a>> {
    let case = |board: &'a Board| {
        let script = row.list.script(board);
        let moves = script.moves.len() as u64;
        Case {
            lent: Lent::with_list(board, script.moves),
            moves,
            told: ((0, moves, script.closed), script.ending),
        }
    };
    boards.iter().map(case).collect()
}

/// One replay, whose answers have to be right: the nanoseconds it took.
pub fn play(case: &mut Case) -> u64 {
    let Case { lent, moves, told } = case;
    let mut ending = 0;
    let (answer, time) = timed(|| {
        let told = lent.replay(*moves);
        ending = told.1;
        told.0
    });
    assert!((answer, ending) == *told, "{answer:?} {ending}: {told:?}");
    time
}
