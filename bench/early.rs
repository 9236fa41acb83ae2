//! What is measured of our early count, which the Rust has none of: whether 3BV is at least so many units, beside the full count of the same boards.
use crate::boards::Board;
use crate::lots::{Lot, largest, league};
use crate::ours::Answer;
use crate::sides::timed;

unsafe extern "C" {
    fn lavgerin_three_bv(
        rows: usize,
        columns: usize,
        grid: *const i32,
        grid_length: usize,
        work: *mut i32,
        work_length: usize,
        units: &mut u64,
    ) -> u8;
    fn lavgerin_at_least(
        rows: usize,
        columns: usize,
        grid: *const i32,
        grid_length: usize,
        work: *mut i32,
        work_length: usize,
        units: usize,
        enough: &mut u64,
    ) -> u8;
}

/// What lent memory has in every place before a call.
const LENT: i32 = 7;

/// How many units are asked for.
#[derive(Clone, Copy, PartialEq)]
pub enum Asked {
    /// The full count in place of the early one.
    All,
    Number(usize),
    Half,
    Units,
    OneMore,
}

impl Asked {
    pub fn name(self) -> String {
        match self {
            Asked::All => "3BV, the full count".to_string(),
            Asked::Number(units) => format!("at least {units}"),
            Asked::Half => "at least half of 3BV".to_string(),
            Asked::Units => "at least 3BV".to_string(),
            Asked::OneMore => "at least 3BV + 1".to_string(),
        }
    }

    /// As it stands in the name of callgrind's file.
    fn file_name(self) -> String {
        match self {
            Asked::All => "full".to_string(),
            Asked::Number(units) => format!("least-{units}"),
            Asked::Half => "least-half".to_string(),
            Asked::Units => "least-units".to_string(),
            Asked::OneMore => "least-more".to_string(),
        }
    }

    /// The number asked for of a board of such 3BV.
    fn of(self, units: u64) -> usize {
        match self {
            Asked::All => 0,
            Asked::Number(units) => units,
            Asked::Half => units as usize / 2,
            Asked::Units => units as usize,
            Asked::OneMore => units as usize + 1,
        }
    }
}

/// A row of the early count's table. Time is the median of so many samples, each of one call a board; the goal is beside the full count.
#[derive(Clone, Copy)]
pub struct Row {
    pub asked: Asked,
    pub lot: Lot,
    pub samples: usize,
    pub goal: Option<f64>,
}

/// The rows: of each lot the full count comes first, for the others to be held to.
pub fn all() -> Vec<Row> {
    let row = |asked, lot, samples, goal| Row {
        asked,
        lot,
        samples,
        goal,
    };
    let mut rows = vec![
        row(Asked::All, league(100), 51, None),
        row(Asked::Number(0), league(100), 51, None),
        row(Asked::Number(1), league(100), 51, Some(0.25)),
        row(Asked::Half, league(100), 51, Some(0.7)),
        row(Asked::Units, league(100), 51, None),
        row(Asked::OneMore, league(100), 51, Some(1.0)),
    ];
    for percent in [10, 15, 20, 25] {
        let goal = if percent == 20 { Some(0.2) } else { None };
        rows.push(row(Asked::All, largest(percent), 11, None));
        rows.push(row(Asked::Number(100), largest(percent), 11, goal));
        if percent == 20 {
            rows.push(row(Asked::Half, largest(percent), 11, None));
            rows.push(row(Asked::OneMore, largest(percent), 11, None));
        }
    }
    rows
}

impl Row {
    /// The name of callgrind's file: what is asked, rows, columns, mines.
    pub fn file_name(&self) -> String {
        format!("{}-{}", self.asked.file_name(), self.lot.file_name())
    }
}

/// A board, what is asked of it, its 3BV and the work area lent for it.
pub struct Case<'a> {
    board: &'a Board,
    asked: Asked,
    units: u64,
    work: Vec<i32>,
}

/// The cases of a row.
pub fn cases<'a>(row: &Row, boards: &'a [Board]) -> Vec<Case<'a>> {
    let case = |board: &'a Board| {
        let mut case = Case {
            board,
            asked: Asked::All,
            units: 0,
            work: vec![LENT; 5 * board.cells()],
        };
        case.units = count(&mut case).1;
        case.asked = row.asked;
        case.work.fill(LENT);
        case
    };
    boards.iter().map(case).collect()
}

/// One call.
fn count(case: &mut Case) -> Answer {
    let board = case.board;
    let mut told = 0;
    let (grid, length) = (board.values.as_ptr(), board.values.len());
    let (work, room) = (case.work.as_mut_ptr(), case.work.len());
    // SAFETY: each pointer is of a vector with the length beside it, and the two do not overlap.
    let number = unsafe {
        match case.asked {
            Asked::All => lavgerin_three_bv(
                board.rows,
                board.columns,
                grid,
                length,
                work,
                room,
                &mut told,
            ),
            asked => lavgerin_at_least(
                board.rows,
                board.columns,
                grid,
                length,
                work,
                room,
                asked.of(case.units),
                &mut told,
            ),
        }
    };
    (number, told, 0)
}

/// Whether the answer is right: 3BV as it was, or whether it is as much as asked, and then the work area 0.
fn is_right(case: &Case, (number, told, _): Answer) -> bool {
    let enough = case.asked.of(case.units) as u64 <= case.units;
    match case.asked {
        Asked::All => number == 0 && told == case.units,
        _ => number == 0 && told == enough as u64 && case.work.iter().all(|n| *n == 0),
    }
}

/// One call, which has to be right: the nanoseconds it took.
pub fn play(case: &mut Case) -> u64 {
    let (answer, time) = timed(|| count(case));
    assert!(is_right(case, answer), "{answer:?}");
    time
}
