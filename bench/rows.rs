//! What is measured beside the Rust: a call, on a lot of boards.
use crate::lots::{Lot, largest, league};

#[derive(Clone, Copy, PartialEq)]
pub enum Call {
    ThreeBv,
    Greedy,
    OpeningsFirst,
    RandomSearch,
}

impl Call {
    pub fn name(self) -> &'static str {
        match self {
            Call::ThreeBv => "3BV setup",
            Call::Greedy => "greedy",
            Call::OpeningsFirst => "openings-first",
            Call::RandomSearch => "random search",
        }
    }
}

/// Rounds of a random search.
pub const ROUNDS: usize = 100;

/// Mines of a hundred cells on the largest boards; the one that is nearest to a league board's.
const PERCENTS: [usize; 4] = [10, 15, 20, 25];
const NEAREST: usize = 20;

/// A row of the table. Time is the median of so many samples, each of one call a board.
#[derive(Clone, Copy)]
pub struct Row {
    pub call: Call,
    pub lot: Lot,
    pub samples: usize,
    pub goal: Option<f64>,
}

/// A row, by its columns.
fn row(call: Call, lot: Lot, samples: usize, goal: Option<f64>) -> Row {
    Row {
        call,
        lot,
        samples,
        goal,
    }
}

/// Whether it is a largest board with about as many mines of a hundred cells as a league board.
pub fn is_league_grown(row: &Row) -> bool {
    row.lot == largest(NEAREST)
}

/// The rows: league boards first, then the largest.
pub fn all() -> Vec<Row> {
    let mut rows = vec![
        row(Call::ThreeBv, league(100), 51, None),
        row(Call::Greedy, league(100), 21, Some(0.6)),
        row(Call::OpeningsFirst, league(100), 21, Some(0.6)),
        row(Call::RandomSearch, league(20), 7, Some(0.4)),
    ];
    for percent in PERCENTS {
        let lot = largest(percent);
        rows.push(row(Call::ThreeBv, lot, 11, None));
        rows.push(row(Call::Greedy, lot, 3, Some(0.1)));
        rows.push(row(Call::OpeningsFirst, lot, 3, Some(0.1)));
    }
    rows
}

impl Row {
    /// The name of callgrind's file: call, rows, columns, mines.
    pub fn file_name(&self) -> String {
        let call = self.call.name().replace(' ', "-");
        format!("{call}-{}", self.lot.file_name())
    }
}
