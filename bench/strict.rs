//! What is measured of our strict calls, which the Rust has none of: 3BV in its present and its strict form on boards with right numbers, and NUMBER.
use crate::boards::Board;
use crate::lots::{Lot, largest, league};
use crate::ours::Answer;
use crate::sides::timed;

type Count = unsafe extern "C" fn(usize, usize, *const i32, usize, *mut i32, usize, &mut u64) -> u8;

unsafe extern "C" {
    fn lavgerin_three_bv(
        rows: usize,
        columns: usize,
        grid: *const i32,
        grid_length: usize,
        work: *mut i32,
        work_length: usize,
        units: &mut u64,
    ) -> u8;
    fn lavgerin_strict_three_bv(
        rows: usize,
        columns: usize,
        grid: *const i32,
        grid_length: usize,
        work: *mut i32,
        work_length: usize,
        units: &mut u64,
    ) -> u8;
}

/// NUMBER, the refusal.
const NUMBER: u8 = 11;

/// What lent memory has in every place before a call.
const LENT: i32 = 7;

#[derive(Clone, Copy, PartialEq)]
pub enum Form {
    Present,
    Strict,
    LastWrong,
    FirstWrong,
}

impl Form {
    pub fn name(self) -> &'static str {
        match self {
            Form::Present => "3BV, the present form",
            Form::Strict => "3BV, strict",
            Form::LastWrong => "strict, the last cell wrong: refused",
            Form::FirstWrong => "strict, the first cell wrong: refused",
        }
    }

    /// As it stands in the name of callgrind's file.
    fn file_name(self) -> &'static str {
        match self {
            Form::Present => "present",
            Form::Strict => "strict",
            Form::LastWrong => "last-wrong",
            Form::FirstWrong => "first-wrong",
        }
    }
}

/// A row of the strict calls' table. Time is the median of so many samples, each of one call a board.
#[derive(Clone, Copy)]
pub struct Row {
    pub form: Form,
    pub lot: Lot,
    pub samples: usize,
}

/// The rows: of each lot the present form comes first, for the others to be held to.
pub fn all() -> Vec<Row> {
    let forms = [Form::Present, Form::Strict, Form::LastWrong, Form::FirstWrong];
    let of = |lot, samples| forms.map(|form| Row { form, lot, samples });
    [of(league(100), 51), of(largest(20), 11)].concat()
}

impl Row {
    /// The name of callgrind's file: the form, rows, columns, mines.
    pub fn file_name(&self) -> String {
        format!("{}-{}", self.form.file_name(), self.lot.file_name())
    }
}

/// A board with its values, and the work area lent for it.
pub struct Case {
    form: Form,
    rows: usize,
    columns: usize,
    values: Vec<i32>,
    work: Vec<i32>,
}

/// The cases of a row.
pub fn cases(row: &Row, boards: &[Board]) -> Vec<Case> {
    let case = |board: &Board| Case {
        form: row.form,
        rows: board.rows,
        columns: board.columns,
        values: values(board, row.form),
        work: vec![LENT; 5 * board.cells()],
    };
    boards.iter().map(case).collect()
}

/// The right value of each cell; of the first or last safe cell a wrong one.
fn values(board: &Board, form: Form) -> Vec<i32> {
    let mine = |row: usize, column: usize| board.values[row * board.columns + column] == -1;
    let near = |place: usize, sides: usize| place.saturating_sub(1)..(place + 2).min(sides);
    let number = |row: usize, column: usize| {
        let rows = near(row, board.rows);
        let count = |y| near(column, board.columns).filter(|x| mine(y, *x)).count();
        rows.map(count).sum::<usize>() as i32
    };
    let right = |row, column| if mine(row, column) { -1 } else { number(row, column) };
    let cells = (0..board.rows).flat_map(|row| (0..board.columns).map(move |column| (row, column)));
    let mut values: Vec<i32> = cells.map(|(row, column)| right(row, column)).collect();
    let place = match form {
        Form::LastWrong => values.iter().rposition(|value| *value != -1),
        Form::FirstWrong => values.iter().position(|value| *value != -1),
        _ => None,
    };
    if let Some(place) = place {
        values[place] = 9;
    }
    values
}

/// One call.
fn count(case: &mut Case) -> Answer {
    let call: Count = match case.form {
        Form::Present => lavgerin_three_bv,
        _ => lavgerin_strict_three_bv,
    };
    let mut units = 0;
    // SAFETY: each pointer is of a vector with the length beside it, and the two do not overlap.
    let number = unsafe {
        call(
            case.rows,
            case.columns,
            case.values.as_ptr(),
            case.values.len(),
            case.work.as_mut_ptr(),
            case.work.len(),
            &mut units,
        )
    };
    (number, units, 0)
}

/// Whether the answer is right: units, or NUMBER with the cell of the value that is wrong, and then the work area as it was lent.
fn is_right(case: &Case, (number, told, _): Answer) -> bool {
    let wrong = case.values.iter().position(|value| *value == 9);
    match wrong {
        None => number == 0 && told > 0,
        Some(place) => {
            let cell = place % case.columns * case.rows + place / case.columns;
            number == NUMBER && told == cell as u64 && case.work.iter().all(|n| *n == LENT)
        }
    }
}

/// One call, which has to be right: the nanoseconds it took.
pub fn play(case: &mut Case) -> u64 {
    let (answer, time) = timed(|| count(case));
    assert!(is_right(case, answer), "{answer:?}");
    time
}
