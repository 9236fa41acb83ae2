//! What is measured of our MBF files, which the Rust has none of: a file read, or a grid written, on a lot of boards.
use crate::boards::Board;
use crate::lots::{Lot, largest, league};
use crate::ours::Answer;
use crate::sides::timed;

unsafe extern "C" {
    fn lavgerin_read_mbf(
        file: *const u8,
        file_length: usize,
        grid: *mut i32,
        grid_length: usize,
        rows: &mut u64,
        columns: &mut u64,
    ) -> u8;
    fn lavgerin_write_mbf(
        rows: usize,
        columns: usize,
        grid: *const i32,
        grid_length: usize,
        file: *mut u8,
        file_length: usize,
        written: &mut u64,
    ) -> u8;
}

/// FILE, the refusal.
const FILE: u8 = 10;

/// What lent memory has in every place before a call.
const LENT_VALUE: i32 = 7;
const LENT_BYTE: u8 = 9;

#[derive(Clone, Copy, PartialEq)]
pub enum Work {
    Read,
    ReadTwice,
    Write,
}

impl Work {
    pub fn name(self) -> &'static str {
        match self {
            Work::Read => "read",
            Work::ReadTwice => "read, the last mine listed twice: refused",
            Work::Write => "write",
        }
    }

    /// As it stands in the name of callgrind's file.
    fn file_name(self) -> &'static str {
        match self {
            Work::Read => "read",
            Work::ReadTwice => "twice",
            Work::Write => "write",
        }
    }
}

/// A row of the files' table. Time is the median of so many samples, each of one call a board.
#[derive(Clone, Copy)]
pub struct Row {
    pub work: Work,
    pub lot: Lot,
    pub samples: usize,
}

/// The rows: of each kind of board the one without a mine comes first, for the others to be held to.
pub fn all() -> Vec<Row> {
    let row = |work, lot, samples| Row { work, lot, samples };
    let both = |work| {
        [
            row(work, league(1).without_mines(), 51),
            row(work, league(100), 51),
            row(work, largest(0), 11),
            row(work, largest(20), 11),
            row(work, largest(100), 11),
        ]
    };
    let mut rows = both(Work::Read).to_vec();
    rows.push(row(Work::ReadTwice, largest(100), 11));
    rows.extend(both(Work::Write));
    rows
}

impl Row {
    /// The name of callgrind's file: what is done, rows, columns, mines.
    pub fn file_name(&self) -> String {
        format!("{}-{}", self.work.file_name(), self.lot.file_name())
    }

    /// Whether this is the row of the same sides without mines, read or written as the other is.
    pub fn is_bare_of(&self, other: &Row) -> bool {
        let sides = |lot: &Lot| (lot.rows, lot.columns);
        let writes = |row: &Row| row.work == Work::Write;
        self.lot.mines == 0
            && sides(&self.lot) == sides(&other.lot)
            && writes(self) == writes(other)
    }

    /// The mines that a file of this row lists.
    pub fn listed(&self) -> usize {
        self.lot.mines + usize::from(self.work == Work::ReadTwice)
    }
}

/// A board, its file, and what is lent for the other one of them.
pub struct Case<'a> {
    work: Work,
    board: &'a Board,
    file: Vec<u8>,
    values: Vec<i32>,
    written: Vec<u8>,
}

/// The cases of a row.
pub fn cases<'a>(row: &Row, boards: &'a [Board]) -> Vec<Case<'a>> {
    let case = |board: &'a Board| {
        let file = file_of(board, row.work == Work::ReadTwice);
        Case {
            work: row.work,
            board,
            values: vec![LENT_VALUE; board.cells()],
            written: vec![LENT_BYTE; file.len()],
            file,
        }
    };
    boards.iter().map(case).collect()
}

/// The file of a board, its mines in index order; the last of them once more if it is to be refused.
fn file_of(board: &Board, twice: bool) -> Vec<u8> {
    let is_mine = |(column, row): &(usize, usize)| board.values[row * board.columns + column] == -1;
    let cells = (0..board.columns).flat_map(|column| (0..board.rows).map(move |row| (column, row)));
    let mut mines: Vec<(usize, usize)> = cells.filter(is_mine).collect();
    if twice {
        mines.push(*mines.last().expect("a mine"));
    }
    let head = [
        board.columns,
        board.rows,
        mines.len() / 256,
        mines.len() % 256,
    ];
    let listed = mines.into_iter().flat_map(|(column, row)| [column, row]);
    head.into_iter()
        .chain(listed)
        .map(|byte| byte as u8)
        .collect()
}

/// One read.
fn read(case: &mut Case) -> Answer {
    let Case { file, values, .. } = case;
    let (mut rows, mut columns) = (0, 0);
    // SAFETY: each pointer is of a vector with the length beside it, and the two do not overlap.
    let number = unsafe {
        lavgerin_read_mbf(
            file.as_ptr(),
            file.len(),
            values.as_mut_ptr(),
            values.len(),
            &mut rows,
            &mut columns,
        )
    };
    (number, rows, columns)
}

/// One write.
fn write(case: &mut Case) -> Answer {
    let Case { board, written, .. } = case;
    let mut bytes = 0;
    // SAFETY: each pointer is of a vector with the length beside it, and the two do not overlap.
    let number = unsafe {
        lavgerin_write_mbf(
            board.rows,
            board.columns,
            board.values.as_ptr(),
            board.values.len(),
            written.as_mut_ptr(),
            written.len(),
            &mut bytes,
        )
    };
    (number, bytes, 0)
}

/// Whether the answer is right, and what was written: the mines of the board, its file, or nothing.
fn is_right(case: &Case, answer: Answer) -> bool {
    let Case {
        board,
        file,
        values,
        written,
        ..
    } = case;
    let same = |(value, mine): (&i32, &i32)| (*value == -1) == (*mine == -1) && *value <= 8;
    match case.work {
        Work::Read => {
            answer == (0, board.rows as u64, board.columns as u64)
                && values.iter().zip(&board.values).all(same)
        }
        Work::ReadTwice => {
            answer == (FILE, 0, 0) && values.iter().all(|value| *value == LENT_VALUE)
        }
        Work::Write => answer == (0, file.len() as u64, 0) && written == file,
    }
}

/// One call, which has to be right: the nanoseconds it took.
pub fn play(case: &mut Case) -> u64 {
    let (answer, time) = match case.work {
        Work::Write => timed(|| write(case)),
        _ => timed(|| read(case)),
    };
    assert!(is_right(case, answer), "{answer:?}");
    time
}
