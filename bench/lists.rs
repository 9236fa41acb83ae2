//! Lists of moves to replay, and what each comes to.
use crate::boards::Board;
use crate::ours::Lent;

/// How a replayed game ends.
const UNFINISHED: u64 = 0;
const WON: u64 = 1;

/// The kinds of moves.
const LEFT: u32 = 1;
const FLAG: u32 = 2;
const CHORD: u32 = 3;
const UNFLAG: u32 = 4;

/// Moves of a long list of flags, and chords of a list of chords.
const FLAGS: usize = 1_000_000;
const CHORDS: usize = 100_000;

#[derive(Clone, Copy, PartialEq)]
pub enum List {
    Empty,
    Greedy,
    OneFlag,
    AllFlags,
    OneClick,
    Chords,
}

impl List {
    pub fn name(self) -> &'static str {
        match self {
            List::Empty => "no move",
            List::Greedy => "greedy's list",
            List::OneFlag => "F and kind 4 in turn, on one cell",
            List::AllFlags => "F and kind 4 in turn, on each cell",
            List::OneClick => "one L",
            List::Chords => "L, its mines flagged, then C again and again",
        }
    }

    /// As it stands in the name of callgrind's file.
    pub fn file_name(self) -> &'static str {
        match self {
            List::Empty => "none",
            List::Greedy => "greedy",
            List::OneFlag => "flag",
            List::AllFlags => "flags",
            List::OneClick => "click",
            List::Chords => "chords",
        }
    }

    /// The list on a board.
    pub fn script(self, board: &Board) -> Script {
        match self {
            List::Empty => unfinished(vec![], safe(board)),
            List::Greedy => won(greedy(board)),
            List::OneFlag => unfinished(flags(1), safe(board)),
            List::AllFlags => unfinished(flags(board.cells()), safe(board)),
            List::OneClick => won(vec![a_move(LEFT, 0)]),
            List::Chords => chords(board),
        }
    }
}

/// Moves, and what their replay comes to: the safe cells still closed, and the ending.
pub struct Script {
    pub moves: Vec<u32>,
    pub closed: u64,
    pub ending: u64,
}

/// Moves that leave so many safe cells closed.
fn unfinished(moves: Vec<u32>, closed: usize) -> Script {
    Script {
        moves,
        closed: closed as u64,
        ending: UNFINISHED,
    }
}

/// Moves that win.
fn won(moves: Vec<u32>) -> Script {
    Script {
        moves,
        closed: 0,
        ending: WON,
    }
}

fn a_move(kind: u32, index: usize) -> u32 {
    kind * 65536 + index as u32
}

/// The list that greedy writes.
fn greedy(board: &Board) -> Vec<u32> {
    let mut lent = Lent::new(board);
    let (number, clicks, _) = lent.greedy();
    assert!(number == 0, "greedy refuses no such board");
    lent.list()[..clicks as usize].to_vec()
}

/// A flag put and taken away at once, on the first cells one after the other, over and over.
fn flags(cells: usize) -> Vec<u32> {
    let cell = |place: usize| place / 2 % cells;
    let kind = |place: usize| {
        if place.is_multiple_of(2) {
            FLAG
        } else {
            UNFLAG
        }
    };
    let flag = |place| a_move(kind(place), cell(place));
    (0..FLAGS).map(flag).collect()
}

/// L on a cell amid nine without a 0-cell, its mines flagged, then C over and over: the first opens the rest of the square, and the others nothing.
fn chords(board: &Board) -> Script {
    let amid = |cell: &usize| square(board, *cell).len() == 9 && is_numbered(board, *cell);
    let cell = (0..board.cells()).find(amid).expect("such a cell");
    let (mines, opened): (Vec<usize>, Vec<usize>) = square(board, cell)
        .into_iter()
        .partition(|one| is_mine(board, *one));
    let mut moves = vec![a_move(LEFT, cell)];
    moves.extend(mines.into_iter().map(|mine| a_move(FLAG, mine)));
    moves.extend(std::iter::repeat_n(a_move(CHORD, cell), CHORDS));
    unfinished(moves, safe(board) - opened.len())
}

/// Whether a cell is safe, and no cell of its square a 0-cell.
fn is_numbered(board: &Board, cell: usize) -> bool {
    let shut = |one: usize| {
        square(board, one)
            .into_iter()
            .any(|near| is_mine(board, near))
    };
    !is_mine(board, cell) && square(board, cell).into_iter().all(shut)
}

/// Whether a cell is a mine, by its index.
fn is_mine(board: &Board, cell: usize) -> bool {
    let (column, row) = (cell / board.rows, cell % board.rows);
    board.values[row * board.columns + column] == -1
}

/// The safe cells.
fn safe(board: &Board) -> usize {
    (0..board.cells())
        .filter(|cell| !is_mine(board, *cell))
        .count()
}

/// The cells of a cell's square.
fn square(board: &Board, cell: usize) -> Vec<usize> {
    let near = |place: usize, end: usize| place.saturating_sub(1)..end.min(place + 2);
    let rows = near(cell % board.rows, board.rows);
    let columns = near(cell / board.rows, board.columns);
    columns
        .flat_map(|column| rows.clone().map(move |row| column * board.rows + row))
        .collect()
}
