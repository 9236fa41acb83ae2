//! Boards that are measured together.
use crate::boards::{Board, Dice};

/// So many boards of one shape with just so many mines.
#[derive(Clone, Copy, PartialEq)]
pub struct Lot {
    pub rows: usize,
    pub columns: usize,
    pub mines: usize,
    pub boards: usize,
}

/// 16 by 30 with 99 mines.
pub fn league(boards: usize) -> Lot {
    let (rows, columns, mines) = (16, 30, 99);
    Lot {
        rows,
        columns,
        mines,
        boards,
    }
}

/// One board of 255 by 255, so many cells of a hundred mines.
pub fn largest(percent: usize) -> Lot {
    let (rows, columns) = (255, 255);
    Lot {
        rows,
        columns,
        mines: rows * columns * percent / 100,
        boards: 1,
    }
}

impl Lot {
    /// The same boards without their mines.
    pub fn without_mines(self) -> Lot {
        Lot { mines: 0, ..self }
    }

    pub fn cells(&self) -> usize {
        self.rows * self.columns
    }

    /// The sides and the mines.
    pub fn name(&self) -> String {
        let percent = 100.0 * self.mines as f64 / self.cells() as f64;
        format!(
            "{} by {}, {} mines ({percent:.1} %)",
            self.rows, self.columns, self.mines
        )
    }

    /// As it stands in the name of callgrind's file: rows, columns, mines.
    pub fn file_name(&self) -> String {
        format!("{}-{}-{}", self.rows, self.columns, self.mines)
    }

    /// The boards, the same in every run and for every call: just so many mines, each set of cells as likely as another.
    pub fn make(&self) -> Vec<Board> {
        let mut dice = Dice(9);
        (0..self.boards).map(|_| self.board(&mut dice)).collect()
    }

    fn board(&self, dice: &mut Dice) -> Board {
        let mut values = vec![0; self.cells()];
        for last in self.cells() - self.mines..self.cells() {
            let at = dice.below(last + 1);
            let free = if values[at] == -1 { last } else { at };
            values[free] = -1;
        }
        Board {
            rows: self.rows,
            columns: self.columns,
            values,
        }
    }
}
