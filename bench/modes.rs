//! What is measured of the modes of our draws, of which the Rust has the old one: random search in both, on the same boards with the same draws.
use crate::boards::{Board, Dice};
use crate::lots::{Lot, largest, league};
use crate::ours::Answer;
use crate::rows::ROUNDS;
use crate::sides::{draws, timed};

unsafe extern "C" {
    fn lavgerin_random_search(
        rows: usize,
        columns: usize,
        grid: *const i32,
        grid_length: usize,
        work: *mut i32,
        work_length: usize,
        draws: *const u8,
        draws_length: usize,
        fair: u8,
        rounds: usize,
        clicks: &mut u64,
        used: &mut u64,
    ) -> u8;
}

/// What lent memory has in every place before a call.
const LENT: i32 = 7;

/// Words lent a board, in both modes, beyond those that are always enough in the old one.
pub const SPARE: usize = 100;

/// The modes of the draws, by the number that the call takes.
#[derive(Clone, Copy, PartialEq)]
pub enum Mode {
    Old = 0,
    Fair = 1,
}

impl Mode {
    pub fn name(self) -> &'static str {
        match self {
            Mode::Old => "old",
            Mode::Fair => "fair",
        }
    }
}

/// A row of the modes' table. Time is the median of so many samples, each of one search a board.
#[derive(Clone, Copy)]
pub struct Row {
    pub mode: Mode,
    pub lot: Lot,
    pub rounds: usize,
    pub samples: usize,
}

/// The rows: of each lot the old mode comes first, for the fair one to be held to. The first lot is that of the random search beside the Rust.
pub fn all() -> Vec<Row> {
    let of = |lot, rounds, samples| {
        [Mode::Old, Mode::Fair].map(|mode| Row {
            mode,
            lot,
            rounds,
            samples,
        })
    };
    [of(league(20), ROUNDS, 51), of(largest(20), 1, 11)].concat()
}

impl Row {
    /// The name of callgrind's file: the mode, rows, columns, mines.
    pub fn file_name(&self) -> String {
        format!("mode-{}-{}", self.mode.name(), self.lot.file_name())
    }
}

/// A board, the memory and the draws lent for it, what the old mode answers if it isn't this one, and the draw bytes that the last search used.
pub struct Case<'a> {
    row: Row,
    board: &'a Board,
    work: Vec<i32>,
    draws: Vec<u8>,
    old: Option<Answer>,
    pub used: u64,
}

/// The cases of a row. After the search that tells what the old mode answers the work area is as before it.
pub fn cases<'a>(row: &Row, boards: &'a [Board]) -> Vec<Case<'a>> {
    let mut dice = Dice(100);
    let mut case = |(board, draws): (&'a Board, Vec<u8>)| {
        let mut case = Case {
            row: *row,
            board,
            work: vec![LENT; 5 * board.cells()],
            draws: [draws, dice.bytes(4 * SPARE)].concat(),
            old: None,
            used: 0,
        };
        if row.mode == Mode::Fair {
            case.old = Some(search(&mut case, Mode::Old));
            case.work.fill(LENT);
        }
        case
    };
    let lent = boards.iter().zip(draws(boards, row.rounds));
    lent.map(&mut case).collect()
}

/// One search of so many rounds by these draws.
pub fn search_by(board: &Board, work: &mut [i32], draws: &[u8], mode: Mode, rounds: usize) -> Answer {
    let (mut clicks, mut used) = (0, 0);
    // SAFETY: each pointer is of a slice with the length beside it, and none of them overlap.
    let number = unsafe {
        lavgerin_random_search(
            board.rows,
            board.columns,
            board.values.as_ptr(),
            board.values.len(),
            work.as_mut_ptr(),
            work.len(),
            draws.as_ptr(),
            draws.len(),
            mode as u8,
            rounds,
            &mut clicks,
            &mut used,
        )
    };
    (number, clicks, used)
}

/// The search of a case.
fn search(case: &mut Case, mode: Mode) -> Answer {
    search_by(case.board, &mut case.work, &case.draws, mode, case.row.rounds)
}

/// Whether the fair mode may spend one of the words that the old mode takes: it is below 2^32 by no more than there are cells, and so candidates.
fn may_spend(case: &Case, taken: u64) -> bool {
    let (words, _) = case.draws[..taken as usize].as_chunks();
    let below = u32::MAX - case.board.cells() as u32;
    words.iter().any(|word| u32::from_le_bytes(*word) > below)
}

/// Whether the answer is right: success, and the old mode's clicks and draw bytes used unless a word was spent.
fn is_right(case: &Case, answer: Answer) -> bool {
    let (number, _, used) = answer;
    let spent = |taken| used != taken && may_spend(case, taken);
    let fits = |old: Answer| answer == old || spent(old.2);
    number == 0 && case.old.is_none_or(fits)
}

/// One search, whose answer has to be right: the nanoseconds it took.
pub fn play(case: &mut Case) -> u64 {
    let (answer, time) = timed(|| search(case, case.row.mode));
    assert!(is_right(case, answer), "{answer:?}: {:?}", case.old);
    case.used = answer.2;
    time
}
