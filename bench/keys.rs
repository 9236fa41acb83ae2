//! What is measured of searches by a key: beside the same searches by lent bytes, which are the key's words, so that both play the same rounds.
use crate::boards::{Board, Dice};
use crate::lots::{Lot, largest, league};
use crate::modes::Mode;
use crate::ours::Answer;
use crate::sides::timed;

unsafe extern "C" {
    fn lavgerin_keyed_search(
        rows: usize,
        columns: usize,
        grid: *const i32,
        grid_length: usize,
        work: *mut i32,
        work_length: usize,
        key: *mut u32,
        key_length: usize,
        fair: u8,
        rounds: usize,
        clicks: &mut u64,
        used: &mut u64,
    ) -> u8;
}

/// What lent memory has in every place before a call.
const LENT: i32 = 7;

/// Where the draws of a search come from.
#[derive(Clone, Copy, PartialEq)]
pub enum Origin {
    Lent,
    Key,
}

impl Origin {
    pub fn name(self) -> &'static str {
        match self {
            Origin::Lent => "lent bytes",
            Origin::Key => "a key",
        }
    }
}

/// A row of the keys' table. Time is the median of so many samples, each of one search a board.
#[derive(Clone, Copy)]
pub struct Row {
    pub origin: Origin,
    pub mode: Mode,
    pub lot: Lot,
    pub rounds: usize,
    pub samples: usize,
}

/// The rows: in each mode the lent bytes come first, for the key to be held to.
pub fn all() -> Vec<Row> {
    let of = |lot, rounds, samples, mode| {
        [Origin::Lent, Origin::Key].map(|origin| Row {
            origin,
            mode,
            lot,
            rounds,
            samples,
        })
    };
    let both = |lot, rounds, samples| [Mode::Old, Mode::Fair].map(|mode| of(lot, rounds, samples, mode)).concat();
    [both(league(3), 1000, 11), both(largest(20), 1, 5)].concat()
}

impl Row {
    /// The name of callgrind's file: the origin, the mode, rows, columns, mines.
    pub fn file_name(&self) -> String {
        let origin = if self.origin == Origin::Key { "key" } else { "lent" };
        format!("{origin}-{}-{}", self.mode.name(), self.lot.file_name())
    }
}

/// Five words and a counter.
#[derive(Clone, Copy, PartialEq, Debug)]
struct Key([u32; 6]);

impl Key {
    fn made(dice: &mut Dice) -> Key {
        let bytes = dice.bytes(24);
        let (words, _) = bytes.as_chunks();
        let mut numbers = [0; 6];
        for (number, word) in numbers.iter_mut().zip(words) {
            *number = u32::from_le_bytes(*word);
        }
        Key(numbers)
    }

    /// One word more.
    fn word(&mut self) -> u32 {
        let [x, y, z, w, v, d] = self.0;
        let t = x ^ (x >> 2);
        let last = (v ^ (v << 4)) ^ (t ^ (t << 1));
        let d = d.wrapping_add(362437);
        self.0 = [y, z, w, v, last, d];
        d.wrapping_add(last)
    }

    /// The bytes of so many words.
    fn bytes(mut self, words: usize) -> Vec<u8> {
        (0..words).flat_map(|_| self.word().to_le_bytes()).collect()
    }

    /// The key after so many bytes.
    fn after(mut self, used: u64) -> Key {
        for _ in 0..used / 4 {
            self.word();
        }
        self
    }
}

/// A board, the memory lent for it, its key, the key's words as bytes, and what the lent bytes come to.
pub struct Case<'a> {
    row: Row,
    board: &'a Board,
    work: Vec<i32>,
    key: Key,
    draws: Vec<u8>,
    lent: Answer,
    after: Key,
}

/// The cases of a row. After the search that tells what the lent bytes come to the work area is as before it.
pub fn cases<'a>(row: &Row, boards: &'a [Board]) -> Vec<Case<'a>> {
    let mut dice = Dice(101);
    let mut case = |board: &'a Board| {
        let key = Key::made(&mut dice);
        let mut case = Case {
            row: *row,
            board,
            work: vec![LENT; 5 * board.cells()],
            key,
            draws: key.bytes(board.cells() * row.rounds),
            lent: (0, 0, 0),
            after: key,
        };
        case.lent = crate::modes::search_by(board, &mut case.work, &case.draws, row.mode, row.rounds);
        case.after = key.after(case.lent.2);
        case.work.fill(LENT);
        case
    };
    boards.iter().map(&mut case).collect()
}

/// One search by the key, and the key after it.
fn by_key(case: &mut Case) -> (Answer, Key) {
    let (mut clicks, mut used, mut key) = (0, 0, case.key.0);
    // SAFETY: each pointer is of a vector or an array with the length beside it, and none of them overlap.
    let number = unsafe {
        lavgerin_keyed_search(
            case.board.rows,
            case.board.columns,
            case.board.values.as_ptr(),
            case.board.values.len(),
            case.work.as_mut_ptr(),
            case.work.len(),
            key.as_mut_ptr(),
            key.len(),
            case.row.mode as u8,
            case.row.rounds,
            &mut clicks,
            &mut used,
        )
    };
    ((number, clicks, used), Key(key))
}

/// One search, whose answer has to be that of the lent bytes, with the key after them: the nanoseconds it took.
pub fn play(case: &mut Case) -> u64 {
    let mut after = case.after;
    let (answer, time) = timed(|| match case.row.origin {
        Origin::Lent => crate::modes::search_by(case.board, &mut case.work, &case.draws, case.row.mode, case.row.rounds),
        Origin::Key => {
            let (answer, handed_back) = by_key(case);
            after = handed_back;
            answer
        }
    });
    assert!(answer.0 == 0 && answer == case.lent && after == case.after, "{answer:?}: {:?}", case.lent);
    time
}
