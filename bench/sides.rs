//! Both sides of a row: the same boards and draws, one call measured at a time.
use crate::boards::{Board, Dice};
use crate::clock;
use crate::original::zini;
use crate::ours::{Answer, Lent};
use crate::rows::{Call, ROUNDS, Row};
use std::hint::black_box;

#[derive(Clone, Copy, PartialEq)]
pub enum Side {
    Ours,
    Rust,
}

pub const SIDES: [Side; 2] = [Side::Ours, Side::Rust];

impl Side {
    pub fn word(self) -> &'static str {
        match self {
            Side::Ours => "ours",
            Side::Rust => "rust",
        }
    }
}

/// A board as each side takes it. Our work area and list are lent once and not cleared again.
pub struct Case<'a> {
    lent: Lent<'a>,
    by_rows: Vec<Vec<i32>>,
    draws: Vec<u8>,
}

/// Draws for so many rounds on each board, the same in every run: always enough in the old mode.
pub fn draws(boards: &[Board], rounds: usize) -> Vec<Vec<u8>> {
    let mut dice = Dice(99);
    let mut enough = |board: &Board| dice.bytes(4 * board.cells() * rounds);
    boards.iter().map(&mut enough).collect()
}

/// The cases of a row, with draws for a search if it is one.
pub fn cases<'a>(row: &Row, boards: &'a [Board]) -> Vec<Case<'a>> {
    let rounds = match row.call {
        Call::RandomSearch => ROUNDS,
        _ => 0,
    };
    let case = |(board, draws): (&'a Board, Vec<u8>)| Case {
        lent: Lent::new(board),
        by_rows: board.by_rows(),
        draws,
    };
    let lent = boards.iter().zip(draws(boards, rounds));
    lent.map(case).collect()
}

/// What callgrind collects, and nothing else.
#[inline(never)]
#[unsafe(no_mangle)]
fn measured(call: &mut dyn FnMut() -> Answer) -> Answer {
    black_box(call())
}

/// The name that callgrind knows it by.
pub const MEASURED: &str = "measured";

/// An answer, and the nanoseconds it took.
type Timed = (Answer, u64);

/// One call, with its time.
pub fn timed(mut call: impl FnMut() -> Answer) -> Timed {
    let begun = clock::nanoseconds();
    let answer = measured(&mut call);
    (answer, clock::nanoseconds() - begun)
}

/// One call of ours. 3BV is left out of the answer: the Rust does not count it.
fn ours(call: Call, case: &mut Case) -> Timed {
    let Case { lent, draws, .. } = case;
    match call {
        Call::ThreeBv => timed(|| (lent.three_bv().0, 0, 0)),
        Call::Greedy => timed(|| lent.greedy()),
        Call::OpeningsFirst => timed(|| lent.openings_first()),
        Call::RandomSearch => timed(|| lent.random_search(draws, ROUNDS)),
    }
}

/// One call of the Rust. The draws are lent before it, and the bytes used are told after it.
fn rust(call: Call, case: &Case) -> Timed {
    let rows = &case.by_rows;
    getrandom::lend(&case.draws);
    let ((number, clicks, _), time) = match call {
        Call::ThreeBv => timed(|| {
            zini::set_up(rows);
            (0, 0, 0)
        }),
        Call::Greedy => timed(|| (0, zini::cal_zini(rows) as u64, 0)),
        Call::OpeningsFirst => timed(|| (0, zini::cal_hzini(rows) as u64, 0)),
        Call::RandomSearch => timed(|| (0, zini::cal_rzini(rows, ROUNDS) as u64, 0)),
    };
    let used = getrandom::take_back().expect("four bytes a cell and round are enough");
    ((number, clicks, used as u64), time)
}

/// One call, by one side.
pub fn play(side: Side, call: Call, case: &mut Case) -> Timed {
    match side {
        Side::Ours => ours(call, case),
        Side::Rust => rust(call, case),
    }
}
