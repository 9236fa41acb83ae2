//! The calls by their C names, linked with the archive.
use super::{Call, Lent, Told};

#[link(name = "lavgerin", kind = "static")]
unsafe extern "C" {
    fn lavgerin_three_bv(
        rows: usize,
        columns: usize,
        grid: *const i32,
        grid_length: usize,
        work: *mut i32,
        work_length: usize,
        units: &mut u64,
    ) -> u8;
    fn lavgerin_greedy(
        rows: usize,
        columns: usize,
        grid: *const i32,
        grid_length: usize,
        work: *mut i32,
        work_length: usize,
        list: *mut u32,
        list_length: usize,
        clicks: &mut u64,
    ) -> u8;
    fn lavgerin_openings_first(
        rows: usize,
        columns: usize,
        grid: *const i32,
        grid_length: usize,
        work: *mut i32,
        work_length: usize,
        list: *mut u32,
        list_length: usize,
        clicks: &mut u64,
    ) -> u8;
    fn lavgerin_random_round(
        rows: usize,
        columns: usize,
        grid: *const i32,
        grid_length: usize,
        work: *mut i32,
        work_length: usize,
        list: *mut u32,
        list_length: usize,
        draws: *const u8,
        draws_length: usize,
        fair: u8,
        clicks: &mut u64,
        used: &mut u64,
    ) -> u8;
    fn lavgerin_random_search(
        rows: usize,
        columns: usize,
        grid: *const i32,
        grid_length: usize,
        work: *mut i32,
        work_length: usize,
        draws: *const u8,
        draws_length: usize,
        fair: u8,
        rounds: usize,
        clicks: &mut u64,
        used: &mut u64,
    ) -> u8;
    fn lavgerin_replay(
        rows: usize,
        columns: usize,
        grid: *const i32,
        grid_length: usize,
        work: *mut i32,
        work_length: usize,
        list: *const u32,
        list_length: usize,
        count: usize,
        made: &mut u64,
        closed: &mut u64,
        ending: &mut u64,
    ) -> u8;
}

/// The old mode of the draws, which is the Rust's.
const OLD: u8 = 0;

/// A call: the board and the work area first, then what else it takes, then its answers.
macro_rules! by_name {
    ($name:ident, $lent:expr, [$($more:expr),*], [$($answer:expr),*]) => {
        // SAFETY: each pointer is of a vector with the length beside it, and none of them overlap.
        unsafe {
            $name(
                $lent.board.rows, $lent.board.columns, $lent.board.values.as_ptr(), $lent.board.values.len(),
                $lent.work.as_mut_ptr(), $lent.work.len(), $($more,)* $($answer),*
            )
        }
    };
}

/// One call. Count is the rounds of a search or the moves of a replay.
#[inline(always)]
pub fn call(lent: &mut Lent, call: Call, draws: &[u8], count: usize) -> Told {
    let (mut first, mut second, mut ending) = (0, 0, 0);
    let (list, length) = (lent.list.as_mut_ptr(), lent.list.len());
    let (bytes, bytes_length) = (draws.as_ptr(), draws.len());
    let number = match call {
        Call::ThreeBv => by_name!(lavgerin_three_bv, lent, [], [&mut first]),
        Call::Greedy => by_name!(lavgerin_greedy, lent, [list, length], [&mut first]),
        Call::OpeningsFirst => {
            by_name!(lavgerin_openings_first, lent, [list, length], [&mut first])
        }
        Call::RandomRound => by_name!(
            lavgerin_random_round,
            lent,
            [list, length, bytes, bytes_length, OLD],
            [&mut first, &mut second]
        ),
        Call::RandomSearch => by_name!(
            lavgerin_random_search,
            lent,
            [bytes, bytes_length, OLD, count],
            [&mut first, &mut second]
        ),
        Call::Replay => by_name!(
            lavgerin_replay,
            lent,
            [list, length, count],
            [&mut first, &mut second, &mut ending]
        ),
    };
    ((number, first, second), ending)
}
