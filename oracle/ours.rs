//! Ours, by the C names: linked with the archive, or afar, in a program of its own, where the processor is none that the archive is for.
use crate::boards::Board;

#[cfg_attr(afar, path = "afar.rs")]
#[cfg_attr(not(afar), path = "linked.rs")]
mod names;

/// What a call returned, and its two answers, 0 where it has none.
pub type Answer = (u8, u64, u64);

/// An answer, and a replay's ending: 0 unfinished, 1 won, 2 lost; 0 for the other calls.
pub type Told = (Answer, u64);

/// The calls; oracle/calls.c knows them by their places here.
enum Call {
    ThreeBv,
    Greedy,
    OpeningsFirst,
    RandomRound,
    RandomSearch,
    Replay,
}

/// A board and the memory lent for it.
pub struct Lent<'a> {
    board: &'a Board,
    work: Vec<i32>,
    list: Vec<u32>,
}

impl<'a> Lent<'a> {
    /// Just as much memory as the calls ask for.
    pub fn new(board: &'a Board) -> Lent<'a> {
        let cells = board.cells();
        Lent {
            board,
            work: vec![7; 5 * cells],
            list: vec![9; cells],
        }
    }

    /// The same with a list of moves to replay; only bench/ lends one.
    #[allow(dead_code)]
    pub fn with_list(board: &'a Board, list: Vec<u32>) -> Lent<'a> {
        Lent {
            list,
            ..Lent::new(board)
        }
    }

    /// The list, as the call before left it.
    #[allow(dead_code)]
    pub fn list(&self) -> &[u32] {
        &self.list
    }

    /// The five numbers of each cell, as the call before left them.
    pub fn work(&self) -> &[i32] {
        &self.work
    }

    pub fn three_bv(&mut self) -> Answer {
        names::call(self, Call::ThreeBv, &[], 0).0
    }

    pub fn greedy(&mut self) -> Answer {
        names::call(self, Call::Greedy, &[], 0).0
    }

    pub fn openings_first(&mut self) -> Answer {
        names::call(self, Call::OpeningsFirst, &[], 0).0
    }

    pub fn random_round(&mut self, draws: &[u8]) -> Answer {
        names::call(self, Call::RandomRound, draws, 0).0
    }

    pub fn random_search(&mut self, draws: &[u8], rounds: usize) -> Answer {
        names::call(self, Call::RandomSearch, draws, rounds).0
    }

    /// Replays the first moves of the list that the call before wrote.
    pub fn replay(&mut self, count: u64) -> Told {
        names::call(self, Call::Replay, &[], count as usize)
    }
}
