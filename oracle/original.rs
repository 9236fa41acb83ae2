//! The Rust of the folder that the caller named, its text unchanged, and its three entries on our boards.
use crate::boards::Board;
use std::panic;

#[allow(unexpected_cfgs, dead_code)]
pub mod safe_board {
    include!(concat!(
        env!("ORACLE_FOLDER"),
        "/src--base--src--safe_board.rs.txt"
    ));
}

pub mod zini {
    include!(concat!(
        env!("ORACLE_FOLDER"),
        "/src--base--src--zini.rs.txt"
    ));

    /// What the three entries do before their first click; only bench/ calls it.
    #[allow(dead_code)]
    pub fn set_up(board: &[Vec<i32>]) {
        let (height, width) = (board.len(), board[0].len());
        let mut cells = build_cells_ref(board, height, width);
        initboard(&mut cells, width, height);
        std::hint::black_box(&cells);
    }

    /// A cell as a work area has it: both labels, premium, state (0 closed, 1 opened, 2 flagged), 0. A mine's premium, kept and never used, is left out.
    fn five_numbers(cell: &Zcell) -> [i32; 5] {
        let premium = if cell.mine { 0 } else { cell.premium };
        let state = i32::from(cell.opened) + 2 * i32::from(cell.flagged);
        [cell.opening as i32, cell.opening2 as i32, premium, state, 0]
    }

    /// A round as the entries play it, by one of the two algorithms: clicks, and the cells at the end.
    fn round(
        board: &[Vec<i32>],
        algorithm: fn(&mut [Zcell], usize, usize, bool, bool) -> usize,
        openings_first: bool,
    ) -> (usize, Vec<i32>) {
        let (height, width) = (board.len(), board[0].len());
        let mut cells = build_cells_ref(board, height, width);
        initboard(&mut cells, width, height);
        let clicks = algorithm(&mut cells, width, height, openings_first, openings_first);
        (clicks, cells.iter().flat_map(five_numbers).collect())
    }

    /// `cal_zini` once more, or `cal_hzini`.
    pub fn play(board: &[Vec<i32>], openings_first: bool) -> (usize, Vec<i32>) {
        round(board, zinialg, openings_first)
    }

    /// `cal_rzini` once more: the least clicks, and the cells of the last round. There is one round at least.
    pub fn search(board: &[Vec<i32>], rounds: usize) -> (usize, Vec<i32>) {
        let (mut least, mut cells) = round(board, zinialg_rng, false);
        for _ in 1..rounds {
            let (clicks, last) = round(board, zinialg_rng, false);
            least = least.min(clicks);
            cells = last;
        }
        (least, cells)
    }
}

/// A stack for 65,025 calls deep.
const STACK: usize = 1 << 29;

/// Runs on a stack that is deep enough, with nothing printed where the Rust panics for want of bytes.
pub fn on_a_deep_stack(run: fn()) {
    panic::set_hook(Box::new(|info| {
        if !getrandom::is_dry() {
            eprintln!("{info}");
        }
    }));
    let builder = std::thread::Builder::new().stack_size(STACK);
    let thread = builder.spawn(run).expect("room for the stack");
    if thread.join().is_err() {
        std::process::exit(2);
    }
}

/// Clicks of `cal_zini`.
pub fn greedy(board: &Board) -> u64 {
    zini::cal_zini(&board.by_rows()) as u64
}

/// Clicks of `cal_hzini`.
pub fn openings_first(board: &Board) -> u64 {
    zini::cal_hzini(&board.by_rows()) as u64
}

/// Clicks of `cal_rzini` and the bytes it used, or nothing where it ran dry.
pub fn random_search(board: &Board, draws: &[u8], rounds: usize) -> Option<(u64, u64)> {
    getrandom::lend(draws);
    let by_rows = board.by_rows();
    let clicks = panic::catch_unwind(|| zini::cal_rzini(&by_rows, rounds));
    match (clicks, getrandom::take_back()) {
        (Ok(clicks), used) => Some((clicks as u64, used? as u64)),
        (Err(_), None) => None,
        (Err(panic), Some(_)) => panic::resume_unwind(panic),
    }
}

/// Clicks, and the cells at the end, five numbers each as in a work area.
pub struct Played {
    pub clicks: u64,
    pub cells: Vec<i32>,
}

/// What `cal_zini` or `cal_hzini` comes to: the entry answers clicks alone, and is played once more for the cells.
pub fn played(board: &Board, is_openings_first: bool) -> Played {
    let (clicks, cells) = zini::play(&board.by_rows(), is_openings_first);
    let clicks = clicks as u64;
    let entry = if is_openings_first {
        openings_first
    } else {
        greedy
    };
    assert_eq!(clicks, entry(board), "the entry answers otherwise");
    Played { clicks, cells }
}

/// What `cal_rzini` comes to, with the last round's cells, and the bytes it used; nothing where it ran dry.
pub fn searched(board: &Board, draws: &[u8], rounds: usize) -> Option<(Played, u64)> {
    let (clicks, used) = random_search(board, draws, rounds)?;
    getrandom::lend(draws);
    let (least, cells) = zini::search(&board.by_rows(), rounds);
    let once_more = (least as u64, getrandom::take_back());
    let entry = (clicks, Some(used as usize));
    assert_eq!(once_more, entry, "the entry answers otherwise");
    Some((Played { clicks, cells }, used))
}
