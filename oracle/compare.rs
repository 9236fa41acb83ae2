//! Holds ours beside the Rust on many boards, all three ways, clicks and cells, and stops at the first difference.
mod boards;
mod original;
mod ours;

use boards::{Board, Dice};
use original::Played;
use original::safe_board; // where the Rust looks for it
use ours::{Answer, Lent};

/// The refusal where the draws run dry.
const DRAWS: u8 = 6;

/// The ending of a replay that opened all safe cells and no mine.
const WON: u64 = 1;

/// How many boards and random searches were compared, and in how many of these both ran dry.
#[derive(Default)]
struct Compared {
    boards: usize,
    searches: usize,
    dry: usize,
}

/// Ends at a difference, with the board.
fn differs(board: &Board, told: String) -> ! {
    println!("{told}");
    println!("{} rows, {} columns:", board.rows, board.columns);
    for row in board.by_rows() {
        println!("{row:?}");
    }
    std::process::exit(1);
}

/// Ends where the answers differ.
fn same<A: PartialEq + std::fmt::Debug>(board: &Board, what: &str, ours: A, expected: A) {
    if ours != expected {
        differs(
            board,
            format!("{what}: ours answers {ours:?}, expected {expected:?}"),
        );
    }
}

/// Ends where a cell's labels, premium, state or last number differ.
fn same_cells(board: &Board, what: &str, ours: &[i32], expected: &[i32]) {
    if ours == expected {
        return;
    }
    let mut cells = ours.chunks(5).zip(expected.chunks(5)).enumerate();
    let (index, (ours, expected)) = cells
        .find(|(_, (ours, expected))| ours != expected)
        .expect("work areas of one length");
    differs(
        board,
        format!("{what}, cell {index}: ours has {ours:?}, expected {expected:?}"),
    );
}

/// A round's clicks and cells beside the Rust's, and its list replayed, to won.
fn same_round(board: &Board, what: &str, lent: &mut Lent, ours: Answer, rust: &Played, used: u64) {
    let clicks = rust.clicks;
    same(board, what, ours, (0, clicks, used));
    same_cells(board, what, lent.work(), &rust.cells);
    let what = format!("replay of {what}");
    same(board, &what, lent.replay(clicks), ((0, clicks, 0), WON));
    same_cells(board, &what, lent.work(), &rust.cells);
}

/// A random search beside the Rust's, with the cells of its last round; answers the bytes used, if they were enough.
fn search(total: &mut Compared, board: &Board, draws: &[u8], rounds: usize) -> Option<u64> {
    let what = format!("random search, {rounds} rounds, draws {draws:?}");
    let mut lent = Lent::new(board);
    let ours = lent.random_search(draws, rounds);
    total.searches += 1;
    let Some((rust, used)) = original::searched(board, draws, rounds) else {
        same(board, &what, ours, (DRAWS, 0, 0));
        if rounds == 1 {
            same(board, &what, lent.random_round(draws), (DRAWS, 0, 0));
        }
        total.dry += 1;
        return None;
    };
    same(board, &what, ours, (0, rust.clicks, used));
    same_cells(board, &what, lent.work(), &rust.cells);
    if rounds == 1 {
        let ours = lent.random_round(draws);
        same_round(board, "random round", &mut lent, ours, &rust, used);
    }
    Some(used)
}

/// Boards above so many cells are played with fewer rounds and draws: a round takes the Rust seconds there.
const LARGE: usize = 4096;

/// A board all three ways: with more draws than are needed, with fewer, and unless it is large with just enough and with one byte too few.
fn compare(total: &mut Compared, dice: &mut Dice, board: &Board, rounds: usize) {
    let mut lent = Lent::new(board);
    let greedy = original::played(board, false);
    let ours = lent.greedy();
    same_round(board, "greedy", &mut lent, ours, &greedy, 0);
    let openings_first = original::played(board, true);
    let ours = lent.openings_first();
    same_round(board, "openings-first", &mut lent, ours, &openings_first, 0);
    let (number, units, _) = lent.three_bv();
    let most = greedy.clicks.max(openings_first.clicks).max(units);
    same(
        board,
        "3BV, at least the clicks",
        (number, units, 0),
        (0, most, 0),
    );
    let enough = 4 * units as usize * rounds;
    let spare = dice.below(4);
    let draws = dice.bytes(enough + spare);
    let used = search(total, board, &draws, rounds).expect("four bytes a unit are enough") as usize;
    if used > 0 {
        search(total, board, &draws[..dice.below(used)], rounds);
    }
    if used > 0 && board.cells() <= LARGE {
        search(total, board, &draws[..used], rounds);
        search(total, board, &draws[..used - 1], rounds);
    }
    total.boards += 1;
}

/// Safe cells, whatever their value says.
const SAFE: [i32; 8] = [1, 5, 8, 9, -2, -100, i32::MIN, i32::MAX];

/// A random board with other values than 0 on some of its safe cells.
fn varied(dice: &mut Dice, rows: usize, columns: usize, percent: usize) -> Board {
    let mut board = Board::plain(dice, rows, columns, percent);
    for value in board.values.iter_mut().filter(|value| **value != -1) {
        if dice.below(4) == 0 {
            *value = SAFE[dice.below(SAFE.len())];
        }
    }
    board
}

/// A random board of these sides: any density, some other values, one to three rounds or, if it is large, one.
fn compare_random(total: &mut Compared, dice: &mut Dice, rows: usize, columns: usize) {
    let percent = dice.from_to(0, 100);
    let board = varied(dice, rows, columns, percent);
    let most = if board.cells() <= LARGE { 3 } else { 1 };
    let rounds = dice.from_to(1, most);
    compare(total, dice, &board, rounds);
}

/// A grid whose mines are the bits of a number.
fn of_bits(rows: usize, columns: usize, bits: u32) -> Board {
    let values = (0..rows * columns)
        .map(|k| -((bits >> k & 1) as i32))
        .collect();
    Board {
        rows,
        columns,
        values,
    }
}

/// Every grid of up to 4 by 4, with all mine sets.
fn small(total: &mut Compared, dice: &mut Dice) {
    for (rows, columns) in (1..=4).flat_map(|rows| (1..=4).map(move |columns| (rows, columns))) {
        for bits in 0..1u32 << (rows * columns) {
            let rounds = dice.from_to(1, 2);
            compare(total, dice, &of_bits(rows, columns, bits), rounds);
        }
    }
}

/// 1 by n and n by 1.
fn lines(total: &mut Compared, dice: &mut Dice) {
    for n in 1..=255 {
        for _ in 0..6 {
            compare_random(total, dice, 1, n);
            compare_random(total, dice, n, 1);
        }
    }
}

/// 512 and 513 cells, where the labelling takes its other form.
fn edges(total: &mut Compared, dice: &mut Dice) {
    for (a, b) in [(4, 128), (8, 64), (16, 32), (3, 171), (9, 57), (19, 27)] {
        for _ in 0..60 {
            compare_random(total, dice, a, b);
            compare_random(total, dice, b, a);
        }
    }
}

/// Sides up to a most, so many boards.
fn shapes(total: &mut Compared, dice: &mut Dice, most: usize, count: usize) {
    for _ in 0..count {
        let (rows, columns) = (dice.from_to(1, most), dice.from_to(1, most));
        compare_random(total, dice, rows, columns);
    }
}

/// League boards, 16 by 30, of the usual densities.
fn league(total: &mut Compared, dice: &mut Dice) {
    for _ in 0..1000 {
        let percent = dice.from_to(10, 30);
        let board = Board::plain(dice, 16, 30, percent);
        compare(total, dice, &board, 2);
    }
}

/// Searches of up to a hundred rounds: sides up to 12, then league boards with the hundred.
fn searches(total: &mut Compared, dice: &mut Dice) {
    for _ in 0..1000 {
        let (rows, columns) = (dice.from_to(1, 12), dice.from_to(1, 12));
        let percent = dice.from_to(0, 40);
        let board = varied(dice, rows, columns, percent);
        let rounds = dice.from_to(4, 100);
        compare(total, dice, &board, rounds);
    }
    for _ in 0..40 {
        let percent = dice.from_to(10, 30);
        let board = Board::plain(dice, 16, 30, percent);
        compare(total, dice, &board, 100);
    }
}

/// 255 by 255, from no mines to nothing else.
fn largest(total: &mut Compared, dice: &mut Dice) {
    for percent in [0, 1, 2, 5, 10, 15, 20, 30, 90, 99, 100] {
        let board = varied(dice, 255, 255, percent);
        compare(total, dice, &board, 1);
    }
}

/// Compares one kind of board, says how many there were, and adds them up.
fn part(whole: &mut Compared, name: &str, run: impl FnOnce(&mut Compared)) {
    let mut total = Compared::default();
    run(&mut total);
    println!("{name}: {} boards", total.boards);
    whole.boards += total.boards;
    whole.searches += total.searches;
    whole.dry += total.dry;
}

fn run() {
    let seed = std::env::args()
        .nth(1)
        .map_or(7, |word| word.parse().expect("a seed is a number"));
    let mut dice = Dice(seed);
    let mut whole = Compared::default();
    part(&mut whole, "every grid up to 4 by 4", |total| {
        small(total, &mut dice)
    });
    part(&mut whole, "1 by n and n by 1", |total| {
        lines(total, &mut dice)
    });
    part(&mut whole, "512 and 513 cells", |total| {
        edges(total, &mut dice)
    });
    part(&mut whole, "sides up to 12", |total| {
        shapes(total, &mut dice, 12, 20000)
    });
    part(&mut whole, "sides up to 40", |total| {
        shapes(total, &mut dice, 40, 3000)
    });
    part(&mut whole, "16 by 30", |total| league(total, &mut dice));
    part(&mut whole, "searches of up to 100 rounds", |total| {
        searches(total, &mut dice)
    });
    part(&mut whole, "sides up to 255", |total| {
        shapes(total, &mut dice, 255, 48)
    });
    part(&mut whole, "255 by 255", |total| largest(total, &mut dice));
    let Compared {
        boards,
        searches,
        dry,
    } = whole;
    println!(
        "{boards} boards compared, clicks and cells of greedy, openings-first and {searches} random searches, {dry} of them dry: no difference"
    );
}

fn main() {
    original::on_a_deep_stack(run);
}
