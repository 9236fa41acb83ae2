//! Writes the Rust's answers on some thousand boards, a line of hexadecimal each, for program `vectors` to replay (docs/DIFFERENCES.md, 'The Rust's stored answers').
//!
//! A number is another seed; a second one asks for every grid up to 4 by 4 first, and then for so many times as many boards.
mod boards;
#[allow(dead_code)]
mod original;

use boards::{Board, Dice};
use original::safe_board; // where the Rust looks for it

/// The refusal where the draws run dry.
const DRAWS: u8 = 6;

/// One byte.
fn single(number: usize) -> u8 {
    u8::try_from(number).expect("a byte holds it")
}

/// Two bytes, high first.
fn pair(number: u64) -> [u8; 2] {
    u16::try_from(number)
        .expect("two bytes hold it")
        .to_be_bytes()
}

/// The mine bits row by row, high bit first, the last byte padded with 0 bits.
fn mine_bits(board: &Board) -> Vec<u8> {
    let bit = |(k, value): (usize, &i32)| u8::from(*value == -1) << (7 - k);
    board
        .values
        .chunks(8)
        .map(|eight| eight.iter().enumerate().map(bit).sum())
        .collect()
}

/// Draws for a board: as many as the Rust uses and a few more, or, one time in five, too few.
fn draws_for(dice: &mut Dice, board: &Board, rounds: usize) -> Vec<u8> {
    let mut draws = dice.bytes(4 * board.cells() * rounds);
    let (_, used) =
        original::random_search(board, &draws, rounds).expect("four bytes a cell are enough");
    let used = used as usize;
    let short = used > 0 && dice.below(5) == 0;
    let kept = if short {
        dice.below(used)
    } else {
        used + dice.below(4)
    };
    draws.truncate(kept);
    draws
}

/// One board's line: how many bytes follow, the board, rounds, the Rust's answers, mine bits, draws.
fn line(dice: &mut Dice, board: &Board, rounds: usize) {
    let draws = draws_for(dice, board, rounds);
    let search = original::random_search(board, &draws, rounds);
    let (number, (clicks, used)) = search.map_or((DRAWS, (0, 0)), |answer| (0, answer));
    let mut bytes = vec![single(board.rows), single(board.columns), single(rounds)];
    bytes.extend(pair(original::greedy(board)));
    bytes.extend(pair(original::openings_first(board)));
    bytes.push(number);
    bytes.extend(pair(clicks));
    bytes.extend(pair(used));
    bytes.extend(mine_bits(board));
    bytes.extend(draws);
    let head = pair(bytes.len() as u64);
    let hex = head.iter().chain(&bytes).map(|byte| format!("{byte:02X}"));
    println!("{}", hex.collect::<String>());
}

/// So many boards of these sides, from one density to another.
fn boards(
    dice: &mut Dice,
    count: usize,
    sides: fn(&mut Dice) -> (usize, usize),
    densities: (usize, usize),
) {
    for _ in 0..count {
        let (rows, columns) = sides(dice);
        let percent = dice.from_to(densities.0, densities.1);
        let board = Board::plain(dice, rows, columns, percent);
        let most = if board.cells() <= 64 { 2 } else { 1 };
        let rounds = dice.from_to(1, most);
        line(dice, &board, rounds);
    }
}

/// Two sides of 512 or 513 cells.
fn edge(dice: &mut Dice) -> (usize, usize) {
    let shapes = [(4, 128), (8, 64), (16, 32), (3, 171), (9, 57), (19, 27)];
    let (a, b) = shapes[dice.below(shapes.len())];
    if dice.below(2) == 0 { (a, b) } else { (b, a) }
}

/// Two sides of 1,024 to 2,048 cells.
fn large(dice: &mut Dice) -> (usize, usize) {
    let rows = dice.from_to(9, 255);
    (rows, dice.from_to(1024 / rows + 1, 2048 / rows))
}

/// Every grid up to 4 by 4.
fn every(dice: &mut Dice) {
    for (rows, columns) in (1..=4).flat_map(|rows| (1..=4).map(move |columns| (rows, columns))) {
        for mines in 0..1u32 << (rows * columns) {
            let value = |k| if mines >> k & 1 == 1 { -1 } else { 0 };
            let values = (0..rows * columns).map(value).collect();
            let board = Board {
                rows,
                columns,
                values,
            };
            line(dice, &board, 1);
        }
    }
}

/// The boards of docs/DIFFERENCES.md, 'The Rust's stored answers'.
fn some(dice: &mut Dice) {
    boards(
        dice,
        2000,
        |dice| (dice.from_to(1, 8), dice.from_to(1, 8)),
        (0, 100),
    );
    boards(dice, 100, |dice| (1, dice.from_to(1, 255)), (0, 100));
    boards(dice, 100, |dice| (dice.from_to(1, 255), 1), (0, 100));
    boards(
        dice,
        500,
        |dice| (dice.from_to(1, 20), dice.from_to(1, 20)),
        (0, 100),
    );
    boards(dice, 300, |_| (16, 30), (10, 30));
    boards(dice, 40, edge, (5, 60));
    boards(dice, 30, large, (0, 100));
    boards(dice, 4, |_| (32, 64), (10, 25));
}

/// The number at a place of the command line.
fn number_at(place: usize) -> Option<u64> {
    let word = std::env::args().nth(place)?;
    Some(word.parse().expect("a number"))
}

fn run() {
    let mut dice = Dice(number_at(1).unwrap_or(11));
    let times = number_at(2);
    if times.is_some() {
        every(&mut dice);
    }
    for _ in 0..times.unwrap_or(1) {
        some(&mut dice);
    }
}

fn main() {
    original::on_a_deep_stack(run);
}
