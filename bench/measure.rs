//! Measures ours and the Rust on the same boards in one run, then our replays, our files, our strict calls, our early count, the modes of our draws, our keys and the memory, and prints the tables. docs/SPEED.md says what is counted.
//!
//! With no word it runs all rows, with `replays`, `files`, `strict`, `early`, `modes`, `keys` or `memory` these alone. `count ROW SIDE`, `replay ROW`, `file ROW`, `form ROW`, `least ROW`, `mode ROW` and `key ROW` are what it runs of itself under callgrind: one call a board.
#[allow(dead_code)]
#[path = "../oracle/boards.rs"]
mod boards;
mod clock;
mod early;
mod files;
mod keys;
mod lists;
mod lots;
mod memory;
mod modes;
#[allow(dead_code)]
#[path = "../oracle/original.rs"]
mod original;
#[allow(dead_code)]
#[path = "../oracle/ours.rs"]
mod ours;
mod replays;
mod rows;
mod sides;
mod strict;
mod table;

use original::safe_board; // where the Rust looks for it
use rows::Row;
use sides::{MEASURED, SIDES, Side};
use std::process::Command;
use table::{Filed, Formed, Judged, Keyed, Measures, Replayed, Searched, Touched};

/// Prints each answer: both sides must print the same.
fn count(row: &Row, side: Side) {
    let boards = row.lot.make();
    for case in &mut sides::cases(row, &boards) {
        println!("{:?}", sides::play(side, row.call, case).0);
    }
}

/// Replays each list; ends if an answer is wrong.
fn replay(row: &replays::Row) {
    let boards = row.lot.make();
    for case in &mut replays::cases(row, &boards) {
        replays::play(case);
    }
}

/// Reads each file, or writes each grid; ends if an answer is wrong.
fn file(row: &files::Row) {
    let boards = row.lot.make();
    for case in &mut files::cases(row, &boards) {
        files::play(case);
    }
}

/// Counts each board in a form; ends if an answer is wrong.
fn form(row: &strict::Row) {
    let boards = row.lot.make();
    for case in &mut strict::cases(row, &boards) {
        strict::play(case);
    }
}

/// Counts each board until it is certain; ends if an answer is wrong.
fn least(row: &early::Row) {
    let boards = row.lot.make();
    for case in &mut early::cases(row, &boards) {
        early::play(case);
    }
}

/// Searches on each board in a mode; ends if an answer is wrong.
fn mode(row: &modes::Row) {
    let boards = row.lot.make();
    for case in &mut modes::cases(row, &boards) {
        modes::play(case);
    }
}

/// Searches on each board by lent bytes or by a key; ends if an answer is wrong.
fn key(row: &keys::Row) {
    let boards = row.lot.make();
    for case in &mut keys::cases(row, &boards) {
        keys::play(case);
    }
}

/// The numbers behind a word at the head of a line.
fn numbers_after(text: &str, word: &str) -> Vec<f64> {
    let rest = text.lines().find_map(|line| line.strip_prefix(word));
    let rest = rest.expect("callgrind tells what it collected");
    let number = |number: &str| number.parse().expect("a number");
    rest.split_whitespace().map(number).collect()
}

/// What callgrind collects with such options of this program with such words, and what it prints. callgrind's file stays in target/bench.
fn collected(file: &str, options: &[&str], words: &[&str]) -> (Vec<f64>, String) {
    let file = format!("target/bench/{file}");
    let this = std::env::current_exe().expect("a path to this program");
    let run = Command::new("valgrind")
        .args(["--tool=callgrind", "--quiet", "--collect-atstart=no"])
        .arg(format!("--toggle-collect={MEASURED}"))
        .arg(format!("--callgrind-out-file={file}"))
        .args(options)
        .arg(this)
        .args(words)
        .output()
        .expect("valgrind is installed");
    let told = String::from_utf8_lossy(&run.stderr);
    assert!(run.status.success(), "{told}");
    let collected = std::fs::read_to_string(&file).expect("callgrind's file");
    let totals = numbers_after(&collected, "totals:");
    let printed = String::from_utf8(run.stdout).expect("text");
    (totals, printed)
}

/// Instructions of one call, the mean over the boards, and the answers.
fn instructions(place: usize, row: &Row, side: Side) -> (f64, String) {
    let file = format!("{}.{}", row.file_name(), side.word());
    let words = ["count", &place.to_string(), side.word()];
    let (totals, answers) = collected(&file, &[], &words);
    (totals[0] / row.lot.boards as f64, answers)
}

/// Microseconds of one call, the mean over so many boards: the median of such samples of nanoseconds.
fn median(mut samples: Vec<u64>, boards: usize) -> f64 {
    samples.sort();
    samples[samples.len() / 2] as f64 / boards as f64 / 1000.0
}

/// Microseconds of one call on each side. The sides take turns.
fn times(row: &Row) -> [f64; 2] {
    let boards = row.lot.make();
    let mut cases = sides::cases(row, &boards);
    let mut sample = |side| {
        let time = |case| sides::play(side, row.call, case).1;
        cases.iter_mut().map(time).sum()
    };
    let mut samples = [vec![], vec![]];
    for _ in 0..row.samples {
        for (side, kept) in SIDES.into_iter().zip(&mut samples) {
            kept.push(sample(side));
        }
    }
    samples.map(|kept| median(kept, row.lot.boards))
}

/// A row measured on both sides; ends if their answers differ.
fn measure(place: usize, row: &Row) -> Measures {
    eprintln!("measuring {}", row.file_name());
    let [ours, rust] = SIDES.map(|side| instructions(place, row, side));
    assert!(ours.1 == rust.1, "other answers:\n{}\n{}", ours.1, rust.1);
    Measures {
        row: *row,
        instructions: [ours.0, rust.0],
        times: times(row),
    }
}

/// Instructions and microseconds of one call that the Rust has none of, the mean over the cases: by callgrind, which runs such words, and by so many samples.
fn alone<C>(
    name: &str,
    words: &[&str],
    cases: &mut [C],
    play: fn(&mut C) -> u64,
    samples: usize,
) -> (f64, f64) {
    eprintln!("measuring {name}");
    let (totals, _) = collected(name, &[], words);
    let count = cases.len();
    let mut sample = |_| cases.iter_mut().map(play).sum();
    let samples = (0..samples).map(&mut sample).collect();
    (totals[0] / count as f64, median(samples, count))
}

/// A replay measured.
fn measure_replay(place: usize, row: &replays::Row) -> Replayed {
    let boards = row.lot.make();
    let mut cases = replays::cases(row, &boards);
    let moves: u64 = cases.iter().map(|case| case.moves).sum();
    let words = ["replay", &place.to_string()];
    let (instructions, time) = alone(
        &row.file_name(),
        &words,
        &mut cases,
        replays::play,
        row.samples,
    );
    Replayed {
        row: *row,
        moves: moves as f64 / row.lot.boards as f64,
        instructions,
        time,
    }
}

/// A read or a write measured.
fn measure_file(place: usize, row: &files::Row) -> Filed {
    let boards = row.lot.make();
    let mut cases = files::cases(row, &boards);
    let words = ["file", &place.to_string()];
    let (instructions, time) = alone(
        &row.file_name(),
        &words,
        &mut cases,
        files::play,
        row.samples,
    );
    Filed {
        row: *row,
        instructions,
        time,
    }
}

/// A form of 3BV measured.
fn measure_form(place: usize, row: &strict::Row) -> Formed {
    let boards = row.lot.make();
    let mut cases = strict::cases(row, &boards);
    let words = ["form", &place.to_string()];
    let (instructions, time) = alone(
        &row.file_name(),
        &words,
        &mut cases,
        strict::play,
        row.samples,
    );
    Formed {
        row: *row,
        instructions,
        time,
    }
}

/// An early count measured.
fn measure_early(place: usize, row: &early::Row) -> Judged {
    let boards = row.lot.make();
    let mut cases = early::cases(row, &boards);
    let words = ["least", &place.to_string()];
    let (instructions, time) = alone(
        &row.file_name(),
        &words,
        &mut cases,
        early::play,
        row.samples,
    );
    Judged {
        row: *row,
        instructions,
        time,
    }
}

/// A random search in a mode measured.
fn measure_mode(place: usize, row: &modes::Row) -> Searched {
    let boards = row.lot.make();
    let mut cases = modes::cases(row, &boards);
    let words = ["mode", &place.to_string()];
    let (instructions, time) = alone(
        &row.file_name(),
        &words,
        &mut cases,
        modes::play,
        row.samples,
    );
    Searched {
        row: *row,
        used: cases.iter().map(|case| case.used).sum(),
        instructions,
        time,
    }
}

/// A search by lent bytes or by a key measured.
fn measure_key(place: usize, row: &keys::Row) -> Keyed {
    let boards = row.lot.make();
    let mut cases = keys::cases(row, &boards);
    let words = ["key", &place.to_string()];
    let (instructions, time) = alone(
        &row.file_name(),
        &words,
        &mut cases,
        keys::play,
        row.samples,
    );
    Keyed {
        row: *row,
        instructions,
        time,
    }
}

/// Data read and written by a call, and misses, the mean over the boards. callgrind's order: instructions, reads, writes, misses of instructions, of reads, of writes.
fn measure_memory(row: &memory::Row) -> Touched {
    eprintln!("measuring {}", row.file_name());
    let words: Vec<&str> = row.words.iter().map(String::as_str).collect();
    let (totals, _) = collected(&row.file_name(), &memory::SMALL_CACHE, &words);
    let mean = |event: usize| totals[event] / row.lot.boards as f64;
    Touched {
        name: row.name,
        lot: row.lot,
        accesses: [1, 2].map(mean),
        misses: [4, 5].map(mean),
    }
}

/// All rows beside the Rust.
fn print_rows() {
    let rows = rows::all();
    let rows = rows.iter().enumerate();
    let measured: Vec<Measures> = rows.map(|(place, row)| measure(place, row)).collect();
    table::print(&measured);
}

/// All replays.
fn print_replays() {
    let rows = replays::all();
    let rows = rows.iter().enumerate();
    let replayed = rows.map(|(place, row)| measure_replay(place, row));
    table::print_replays(&replayed.collect::<Vec<Replayed>>());
}

/// All files.
fn print_files() {
    let rows = files::all();
    let rows = rows.iter().enumerate();
    let filed = rows.map(|(place, row)| measure_file(place, row));
    table::print_files(&filed.collect::<Vec<Filed>>());
}

/// All forms.
fn print_forms() {
    let rows = strict::all();
    let rows = rows.iter().enumerate();
    let formed = rows.map(|(place, row)| measure_form(place, row));
    table::print_forms(&formed.collect::<Vec<Formed>>());
}

/// All early counts.
fn print_early() {
    let rows = early::all();
    let rows = rows.iter().enumerate();
    let judged = rows.map(|(place, row)| measure_early(place, row));
    table::print_early(&judged.collect::<Vec<Judged>>());
}

/// All modes.
fn print_modes() {
    let rows = modes::all();
    let rows = rows.iter().enumerate();
    let searched = rows.map(|(place, row)| measure_mode(place, row));
    table::print_modes(&searched.collect::<Vec<Searched>>());
}

/// All keys.
fn print_keys() {
    let rows = keys::all();
    let rows = rows.iter().enumerate();
    let keyed = rows.map(|(place, row)| measure_key(place, row));
    table::print_keys(&keyed.collect::<Vec<Keyed>>());
}

/// All of the memory.
fn print_memory() {
    let touched: Vec<Touched> = memory::all().iter().map(measure_memory).collect();
    table::print_memory(&touched);
}

fn run() {
    let words: Vec<String> = std::env::args().skip(1).collect();
    let words: Vec<&str> = words.iter().map(String::as_str).collect();
    let place_of = |word: &str| -> usize { word.parse().expect("the place of a row") };
    match words[..] {
        [] => {
            print_rows();
            print_replays();
            print_files();
            print_forms();
            print_early();
            print_modes();
            print_keys();
            print_memory();
            table::print_notes();
        }
        ["replays"] => print_replays(),
        ["files"] => print_files(),
        ["strict"] => print_forms(),
        ["early"] => print_early(),
        ["modes"] => print_modes(),
        ["keys"] => print_keys(),
        ["memory"] => print_memory(),
        ["count", place, side] => {
            let side = SIDES.into_iter().find(|one| one.word() == side);
            let side = side.expect("ours or rust");
            count(&rows::all()[place_of(place)], side);
        }
        ["replay", place] => replay(&replays::all()[place_of(place)]),
        ["file", place] => file(&files::all()[place_of(place)]),
        ["form", place] => form(&strict::all()[place_of(place)]),
        ["least", place] => least(&early::all()[place_of(place)]),
        ["mode", place] => mode(&modes::all()[place_of(place)]),
        ["key", place] => key(&keys::all()[place_of(place)]),
        _ => panic!(
            "no words, or: replays, or: files, or: strict, or: early, or: modes, or: keys, or: memory, or: count ROW SIDE, or: replay ROW, or: file ROW, or: form ROW, or: least ROW, or: mode ROW, or: key ROW"
        ),
    }
}

fn main() {
    original::on_a_deep_stack(run);
}
