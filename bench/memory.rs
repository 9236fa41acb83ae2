//! What is measured of the memory: data read and written, and misses in a small cache, of calls that the other tables have.
use crate::files::{self, Work};
use crate::lots::{Lot, largest, league};
use crate::rows::{self, Call};
use crate::strict::{self, Form};

/// callgrind's cache simulator, with a first-level data cache that stands for the box's: 8 KiB, two ways, lines of 32 bytes.
pub const SMALL_CACHE: [&str; 2] = ["--cache-sim=yes", "--D1=8192,2,32"];

/// A row of the memory's table: a call on a lot, and the words with which this program makes it.
pub struct Row {
    pub name: &'static str,
    pub lot: Lot,
    pub words: Vec<String>,
}

/// A row, by its words; the place is that of its row in the other table.
fn row(name: &'static str, lot: Lot, word: &str, place: Option<usize>, side: &[&str]) -> Row {
    let place = place.expect("a row of the other table").to_string();
    let words = [&[word, &place], side].concat();
    Row {
        name,
        lot,
        words: words.into_iter().map(String::from).collect(),
    }
}

/// 3BV, the check of the numbers alone, and a file read, on league boards and on the largest.
fn of(lot: Lot) -> [Row; 3] {
    let counted = |row: &rows::Row| row.call == Call::ThreeBv && row.lot == lot;
    let checked = |row: &strict::Row| row.form == Form::LastWrong && row.lot == lot;
    let read = |row: &files::Row| row.work == Work::Read && row.lot == lot;
    let counted = rows::all().iter().position(counted);
    let checked = strict::all().iter().position(checked);
    let read = files::all().iter().position(read);
    [
        row("3BV", lot, "count", counted, &["ours"]),
        row(Form::LastWrong.name(), lot, "form", checked, &[]),
        row("MBF file, read", lot, "file", read, &[]),
    ]
}

/// The rows.
pub fn all() -> Vec<Row> {
    [league(100), largest(20)]
        .into_iter()
        .flat_map(of)
        .collect()
}

impl Row {
    /// The name of callgrind's file: the word, rows, columns, mines.
    pub fn file_name(&self) -> String {
        format!("memory-{}-{}", self.words[0], self.lot.file_name())
    }
}
