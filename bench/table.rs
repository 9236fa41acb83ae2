//! What is printed: the ratios, how the cost of a cell grows with the board, the replays, the files, the strict calls, the early count, the modes, the keys, the memory, and what was counted.
use crate::early::{self, Asked};
use crate::files::{self, Work};
use crate::keys::{self, Origin};
use crate::lots::Lot;
use crate::modes::{self, Mode, SPARE};
use crate::replays;
use crate::rows::{ROUNDS, Row, is_league_grown};
use crate::strict::{self, Form};

/// Instructions and microseconds of one call: ours, the Rust's.
pub struct Measures {
    pub row: Row,
    pub instructions: [f64; 2],
    pub times: [f64; 2],
}

/// One replay of ours: moves, instructions and microseconds.
pub struct Replayed {
    pub row: replays::Row,
    pub moves: f64,
    pub instructions: f64,
    pub time: f64,
}

/// One read or write of ours: instructions and microseconds.
pub struct Filed {
    pub row: files::Row,
    pub instructions: f64,
    pub time: f64,
}

/// A form of 3BV measured.
pub struct Formed {
    pub row: strict::Row,
    pub instructions: f64,
    pub time: f64,
}

/// An early count of ours: instructions and microseconds.
pub struct Judged {
    pub row: early::Row,
    pub instructions: f64,
    pub time: f64,
}

/// A random search of ours in a mode: draw bytes used over all boards, instructions and microseconds.
pub struct Searched {
    pub row: modes::Row,
    pub used: u64,
    pub instructions: f64,
    pub time: f64,
}

/// A random search of ours by lent bytes or by a key: instructions and microseconds.
pub struct Keyed {
    pub row: keys::Row,
    pub instructions: f64,
    pub time: f64,
}

/// Data read and written by one call of ours, and the misses of each in the small cache.
pub struct Touched {
    pub name: &'static str,
    pub lot: Lot,
    pub accesses: [f64; 2],
    pub misses: [f64; 2],
}

/// A whole number with its thousands parted.
fn parted(number: f64) -> String {
    let digits = format!("{number:.0}");
    let mut parted = String::new();
    for (place, digit) in digits.chars().enumerate() {
        if place > 0 && (digits.len() - place).is_multiple_of(3) {
            parted.push(',');
        }
        parted.push(digit);
    }
    parted
}

/// A number with one place below 100, and whole above.
fn shown(number: f64) -> String {
    if number < 100.0 {
        return format!("{number:.1}");
    }
    parted(number)
}

/// Ours, the Rust's, and ours divided by the Rust's.
fn beside([ours, rust]: [f64; 2]) -> String {
    format!("{} | {} | {:.2}", shown(ours), shown(rust), ours / rust)
}

const RATIOS: &str = "\
| call | board | boards | instructions, ours | the Rust's | ratio | goal | µs, ours | the Rust's | ratio | samples |
|---|---|--:|--:|--:|--:|--:|--:|--:|--:|--:|";

fn print_ratios(measures: &Measures) {
    let row = measures.row;
    println!(
        "| {} | {} | {} | {} | {} | {} | {} |",
        row.call.name(),
        row.lot.name(),
        row.lot.boards,
        beside(measures.instructions),
        row.goal.map_or(String::new(), |goal| goal.to_string()),
        beside(measures.times),
        row.samples
    );
}

const GROWTH: &str = "\
| instructions a cell | ours, league | largest, 20 % | growth | the Rust's, league | largest, 20 % | growth |
|---|--:|--:|--:|--:|--:|--:|";

/// Instructions a cell, on the league boards and on the largest one.
fn print_growth(league: &Measures, largest: &Measures) {
    let columns = [0, 1].map(|side| {
        let cell = |at: &Measures| at.instructions[side] / at.row.lot.cells() as f64;
        let (from, to) = (cell(league), cell(largest));
        format!("{} | {} | {:.1}", shown(from), shown(to), to / from)
    });
    println!("| {} | {} |", league.row.call.name(), columns.join(" | "));
}

const REPLAYS: &str = "\
| replay of | board | boards | moves | instructions | a move, beyond an empty list's | µs | samples |
|---|---|--:|--:|--:|--:|--:|--:|";

/// A replay, and what each of its moves adds to what the empty list takes on the same boards.
fn print_replay(replayed: &Replayed, empty: &Replayed) {
    let row = replayed.row;
    let moves = replayed.moves;
    let beyond = (replayed.instructions - empty.instructions) / moves;
    println!(
        "| {} | {} | {} | {} | {} | {} | {} | {} |",
        row.list.name(),
        row.lot.name(),
        row.lot.boards,
        parted(moves),
        shown(replayed.instructions),
        if moves > 0.0 {
            shown(beyond)
        } else {
            String::new()
        },
        shown(replayed.time),
        row.samples
    );
}

/// The table of the replays.
pub fn print_replays(all: &[Replayed]) {
    println!("\n{REPLAYS}");
    for replayed in all {
        let same = |other: &&Replayed| other.row.lot == replayed.row.lot;
        let empty = all.iter().find(same).expect("the empty list comes first");
        print_replay(replayed, empty);
    }
}

const FILES: &str = "\
| file | board | boards | mines listed | instructions | a cell | a mine, beyond a board without | µs | samples |
|---|---|--:|--:|--:|--:|--:|--:|--:|";

/// A read or a write, and what each mine adds to what a board of the same sides takes without mines, but not for a refused file, whose grid isn't filled.
fn print_file(filed: &Filed, bare: &Filed) {
    let row = filed.row;
    let listed = row.listed() as f64;
    let beyond = (filed.instructions - bare.instructions) / listed;
    let known = row.work != Work::ReadTwice && listed > 0.0;
    println!(
        "| {} | {} | {} | {} | {} | {} | {} | {} | {} |",
        row.work.name(),
        row.lot.name(),
        row.lot.boards,
        parted(listed),
        shown(filed.instructions),
        shown(filed.instructions / row.lot.cells() as f64),
        if known { shown(beyond) } else { String::new() },
        shown(filed.time),
        row.samples
    );
}

/// The table of the files.
pub fn print_files(all: &[Filed]) {
    println!("\n{FILES}");
    for filed in all {
        let bare = |other: &&Filed| other.row.is_bare_of(&filed.row);
        print_file(filed, all.iter().find(bare).expect("a board without mines"));
    }
}

const FORMS: &str = "\
| call | board | boards | instructions | a cell | a cell, beyond the present form | µs | samples |
|---|---|--:|--:|--:|--:|--:|--:|";

fn print_form(formed: &Formed, present: &Formed) {
    let row = formed.row;
    let cells = row.lot.cells() as f64;
    let beyond = (formed.instructions - present.instructions) / cells;
    println!(
        "| {} | {} | {} | {} | {} | {} | {} | {} |",
        row.form.name(),
        row.lot.name(),
        row.lot.boards,
        shown(formed.instructions),
        shown(formed.instructions / cells),
        if row.form == Form::Strict { shown(beyond) } else { String::new() },
        shown(formed.time),
        row.samples
    );
}

/// The table of the strict calls.
pub fn print_forms(all: &[Formed]) {
    println!("\n{FORMS}");
    for formed in all {
        let present =
            |other: &&Formed| other.row.form == Form::Present && other.row.lot == formed.row.lot;
        print_form(formed, all.iter().find(present).expect("the present form"));
    }
}

const EARLY: &str = "\
| call | board | boards | instructions | beside the full count | goal | µs | samples |
|---|---|--:|--:|--:|--:|--:|--:|";

/// An early count, beside the full one of the same boards.
fn print_judged(judged: &Judged, full: &Judged) {
    let row = judged.row;
    let ratio = judged.instructions / full.instructions;
    println!(
        "| {} | {} | {} | {} | {} | {} | {} | {} |",
        row.asked.name(),
        row.lot.name(),
        row.lot.boards,
        shown(judged.instructions),
        match row.asked {
            Asked::All => String::new(),
            _ => format!("{ratio:.3}"),
        },
        row.goal.map_or(String::new(), |goal| goal.to_string()),
        shown(judged.time),
        row.samples
    );
}

/// The table of the early count.
pub fn print_early(all: &[Judged]) {
    println!("\n{EARLY}");
    for judged in all {
        let full =
            |other: &&Judged| other.row.asked == Asked::All && other.row.lot == judged.row.lot;
        print_judged(judged, all.iter().find(full).expect("the full count"));
    }
}

const MODES: &str = "\
| mode | board | boards | rounds | instructions | beside the old mode | µs | samples |
|---|---|--:|--:|--:|--:|--:|--:|";

/// A search in a mode, beside the old one on the same boards.
fn print_mode(searched: &Searched, old: &Searched) {
    let row = searched.row;
    let ratio = searched.instructions / old.instructions;
    println!(
        "| {} | {} | {} | {} | {} | {} | {} | {} |",
        row.mode.name(),
        row.lot.name(),
        row.lot.boards,
        row.rounds,
        shown(searched.instructions),
        match row.mode {
            Mode::Old => String::new(),
            Mode::Fair => format!("{ratio:.4}"),
        },
        shown(searched.time),
        row.samples
    );
}

/// The draw bytes used in the fair mode and in the old one on the same boards.
fn bytes_used(fair: &Searched, old: &Searched) -> String {
    let [old, used] = [old, fair].map(|searched| parted(searched.used as f64));
    let lot = fair.row.lot.name();
    format!("{old} in the old mode and {used} in the fair one on {lot}")
}

/// The table of the modes, and the draw bytes used.
pub fn print_modes(all: &[Searched]) {
    let is_old = |searched: &Searched| searched.row.mode == Mode::Old;
    let old_of = |searched: &Searched| {
        let old = |other: &&Searched| is_old(other) && other.row.lot == searched.row.lot;
        all.iter().find(old).expect("the old mode")
    };
    println!("\n{MODES}");
    for searched in all {
        print_mode(searched, old_of(searched));
    }
    let fair = all.iter().filter(|searched| !is_old(searched));
    let used: Vec<String> = fair.map(|fair| bytes_used(fair, old_of(fair))).collect();
    println!("\nDraw bytes used over all boards: {}.", used.join("; "));
}

const KEYS: &str = "\
| draws from | mode | board | boards | rounds | instructions | beside lent bytes | µs | samples |
|---|---|---|--:|--:|--:|--:|--:|--:|";

/// A search by lent bytes or by a key, beside the lent bytes in that mode on the same boards.
fn print_keyed(keyed: &Keyed, lent: &Keyed) {
    let row = keyed.row;
    let ratio = keyed.instructions / lent.instructions;
    println!(
        "| {} | {} | {} | {} | {} | {} | {} | {} | {} |",
        row.origin.name(),
        row.mode.name(),
        row.lot.name(),
        row.lot.boards,
        row.rounds,
        shown(keyed.instructions),
        match row.origin {
            Origin::Lent => String::new(),
            Origin::Key => format!("{ratio:.4}"),
        },
        shown(keyed.time),
        row.samples
    );
}

/// The table of the keys.
pub fn print_keys(all: &[Keyed]) {
    let lent_of = |keyed: &Keyed| {
        let same = |other: &Keyed| other.row.lot == keyed.row.lot && other.row.mode == keyed.row.mode;
        let lent = |other: &&Keyed| other.row.origin == Origin::Lent && same(other);
        all.iter().find(lent).expect("the lent bytes")
    };
    println!("\n{KEYS}");
    for keyed in all {
        print_keyed(keyed, lent_of(keyed));
    }
}

const MEMORY: &str = "\
| call | board | boards | data reads | writes | read misses | write misses | misses in all | a cell |
|---|---|--:|--:|--:|--:|--:|--:|--:|";

fn print_touched(touched: &Touched) {
    let [reads, writes] = touched.accesses;
    let [read_misses, write_misses] = touched.misses;
    let misses = read_misses + write_misses;
    println!(
        "| {} | {} | {} | {} | {} | {} | {} | {} | {:.2} |",
        touched.name,
        touched.lot.name(),
        touched.lot.boards,
        parted(reads),
        parted(writes),
        parted(read_misses),
        parted(write_misses),
        parted(misses),
        misses / touched.lot.cells() as f64
    );
}

/// The table of the memory.
pub fn print_memory(all: &[Touched]) {
    println!("\n{MEMORY}");
    all.iter().for_each(print_touched);
}

/// The ratios, and how they grow.
pub fn print(all: &[Measures]) {
    println!("{RATIOS}");
    all.iter().for_each(print_ratios);
    println!("\n{GROWTH}");
    for largest in all.iter().filter(|measures| is_league_grown(&measures.row)) {
        let same = |measures: &&Measures| measures.row.call == largest.row.call;
        let league = all.iter().find(same).expect("league boards come first");
        print_growth(league, largest);
    }
}

/// What was counted.
pub fn print_notes() {
    println!(
        "
Instructions: callgrind's, one call a board, the mean over the boards. Time: of the thread, one call a board and sample, the mean over the boards, the median of the samples.
A random search beside the Rust has {ROUNDS} rounds. There is one board and few samples where a call takes the Rust seconds.
Ours: the archive's names; work area and list are lent once a board, with 7 and 9 in every place, and not cleared before a call or between calls.
The Rust: cal_zini, cal_hzini and cal_rzini with their copy of the board and their own cells, made anew in each call; its random bytes are lent before the call.
3BV setup: lavgerin_three_bv, which also counts and hands the work area back, beside build_cells_ref and initboard, without the copy.
Replays: lavgerin_replay, the moves of a list the mean over the boards; moves made, safe cells still closed and the ending are checked.
Files: lavgerin_read_mbf and lavgerin_write_mbf, mines in index order; the mines read and the bytes written are checked, and that a refused read leaves the grid.
Strict calls: lavgerin_three_bv and lavgerin_strict_three_bv on boards with right numbers; the cell that NUMBER names is checked, and that it leaves the work area.
Early count: lavgerin_at_least beside lavgerin_three_bv on the same boards; the answer is checked, and that the work area is 0.
Modes: lavgerin_random_search, the same boards and draws in both, {SPARE} words a board more than are always enough in the old mode; success is checked, and that clicks and draw bytes used are the same where no word was spent.
Keys: lavgerin_random_search with a key's words as bytes, and lavgerin_keyed_search with that key; answers have to be the same, and the key handed back the one after the bytes used.
Memory: callgrind's cache simulator, which is cachegrind's, with a first-level data cache of 8 KiB, two ways and 32-byte lines; one call a board, the mean over the boards."
    );
}
