//! The calls by their C names, in a program of its own (oracle/calls.c) that an emulator runs.
use super::{Call, Lent, Told};
use std::io::{Read, Write};
use std::process::{Child, ChildStdin, ChildStdout, Command, Stdio};
use std::sync::{LazyLock, Mutex};

/// The program's two ends.
struct Ends {
    ask: ChildStdin,
    told: ChildStdout,
}

/// The program, begun at the first call; RUN, if it is set, is the emulator. It ends with this one.
static PROGRAM: LazyLock<Mutex<Ends>> = LazyLock::new(|| {
    let mut shell = Command::new("sh");
    let shell = shell.args(["-c", "exec $RUN target/oracle/calls"]);
    let shell = shell.stdin(Stdio::piped()).stdout(Stdio::piped());
    let Child { stdin, stdout, .. } = shell.spawn().expect("a shell");
    let (ask, told) = (stdin.expect("piped"), stdout.expect("piped"));
    Mutex::new(Ends { ask, told })
});

/// What the program is asked: numbers first, then what is lent.
fn request(lent: &Lent, call: Call, draws: &[u8], count: usize) -> Vec<u8> {
    let Lent { board, work, list } = lent;
    let sides = [board.rows, board.columns];
    let lengths = [board.values.len(), work.len(), list.len(), draws.len()];
    let numbers = [&[call as usize], &sides[..], &lengths, &[count]].concat();
    let numbers = numbers.into_iter().map(|number| number as u64);
    let mut bytes: Vec<u8> = numbers.flat_map(u64::to_le_bytes).collect();
    bytes.extend(board.values.iter().copied().flat_map(i32::to_le_bytes));
    bytes.extend(work.iter().copied().flat_map(i32::to_le_bytes));
    bytes.extend(list.iter().copied().flat_map(u32::to_le_bytes));
    bytes.extend(draws);
    bytes
}

/// The next number of 64 bits.
fn number(from: &mut impl Read) -> u64 {
    let mut bytes = [0; 8];
    from.read_exact(&mut bytes).expect("the program goes on");
    u64::from_le_bytes(bytes)
}

/// The next numbers of 32 bits, as many as a run has.
fn run<T>(from: &mut impl Read, run: &mut [T], number: fn([u8; 4]) -> T) {
    let mut bytes = vec![0; 4 * run.len()];
    from.read_exact(&mut bytes).expect("the program goes on");
    for (value, four) in run.iter_mut().zip(bytes.as_chunks().0) {
        *value = number(*four);
    }
}

/// One call. Count is the rounds of a search or the moves of a replay.
pub fn call(lent: &mut Lent, call: Call, draws: &[u8], count: usize) -> Told {
    let Ends { ask, told } = &mut *PROGRAM.lock().expect("one thread");
    let request = request(lent, call, draws, count);
    ask.write_all(&request).expect("the program goes on");
    let answer = (number(told) as u8, number(told), number(told));
    let ending = number(told);
    run(told, &mut lent.work, i32::from_le_bytes);
    run(told, &mut lent.list, u32::from_le_bytes);
    (answer, ending)
}
