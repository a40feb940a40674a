//! Runs the program `publisher` and compares what it writes with the second implementation: without a tape, with events
//! that come in pieces, with more bytes of events and of tape than it may read, and with an output that gets full. Then
//! it sees how the program ends when a tape cannot be read and when the output cannot be written.
//! The word on the command line is the program's path, which has to be built.

#[allow(dead_code)]
mod records;
#[allow(dead_code)]
mod words;

use records::{close, open, set_up, step, tape};
use std::fs;
use std::io::Write;
use std::path::{Path, PathBuf};
use std::process::{exit, Command, Output, Stdio};
use std::thread;
use std::time::Duration;

/// The most bytes that the program reads of the events, and of the tape.
const MOST: usize = 32_768;
/// The bytes of its output buffer.
const ROOM: usize = 65_536;

/// What the program is run on; without a tape there is no file.
struct Case {
    what: &'static str,
    events: Vec<u8>,
    tape: Option<Vec<u8>>,
    /// how many bytes of the events are handed over at a time
    piece: usize,
}

/// Events of so many classes: epochs of a horizon, until there are at least so many bytes.
fn events(classes: u16, horizon: u16, bytes: usize) -> Vec<u8> {
    let mut events = set_up(9, classes, 2, 1_000_000);
    let mut number = 0u32;
    while events.len() < bytes {
        events.extend(open(horizon));
        for _ in 0..horizon {
            let counts: Vec<u16> = (0..classes).map(|class| ((number * 7 + u32::from(class)) % 10) as u16).collect();
            events.extend(step(&counts));
            number += 1;
        }
        events.extend(close());
    }
    events
}

fn cells(count: usize) -> Vec<u8> {
    tape(&(0..count as i32).map(|at| at * 37 % 1_999 - 999).collect::<Vec<i32>>())
}

fn cases() -> Vec<Case> {
    vec![
        Case { what: "no tape", events: events(2, 16, 200), tape: None, piece: MOST },
        Case { what: "an empty tape", events: events(2, 16, 200), tape: Some(Vec::new()), piece: MOST },
        Case { what: "no events", events: Vec::new(), tape: None, piece: 1 },
        Case { what: "events byte by byte", events: events(1, 8, 60), tape: Some(cells(60)), piece: 1 },
        Case { what: "events in pieces of 7 bytes", events: events(3, 24, 900), tape: Some(cells(600)), piece: 7 },
        Case { what: "events in pieces of 1,000 bytes", events: events(1, 64, 9_000), tape: Some(cells(3_000)), piece: 1_000 },
        Case { what: "all that may be read, and no more", events: exactly(MOST), tape: Some(cells(MOST / 4)), piece: MOST },
        Case { what: "one byte of events too many", events: exactly(MOST + 1), tape: Some(cells(MOST / 4)), piece: MOST },
        Case { what: "many bytes of events too many", events: events(8, 96, 50_000), tape: Some(cells(8_000)), piece: 4_096 },
        Case { what: "more tape than is read", events: events(8, 1_000, MOST), tape: Some(cells(20_000)), piece: MOST },
        Case { what: "an output that gets full", events: events(1, 1_024, MOST), tape: Some(cells(8_192)), piece: MOST },
    ]
}

/// Rows that are refused, with as many bytes as asked for: the last record is cut short where they do not fit.
fn exactly(size: usize) -> Vec<u8> {
    let mut events = set_up(9, 8, 1, 0);
    while events.len() < size {
        events.extend(step(&[1; 8]));
    }
    events.truncate(size);
    events
}

fn expected(case: &Case) -> Vec<u8> {
    let none = Vec::new();
    let tape = case.tape.as_ref().unwrap_or(&none);
    let mut out = vec![0; ROOM];
    let events = &case.events[..case.events.len().min(MOST)];
    let written = words::publish(events, &tape[..tape.len().min(MOST)], &mut out).unwrap_or_else(|_| fail("words refuse the output"));
    out.truncate(written);
    out
}

/// Runs the program in a folder, with these bytes on its standard input, so many at a time.
fn run(program: &Path, folder: &Path, events: &[u8], piece: usize, stdout: Stdio) -> Output {
    let mut child = Command::new(program)
        .current_dir(folder)
        .stdin(Stdio::piped())
        .stdout(stdout)
        .stderr(Stdio::piped())
        .spawn()
        .unwrap_or_else(|error| fail(&format!("{}: {error}", program.display())));
    let mut stdin = child.stdin.take().expect("a standard input");
    let pieces: Vec<Vec<u8>> = events.chunks(piece).map(<[u8]>::to_vec).collect();
    let pause = Duration::from_millis(u64::from(pieces.len() > 1));
    let feeder = thread::spawn(move || {
        for bytes in pieces {
            // the program may have read all that it wants
            if stdin.write_all(&bytes).is_err() {
                break;
            }
            thread::sleep(pause);
        }
    });
    let output = child.wait_with_output().expect("the program's output");
    feeder.join().expect("the feeder");
    output
}

fn fail(what: &str) -> ! {
    println!("program: {what}");
    exit(1)
}

fn main() {
    let path = std::env::args().nth(1).unwrap_or_else(|| fail("the program's path is missing"));
    let program = fs::canonicalize(&path).unwrap_or_else(|error| fail(&format!("{path}: {error}")));
    let folder = PathBuf::from("target/crosscheck/run");
    let mut runs = 0;
    for case in cases() {
        let _ = fs::remove_dir_all(&folder);
        fs::create_dir_all(&folder).expect("a folder to run in");
        if let Some(tape) = &case.tape {
            fs::write(folder.join("tape.bin"), tape).expect("a tape");
        }
        let output = run(&program, &folder, &case.events, case.piece, Stdio::piped());
        if !output.status.success() || output.stdout != expected(&case) {
            fail(&format!("{}: differs, status {:?}", case.what, output.status.code()));
        }
        runs += 1;
    }

    // a tape that is there and cannot be read: a folder of that name
    let _ = fs::remove_dir_all(&folder);
    fs::create_dir_all(folder.join("tape.bin")).expect("a folder");
    let output = run(&program, &folder, &events(1, 2, 10), MOST, Stdio::piped());
    if output.status.code() != Some(1) || output.stderr.is_empty() || !output.stdout.is_empty() {
        fail("a tape that cannot be read is no failure with a message");
    }
    runs += 1;

    // an output that takes no byte
    let _ = fs::remove_dir_all(&folder);
    fs::create_dir_all(&folder).expect("a folder");
    let full = fs::OpenOptions::new().write(true).open("/dev/full").expect("a device that is full");
    let output = run(&program, &folder, &events(1, 2, 10), MOST, Stdio::from(full));
    if output.status.code() != Some(1) || output.stderr.is_empty() {
        fail("an output that cannot be written is no failure with a message");
    }
    runs += 1;
    println!("{runs} runs of the program, all as they must be");
}
