//! Compares the library's publishing with a second one, `words`, which was written from the pages of docs/ alone.
//!
//! Each case gives both the same events, the same tape and the same output buffer, filled with bytes that are not
//! zero. The answers have to be the same, and so has every byte of the two buffers: the publication, what lies behind
//! it, and some bytes around the buffer that belong to neither. On a difference the case is printed, and the status
//! is 1.
//!
//! A word on the command line is taken as another seed for the generated cases.

mod edges;
mod generated;
mod outcomes;
mod records;
mod words;

use outcomes::Outcomes;
use std::process::exit;

extern "C" {
    /// Answers the bytes written, and 0 where the buffer is too small.
    fn boot_counter_publish(
        events: *const u8,
        events_len: usize,
        tape: *const u8,
        tape_len: usize,
        out: *mut u8,
        out_len: usize,
    ) -> u64;
}

/// Where the generator of cases starts.
const SEED: u64 = 0x0B00_7C0D_E5EE_D001;

/// Bytes before and behind the output buffer that nobody may write.
const AROUND: usize = 64;

/// The stack of the thread that compares.
const STACK: usize = 64 << 20;

/// What these cases cannot show.
const OUT_OF_REACH: &str = "\
no publication can reach: 12, since a close record closes the epoch that is open, with its own hold;
  13 and 14, since only classes that are there are finished, and published counts are read after a step;
  11 and 15, which are not used
not tried: event numbers and record counts above 4,294,967,295, which need more event records than that;
  no place in a publication is so large";

#[derive(Clone, Copy, PartialEq, Eq, Debug)]
pub enum Sort {
    Edges,
    Lawful,
    Mixed,
    Damaged,
    Hostile,
    Long,
}

const SORTS: [(Sort, &str); 6] = [
    (Sort::Edges, "edges, by hand"),
    (Sort::Lawful, "lawful"),
    (Sort::Mixed, "mixed"),
    (Sort::Damaged, "damaged"),
    (Sort::Hostile, "hostile"),
    (Sort::Long, "long"),
];

pub struct Case {
    pub sort: Sort,
    pub what: String,
    pub events: Vec<u8>,
    pub tape: Vec<u8>,
    /// The length of the output buffer.
    pub room: usize,
    /// The whole publication, where it was written out by hand.
    pub expected: Option<Vec<u8>>,
}

/// What a call answered, 0 for a refusal, and the output buffer with the bytes around it.
#[derive(PartialEq, Eq)]
struct Done {
    answer: u64,
    buffer: Vec<u8>,
}

impl Done {
    /// The publication, as far as the answer can be believed.
    fn publication(&self) -> &[u8] {
        let room = self.buffer.len() - 2 * AROUND;
        let length = usize::try_from(self.answer).unwrap_or(room).min(room);
        &self.buffer[AROUND..AROUND + length]
    }
}

/// A buffer of bytes that are not zero and differ from place to place.
fn filled(room: usize) -> Vec<u8> {
    (0..room + 2 * AROUND).map(|at| (at % 251) as u8 + 1).collect()
}

fn done_by_library(case: &Case) -> Done {
    let mut buffer = filled(case.room);
    let out = &mut buffer[AROUND..AROUND + case.room];
    // The three pointers are those of slices of the lengths beside them, and only `out` is written.
    let answer = unsafe {
        boot_counter_publish(
            case.events.as_ptr(),
            case.events.len(),
            case.tape.as_ptr(),
            case.tape.len(),
            out.as_mut_ptr(),
            out.len(),
        )
    };
    Done { answer, buffer }
}

fn done_by_words(case: &Case, outcomes: &mut Outcomes) -> Result<Done, String> {
    let mut buffer = filled(case.room);
    let answer = match words::publish(&case.events, &case.tape, &mut buffer[AROUND..AROUND + case.room]) {
        Ok(length) => {
            outcomes.count_publication(&case.events, &buffer[AROUND..AROUND + length])?;
            length as u64
        }
        Err(refusal) => {
            outcomes.count_answer(refusal, case.room)?;
            0
        }
    };
    Ok(Done { answer, buffer })
}

/// What was compared, and what it reached.
pub struct Comparer {
    compared: [u64; SORTS.len()],
    outcomes: Outcomes,
}

impl Comparer {
    fn new() -> Comparer {
        Comparer { compared: [0; SORTS.len()], outcomes: Outcomes::new() }
    }

    pub fn compare(&mut self, case: &Case) {
        let words = match done_by_words(case, &mut self.outcomes) {
            Ok(done) => done,
            Err(fault) => {
                print_case(case);
                println!("words: {fault}");
                exit(1);
            }
        };
        let library = done_by_library(case);
        let difference = if library != words {
            Some("the library and the words differ")
        } else if case.expected.as_deref().is_some_and(|expected| expected != words.publication()) {
            Some("both differ from what was written out by hand")
        } else {
            None
        };
        if let Some(difference) = difference {
            print_difference(case, difference, &library, &words);
            exit(1);
        }
        let at = SORTS.iter().position(|(sort, _)| *sort == case.sort).expect("every sort has a name");
        self.compared[at] += 1;
    }

    fn print(&self) {
        println!("sort                cases");
        for (at, (_, name)) in SORTS.iter().enumerate() {
            println!("  {name:<16} {:>6}", self.compared[at]);
        }
        let all = self.outcomes.print();
        println!("{OUT_OF_REACH}");
        if !all {
            exit(1);
        }
        println!("{} cases compared, all the same", self.compared.iter().sum::<u64>());
    }
}

fn hex(bytes: &[u8]) -> String {
    bytes.iter().map(|byte| format!("{byte:02X}")).collect()
}

fn print_case(case: &Case) {
    println!("DIFFERENCE in a case of the sort {:?}: {}", case.sort, case.what);
    println!("events ({} bytes): {}", case.events.len(), hex(&case.events));
    println!("tape ({} bytes): {}", case.tape.len(), hex(&case.tape));
    println!("output buffer: {} bytes", case.room);
}

fn print_difference(case: &Case, difference: &str, library: &Done, words: &Done) {
    print_case(case);
    println!("{difference}");
    println!("library answers {}: {}", library.answer, hex(library.publication()));
    println!("words answer {}: {}", words.answer, hex(words.publication()));
    if let Some(expected) = &case.expected {
        println!("expected, {} bytes: {}", expected.len(), hex(expected));
    }
    if let Some(at) = (0..words.buffer.len()).find(|at| library.buffer[*at] != words.buffer[*at]) {
        let (theirs, ours) = (library.buffer[at], words.buffer[at]);
        println!(
            "first different byte of the buffers: at {}, library {theirs:02X}, words {ours:02X}",
            at as i64 - AROUND as i64
        );
    }
}

fn seed() -> u64 {
    match std::env::args().nth(1) {
        None => SEED,
        Some(word) => word.parse().unwrap_or_else(|_| {
            eprintln!("the start of the generator has to be a number: {word}");
            exit(2)
        }),
    }
}

fn compare_all() {
    let seed = seed();
    let mut comparer = Comparer::new();
    edges::compare(&mut comparer);
    generated::compare(&mut comparer, seed);
    comparer.print();
}

fn main() {
    let worker = std::thread::Builder::new().stack_size(STACK).spawn(compare_all).expect("a thread to compare in");
    if worker.join().is_err() {
        exit(1);
    }
}
