//! Event files from a generator with a fixed seed.

use crate::records::*;
use crate::{words, Case, Comparer, Sort};

/// The bytes that the program `publisher` takes of events and gives for output.
const MOST_EVENTS: usize = 32_768;
const MOST_ROOM: usize = 65_536;

/// How many cases there are of each sort.
const CASES: [(Sort, usize); 5] =
    [(Sort::Lawful, 3_000), (Sort::Mixed, 4_000), (Sort::Damaged, 4_000), (Sort::Hostile, 4_000), (Sort::Long, 400)];

pub fn compare(comparer: &mut Comparer, seed: u64) {
    let mut random = Random::new(seed);
    for (sort, cases) in CASES {
        for at in 0..cases {
            comparer.compare(&case(&mut random, sort, format!("{sort:?} {at}, seed {seed}")));
        }
    }
}

/// A generator of numbers: Marsaglia's xorshift with 64 bits, its upper half taken.
struct Random {
    state: u64,
}

impl Random {
    fn new(seed: u64) -> Random {
        let mut random = Random { state: seed | 1 };
        for _ in 0..16 {
            random.next();
        }
        random
    }

    fn next(&mut self) -> u32 {
        self.state ^= self.state << 13;
        self.state ^= self.state >> 7;
        self.state ^= self.state << 17;
        (self.state.wrapping_mul(0x2545_F491_4F6C_DD1D) >> 32) as u32
    }

    /// A number from 0 to just below `end`.
    fn below(&mut self, end: usize) -> usize {
        self.next() as usize % end
    }

    /// A number from `first` to `last`.
    fn between(&mut self, first: usize, last: usize) -> usize {
        first + self.below(last - first + 1)
    }

    /// Whether one of so many chances came.
    fn one_in(&mut self, chances: usize) -> bool {
        self.below(chances) == 0
    }

    fn pick<T: Copy>(&mut self, choices: &[T]) -> T {
        choices[self.below(choices.len())]
    }

    fn bytes(&mut self, length: usize) -> Vec<u8> {
        (0..length).map(|_| self.next() as u8).collect()
    }
}

fn case(random: &mut Random, sort: Sort, what: String) -> Case {
    let (events, tape) = match sort {
        Sort::Lawful | Sort::Edges => plant(random, Manner::Lawful, 1_500),
        Sort::Mixed => plant(random, Manner::Mixed, 1_500),
        Sort::Damaged => damaged(random),
        Sort::Hostile => hostile(random),
        Sort::Long => long(random),
    };
    let room = room(random, &events, &tape);
    Case { sort, what, events, tape, room, expected: None }
}

/// A length for the output buffer, often near what the publication needs.
fn room(random: &mut Random, events: &[u8], tape: &[u8]) -> usize {
    match random.below(8) {
        0 | 1 => MOST_ROOM,
        2 => random.between(0, MOST_ROOM),
        3 => random.between(0, 400),
        _ => {
            let mut out = vec![0; MOST_ROOM];
            let needed = words::publish(events, tape, &mut out).unwrap_or(0);
            let upper = random.between(0, needed + 150);
            let near = (needed + random.below(300)).saturating_sub(150);
            if random.one_in(4) { upper } else { near }.min(MOST_ROOM)
        }
    }
}

// ---------------------------------------------------------------- tapes

fn cells(random: &mut Random, number: usize) -> Vec<u8> {
    let manner = random.below(4);
    let mut tape = Vec::new();
    for _ in 0..number {
        let cell = match manner {
            0 => random.between(0, 18) as i32 - 9,
            1 => random.pick(&[i32::MIN, i32::MAX, i32::MIN + 1, i32::MAX - 1, 0, -1, 1]),
            2 => random.next() as i32,
            _ => random.between(0, 4_000) as i32 - 2_000,
        };
        tape.extend(cell.to_le_bytes());
    }
    if random.one_in(4) {
        let over = random.between(1, 3);
        tape.extend(random.bytes(over));
    }
    tape
}

// ---------------------------------------------------------------- lawful and mixed files

#[derive(Clone, Copy, PartialEq, Eq)]
enum Manner {
    /// Mostly events that are accepted.
    Lawful,
    /// With refused ones in between.
    Mixed,
}

/// An event file while it is made.
struct File<'a> {
    random: &'a mut Random,
    manner: Manner,
    classes: u16,
    events: Vec<u8>,
    rows: usize,
}

/// A file of a plant: a set-up and epochs, of so many bytes at most, and a tape for it.
fn plant(random: &mut Random, manner: Manner, most: usize) -> (Vec<u8>, Vec<u8>) {
    let long = most > 10_000;
    let epochs = if long { 10_000 } else { random.between(1, 6) };
    let classes = random.between(1, 8) as u16;
    let mut file = File { random, manner, classes, events: Vec::new(), rows: 0 };
    file.first();
    for epoch in 1..=epochs {
        file.epoch(epoch == epochs, long);
        if file.events.len() > most {
            break;
        }
    }
    let needed = file.rows * usize::from(classes);
    let events = within(file.events, most);
    let number = match random.below(6) {
        0 if manner == Manner::Mixed => random.between(0, needed),
        1 if manner == Manner::Mixed => needed.saturating_sub(random.between(1, 12)),
        2 => needed,
        _ => needed + random.between(0, 20),
    };
    (events, cells(random, number))
}

/// The records of an event file as far as they stand whole within so many bytes.
fn within(events: Vec<u8>, most: usize) -> Vec<u8> {
    let mut length = 0;
    for (_, body) in whole_records(&events) {
        if length + 4 + body.len() > most {
            break;
        }
        length += 4 + body.len();
    }
    events[..length].to_vec()
}

impl File<'_> {
    fn first(&mut self) {
        let mut classes = self.classes;
        let mut plan = self.random.pick(&[1, 2]);
        let mut grant = match self.manner {
            Manner::Lawful => self.random.between(100, 1_000_000),
            Manner::Mixed => self.random.pick(&[0, 1, 4, 5, 8, 11, 20, 40, 200, 5_000, 1_000_000]),
        } as u32;
        if self.manner == Manner::Mixed && self.random.one_in(20) {
            classes = self.random.pick(&[0, 1, 8, 9, 65_535]);
            plan = self.random.pick(&[0, 1, 2, 3, 258]);
            grant = self.random.pick(&[0, 1_000_000, 1_000_001, u32::MAX]);
        }
        if self.manner == Manner::Mixed && self.random.one_in(40) {
            self.misfit();
        }
        self.events.extend(set_up(self.random.next(), classes, plan, grant));
    }

    fn epoch(&mut self, last: bool, long: bool) {
        let horizon = match self.random.below(8) {
            0 if long => 1_024,
            1 | 2 if long => self.random.between(100, 1_024),
            0 => self.random.between(1, 1_024),
            1 => self.random.pick(&[1, 2, 3, 4, 7, 8, 15, 16, 31, 32]),
            _ => self.random.between(1, 20),
        };
        let steps = match self.random.below(4) {
            0 => self.random.between(0, horizon),
            1 => 0,
            _ => horizon,
        };
        let steps = if long { steps } else { steps.min(40) };
        self.sprinkle();
        self.events.extend(open(horizon as u16));
        for _ in 0..steps {
            self.sprinkle();
            let counts = self.counts(self.classes);
            self.rows += 1;
            self.events.extend(step(&counts));
        }
        self.sprinkle();
        if !(last && self.random.one_in(2)) {
            self.events.extend(close());
        }
        self.sprinkle();
    }

    fn counts(&mut self, length: u16) -> Vec<u16> {
        (0..length)
            .map(|_| {
                if self.random.one_in(4) {
                    self.random.pick(&[0, 1_000])
                } else {
                    self.random.between(0, 1_000) as u16
                }
            })
            .collect()
    }

    /// In a mixed file, now and then an event that is likely to be refused.
    fn sprinkle(&mut self) {
        if self.manner == Manner::Mixed && self.random.one_in(5) {
            self.misfit();
        }
    }

    fn misfit(&mut self) {
        let event = match self.random.below(10) {
            0 => {
                let length = self.random.between(1, 8) as u16;
                step(&self.counts(length))
            }
            1 => {
                let mut counts = self.counts(self.classes);
                let class = self.random.below(counts.len());
                counts[class] = self.random.pick(&[1_001, 1_024, 32_768, 65_535]);
                step(&counts)
            }
            2 => open(self.random.between(1, 1_024) as u16),
            3 => close(),
            4 => set_up(9, self.classes, 2, 9),
            5 => {
                let length = self.random.below(20);
                record(self.random.next() as u16, &self.random.bytes(length))
            }
            6 => {
                let length = self.random.below(24);
                record(self.random.pick(&[2, 3, 4]), &self.random.bytes(length))
            }
            7 => record(self.random.between(32, 38) as u16, &[0; 10]),
            8 => open(self.random.pick(&[0, 1_025, 2_048, 65_535])),
            _ => step(&self.counts(self.classes)),
        };
        self.events.extend(event);
    }
}

// ---------------------------------------------------------------- damaged, hostile and long files

fn damaged(random: &mut Random) -> (Vec<u8>, Vec<u8>) {
    let manner = random.pick(&[Manner::Lawful, Manner::Mixed]);
    let most = random.between(20, 1_000);
    let (mut events, mut tape) = plant(random, manner, most);
    for _ in 0..random.between(1, 5) {
        damage(random, &mut events);
    }
    if random.one_in(4) {
        tape.truncate(random.below(tape.len() + 1));
    }
    (events, tape)
}

fn damage(random: &mut Random, events: &mut Vec<u8>) {
    if events.is_empty() {
        return;
    }
    // The set-up is spared more often than not, so that there is something to publish.
    let from = if events.len() > 16 && !random.one_in(6) { 16 } else { 0 };
    let at = random.between(from, events.len() - 1);
    let behind = (at + random.between(1, 8)).min(events.len());
    match random.below(6) {
        0 => events[at] ^= 1 << random.below(8),
        1 => events[at] = random.next() as u8,
        2 => events.truncate(at),
        3 => {
            let length = random.between(1, 8);
            events.splice(at..at, random.bytes(length));
        }
        4 => {
            events.drain(at..behind);
        }
        _ => {
            let again = events[at..behind].to_vec();
            events.splice(at..at, again);
        }
    }
}

fn hostile(random: &mut Random) -> (Vec<u8>, Vec<u8>) {
    let mut events = Vec::new();
    if !random.one_in(5) {
        let grant = random.pick(&[0, 3, 50, 1_000_000]);
        events.extend(set_up(random.next(), random.between(1, 8) as u16, random.pick(&[1, 2]), grant));
    }
    match random.below(3) {
        0 => {
            let length = random.below(300);
            events.extend(random.bytes(length));
        }
        1 => {
            for _ in 0..random.below(600) {
                events.push(random.pick(&[0, 0, 0, 1, 2, 3, 4, 12, 33]));
            }
        }
        _ => {
            for _ in 0..random.below(60) {
                let kind =
                    if random.one_in(6) { random.next() as u16 } else { random.pick(&[1, 2, 2, 3, 3, 3, 4, 36]) };
                let length = if random.one_in(2) { random.pick(&[0, 2, 4, 12, 16]) } else { random.below(20) };
                let body: Vec<u8> = (0..length)
                    .map(|_| if random.one_in(8) { random.next() as u8 } else { random.pick(&[0, 1, 2, 3]) })
                    .collect();
                events.extend(record(kind, &body));
            }
        }
    }
    let length = random.below(200);
    (events, random.bytes(length))
}

fn long(random: &mut Random) -> (Vec<u8>, Vec<u8>) {
    let manner = random.pick(&[Manner::Lawful, Manner::Lawful, Manner::Mixed]);
    let (events, mut tape) = plant(random, manner, MOST_EVENTS);
    if random.one_in(2) {
        // As much tape as the program takes.
        tape.truncate(MOST_EVENTS);
    }
    (events, tape)
}
