//! Publishing a second time, in plain Rust, written from the words of docs/RULES.md, docs/RECORDS.md,
//! docs/REFUSALS.md and docs/DECISIONS.md and from nothing else.
//!
//! It goes by the words and is slow on purpose: a cover is a list of parts, the noise of a step is the sum of the
//! cells of the parts in its cover, and the depth D(k) is counted part by part.

use std::sync::OnceLock;

/// The bytes that the output must have left before an event record is looked at.
const ROOM: usize = 120;
const MOST_STEPS: usize = 1_024;
const MOST_CLASSES: usize = 8;
const MOST_COUNT: u16 = 1_000;
const MOST_GRANT: u32 = 1_000_000;
const LAST_SERIAL: u16 = 65_535;

// ---------------------------------------------------------------- refusals

#[derive(Clone, Copy)]
enum Layer {
    Record = 1,
    Station = 2,
    Account = 3,
    Plan = 4,
    Tape = 5,
    Publication = 7,
}

/// What a refusal tells.
#[derive(Clone, Copy, Debug, PartialEq, Eq)]
pub struct Refusal {
    pub number: u16,
    pub layer: u16,
    pub place: u64,
}

fn refusal(number: u16, layer: Layer, place: u64) -> Refusal {
    Refusal { number, layer: layer as u16, place }
}

// ---------------------------------------------------------------- plans

#[derive(Clone, Copy)]
enum Plan {
    Single,
    Dyadic,
}

/// Part t of a plan: the steps after p(t) and up to t.
#[derive(Clone, Copy)]
struct Part {
    after: usize,
    up_to: usize,
}

impl Part {
    fn holds(&self, step: usize) -> bool {
        self.after < step && step <= self.up_to
    }
}

impl Plan {
    fn by_number(number: u16) -> Result<Plan, Refusal> {
        match number {
            1 => Ok(Plan::Single),
            2 => Ok(Plan::Dyadic),
            _ => Err(refusal(1, Layer::Plan, number.into())),
        }
    }

    /// p(t), for a step t from 1 on.
    fn back_step(self, t: usize) -> usize {
        match self {
            Plan::Single => t - 1,
            Plan::Dyadic => t - greatest_power_of_two_in(t),
        }
    }

    fn part(self, t: usize) -> Part {
        Part { after: self.back_step(t), up_to: t }
    }

    /// Part t, and then whatever covers the steps up to p(t). Nothing covers 0.
    fn cover(self, t: usize) -> Vec<Part> {
        let mut cover = Vec::new();
        let mut to_cover = t;
        while to_cover > 0 {
            let part = self.part(to_cover);
            cover.push(part);
            to_cover = part.after;
        }
        cover
    }

    /// D(k), for k up to 1,024. It is counted once for each plan and kept.
    fn depth(self, k: usize) -> u32 {
        static SINGLE: OnceLock<Vec<u32>> = OnceLock::new();
        static DYADIC: OnceLock<Vec<u32>> = OnceLock::new();
        let kept = match self {
            Plan::Single => &SINGLE,
            Plan::Dyadic => &DYADIC,
        };
        kept.get_or_init(|| self.count_depths())[k]
    }

    fn count_depths(self) -> Vec<u32> {
        let parts: Vec<Part> = (1..=MOST_STEPS).map(|t| self.part(t)).collect();
        (0..=MOST_STEPS).map(|k| most_over_one_another(&parts[..k])).collect()
    }
}

/// The greatest power of two that divides t, which is at least 1, found by trial.
fn greatest_power_of_two_in(t: usize) -> usize {
    let mut power = 1;
    while t % (2 * power) == 0 {
        power *= 2;
    }
    power
}

/// How many of the parts 1 to k hold the step that most of them hold.
fn most_over_one_another(parts: &[Part]) -> u32 {
    let mut most = 0;
    for step in 1..=parts.len() {
        let holding: u32 = parts.iter().map(|part| u32::from(part.holds(step))).sum();
        most = most.max(holding);
    }
    most
}

// ---------------------------------------------------------------- tape

struct Tape {
    cells: Vec<i32>,
    drawn: usize,
}

impl Tape {
    /// Four bytes make a cell, lowest byte first; bytes over do not count.
    fn of_bytes(bytes: &[u8]) -> Tape {
        let cells =
            bytes.chunks_exact(4).map(|cell| i32::from_le_bytes([cell[0], cell[1], cell[2], cell[3]])).collect();
        Tape { cells, drawn: 0 }
    }

    fn left(&self) -> usize {
        self.cells.len() - self.drawn
    }

    /// The next cells, one for each class, or none of them.
    fn draw(&mut self, classes: usize) -> Result<Vec<i32>, Refusal> {
        if self.left() < classes {
            return Err(refusal(10, Layer::Tape, self.left() as u64));
        }
        let from = self.drawn;
        self.drawn += classes;
        Ok(self.cells[from..self.drawn].to_vec())
    }
}

// ---------------------------------------------------------------- finisher

struct Plain;

impl Plain {
    fn finish(&self, release: i64) -> i64 {
        release
    }
}

/// Rising over Plain: no class falls within an epoch, and each starts from 0.
struct Rising {
    below: Plain,
    largest: Vec<i64>,
}

impl Rising {
    fn new(classes: usize) -> Rising {
        Rising { below: Plain, largest: vec![0; classes] }
    }

    fn begin(&mut self) {
        self.largest.fill(0);
    }

    fn finish(&mut self, class: usize, release: i64) -> i64 {
        let answer = self.below.finish(release);
        if answer > self.largest[class] {
            self.largest[class] = answer;
        }
        self.largest[class]
    }
}

// ---------------------------------------------------------------- account

struct Account {
    grant: u32,
    spent: u32,
    held: u32,
}

impl Account {
    fn free(&self) -> u32 {
        self.grant - self.spent - self.held
    }

    fn hold(&mut self, units: u32) -> Result<(), Refusal> {
        if units > self.free() {
            return Err(refusal(5, Layer::Account, units.into()));
        }
        self.held += units;
        Ok(())
    }

    fn settle(&mut self, units_held: u32, units_spent: u32) {
        self.held -= units_held;
        self.spent += units_spent;
    }
}

// ---------------------------------------------------------------- events

struct SetUp {
    classes: u16,
    plan: u16,
    grant: u32,
}

enum Event {
    Open { horizon: u16 },
    Step { row: Vec<u16> },
    Close,
}

/// A record whose announced body is there, of whatever kind and length.
struct Whole<'a> {
    kind: u16,
    body: &'a [u8],
}

fn number_of_2(bytes: &[u8]) -> u16 {
    u16::from_le_bytes([bytes[0], bytes[1]])
}

fn number_of_4(bytes: &[u8]) -> u32 {
    u32::from_le_bytes([bytes[0], bytes[1], bytes[2], bytes[3]])
}

/// The first record of some bytes, which are not empty, and what follows it.
fn whole_record(bytes: &[u8]) -> Result<(Whole<'_>, &[u8]), Refusal> {
    let cut_short = refusal(16, Layer::Record, bytes.len() as u64);
    if bytes.len() < 4 {
        return Err(cut_short);
    }
    let length = usize::from(number_of_2(&bytes[0..2]));
    let kind = number_of_2(&bytes[2..4]);
    if bytes.len() < 4 + length {
        return Err(cut_short);
    }
    Ok((Whole { kind, body: &bytes[4..4 + length] }, &bytes[4 + length..]))
}

fn kind_not_allowed(record: &Whole) -> Refusal {
    refusal(17, Layer::Record, record.kind.into())
}

fn length_does_not_suit(record: &Whole) -> Refusal {
    refusal(18, Layer::Record, record.body.len() as u64)
}

/// A record that comes first has to be a set-up.
fn first_event(record: &Whole) -> Result<SetUp, Refusal> {
    if record.kind != 1 {
        return Err(kind_not_allowed(record));
    }
    if record.body.len() != 12 {
        return Err(length_does_not_suit(record));
    }
    // The first four bytes are the station's number, which no record of a publication has.
    Ok(SetUp {
        classes: number_of_2(&record.body[4..6]),
        plan: number_of_2(&record.body[6..8]),
        grant: number_of_4(&record.body[8..12]),
    })
}

/// A record that comes later has to be an open, a step or a close.
fn later_event(record: &Whole) -> Result<Event, Refusal> {
    let length = record.body.len();
    match record.kind {
        2 if length == 2 => Ok(Event::Open { horizon: number_of_2(record.body) }),
        3 if length % 2 == 0 && 2 <= length && length <= 16 => {
            Ok(Event::Step { row: record.body.chunks(2).map(number_of_2).collect() })
        }
        4 if length == 0 => Ok(Event::Close),
        2 | 3 | 4 => Err(length_does_not_suit(record)),
        _ => Err(kind_not_allowed(record)),
    }
}

// ---------------------------------------------------------------- station

struct Epoch {
    serial: u16,
    horizon: u16,
    /// How many were counted of each class.
    true_counts: Vec<i64>,
    /// The cells that were drawn, one list for each step, in it one cell for each class.
    cells: Vec<Vec<i32>>,
}

impl Epoch {
    fn steps(&self) -> usize {
        self.cells.len()
    }

    /// The sum of a class's cells of the parts in a cover.
    fn noise(&self, cover: &[Part], class: usize) -> i64 {
        cover.iter().map(|part| i64::from(self.cells[part.up_to - 1][class])).sum()
    }
}

struct Station {
    classes: usize,
    plan: Plan,
    account: Account,
    tape: Tape,
    finisher: Rising,
    /// The serial of the newest epoch, 0 before the first.
    last_serial: u16,
    open: Option<Epoch>,
}

/// What an accepted event is answered by.
enum Answer {
    Opened { serial: u16, horizon: u16, units_held: u32 },
    Published { serial: u16, step: u16, counts: Vec<i64> },
    Closed { serial: u16, steps: u16, units_spent: u32 },
}

impl Station {
    fn new(set_up: &SetUp, tape: Tape) -> Result<Station, Refusal> {
        let classes = usize::from(set_up.classes);
        if classes < 1 || classes > MOST_CLASSES {
            return Err(refusal(1, Layer::Station, classes as u64));
        }
        let plan = Plan::by_number(set_up.plan)?;
        if set_up.grant > MOST_GRANT {
            return Err(refusal(1, Layer::Account, set_up.grant.into()));
        }
        Ok(Station {
            classes,
            plan,
            account: Account { grant: set_up.grant, spent: 0, held: 0 },
            tape,
            finisher: Rising::new(classes),
            last_serial: 0,
            open: None,
        })
    }

    fn answer(&mut self, event: &Event) -> Result<Answer, Refusal> {
        match event {
            Event::Open { horizon } => self.open(*horizon),
            Event::Step { row } => self.step(row),
            Event::Close => self.close().ok_or(refusal(6, Layer::Station, 0)),
        }
    }

    fn open(&mut self, horizon: u16) -> Result<Answer, Refusal> {
        if let Some(epoch) = &self.open {
            return Err(refusal(2, Layer::Station, epoch.serial.into()));
        }
        if horizon < 1 || usize::from(horizon) > MOST_STEPS {
            return Err(refusal(3, Layer::Station, horizon.into()));
        }
        if self.last_serial == LAST_SERIAL {
            return Err(refusal(4, Layer::Station, LAST_SERIAL.into()));
        }
        let units_held = self.plan.depth(horizon.into());
        self.account.hold(units_held)?;
        let serial = self.last_serial + 1;
        self.last_serial = serial;
        self.open = Some(Epoch { serial, horizon, true_counts: vec![0; self.classes], cells: Vec::new() });
        self.finisher.begin();
        Ok(Answer::Opened { serial, horizon, units_held })
    }

    fn step(&mut self, row: &[u16]) -> Result<Answer, Refusal> {
        let Some(epoch) = &mut self.open else {
            return Err(refusal(6, Layer::Station, 0));
        };
        if row.len() != self.classes {
            return Err(refusal(7, Layer::Station, row.len() as u64));
        }
        if let Some(class) = row.iter().position(|count| *count > MOST_COUNT) {
            return Err(refusal(8, Layer::Station, class as u64));
        }
        if epoch.steps() == usize::from(epoch.horizon) {
            return Err(refusal(9, Layer::Station, epoch.horizon.into()));
        }
        let cells = self.tape.draw(self.classes)?;
        epoch.cells.push(cells);
        let step = epoch.steps();
        let cover = self.plan.cover(step);
        let mut counts = Vec::new();
        for class in 0..self.classes {
            epoch.true_counts[class] += i64::from(row[class]);
            let release = epoch.true_counts[class] + epoch.noise(&cover, class);
            counts.push(self.finisher.finish(class, release));
        }
        Ok(Answer::Published { serial: epoch.serial, step: step as u16, counts })
    }

    /// Closes the epoch that is open, if one is.
    fn close(&mut self) -> Option<Answer> {
        let epoch = self.open.take()?;
        let units_spent = self.plan.depth(epoch.steps());
        self.account.settle(self.plan.depth(epoch.horizon.into()), units_spent);
        Some(Answer::Closed { serial: epoch.serial, steps: epoch.steps() as u16, units_spent })
    }
}

// ---------------------------------------------------------------- publication

struct Publication<'a> {
    out: &'a mut [u8],
    written: usize,
    records: u64,
}

/// A figure in 32 bits: a larger one is written as the largest.
fn in_32_bits(figure: u64) -> u32 {
    figure.min(u32::MAX.into()) as u32
}

impl Publication<'_> {
    fn left(&self) -> usize {
        self.out.len() - self.written
    }

    fn put(&mut self, bytes: &[u8]) {
        self.out[self.written..self.written + bytes.len()].copy_from_slice(bytes);
        self.written += bytes.len();
    }

    fn add(&mut self, kind: u16, body: &[u8]) {
        self.put(&(body.len() as u16).to_le_bytes());
        self.put(&kind.to_le_bytes());
        self.put(body);
        self.records += 1;
    }

    fn answer(&mut self, answer: &Answer) {
        match answer {
            Answer::Opened { serial, horizon, units_held } => {
                self.add(33, &three_numbers(*serial, *horizon, *units_held))
            }
            Answer::Closed { serial, steps, units_spent } => {
                self.add(35, &three_numbers(*serial, *steps, *units_spent))
            }
            Answer::Published { serial, step, counts } => {
                let mut body = Vec::new();
                body.extend(u32::from(*serial).to_le_bytes());
                body.extend(step.to_le_bytes());
                for count in counts {
                    body.extend(count.to_le_bytes());
                }
                self.add(34, &body);
            }
        }
    }

    fn refuse(&mut self, refusal: Refusal, event: u64) {
        let mut body = Vec::new();
        body.extend(refusal.number.to_le_bytes());
        body.extend(refusal.layer.to_le_bytes());
        body.extend(in_32_bits(refusal.place).to_le_bytes());
        body.extend(in_32_bits(event).to_le_bytes());
        self.add(36, &body);
    }

    fn end(&mut self) {
        let before = in_32_bits(self.records);
        self.add(37, &before.to_le_bytes());
    }
}

/// The body of an opened or a closed record: 4, 2 and 4 bytes.
fn three_numbers(serial: u16, steps: u16, units: u32) -> Vec<u8> {
    let mut body = Vec::new();
    body.extend(u32::from(serial).to_le_bytes());
    body.extend(steps.to_le_bytes());
    body.extend(units.to_le_bytes());
    body
}

/// Reads the first record and makes the station of it; answers what follows the record too.
fn make_station<'a>(events: &'a [u8], tape: &[u8]) -> Result<(Station, &'a [u8]), Refusal> {
    let (record, rest) = whole_record(events)?;
    let set_up = first_event(&record)?;
    let station = Station::new(&set_up, Tape::of_bytes(tape))?;
    Ok((station, rest))
}

/// Answers each event record behind the set-up, until they end or the publication stops.
fn answer_events(station: &mut Station, events: &[u8], publication: &mut Publication) {
    let mut rest = events;
    let mut event = 1;
    while !rest.is_empty() {
        event += 1;
        if publication.left() < ROOM {
            publication.refuse(refusal(19, Layer::Publication, publication.left() as u64), event);
            return;
        }
        let (record, behind) = match whole_record(rest) {
            Ok(found) => found,
            Err(cut_short) => {
                publication.refuse(cut_short, event);
                return;
            }
        };
        rest = behind;
        match later_event(&record).and_then(|welcome| station.answer(&welcome)) {
            Ok(answer) => publication.answer(&answer),
            Err(refusal) => publication.refuse(refusal, event),
        }
    }
}

/// Makes the publication of some events and a tape at the start of `out`, and answers how many bytes it has.
pub fn publish(events: &[u8], tape: &[u8], out: &mut [u8]) -> Result<usize, Refusal> {
    if out.len() < ROOM {
        return Err(refusal(19, Layer::Publication, out.len() as u64));
    }
    let mut publication = Publication { out, written: 0, records: 0 };
    if !events.is_empty() {
        match make_station(events, tape) {
            Err(refusal) => publication.refuse(refusal, 1),
            Ok((mut station, rest)) => {
                answer_events(&mut station, rest, &mut publication);
                if let Some(closed) = station.close() {
                    publication.answer(&closed);
                }
            }
        }
    }
    publication.end();
    Ok(publication.written)
}
