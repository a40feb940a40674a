//! The job of the program `publisher` in plain Rust, to compare its speed with. It takes at most 32,768 bytes of events
//! from standard input and as many from the file tape.bin, which may be missing, and writes the publication to standard
//! output. docs/RULES.md, docs/RECORDS.md and docs/REFUSALS.md say what it does; bench/publishing builds and runs it.

use std::fs::File;
use std::io::{self, ErrorKind, Read, Write};

/// The most bytes that are read of the events, and of the tape.
const MOST_INPUT: usize = 32_768;
/// The bytes of the output buffer.
const OUTPUT: usize = 65_536;
/// An event record is looked at only with this much room.
const LEAST_ROOM: usize = 120;

const MOST_CLASSES: usize = 8;
const MOST_STEPS: usize = 1_024;
const MOST_GRANT: u32 = 1_000_000;
const MOST_COUNT: u16 = 1_000;

const SET_UP: u16 = 1;
const OPEN: u16 = 2;
const STEP: u16 = 3;
const CLOSE: u16 = 4;
const OPENED: u16 = 33;
const PUBLISHED: u16 = 34;
const CLOSED: u16 = 35;
const REFUSED: u16 = 36;
const END: u16 = 37;

fn main() -> io::Result<()> {
    let mut events = Vec::with_capacity(MOST_INPUT);
    io::stdin().lock().take(MOST_INPUT as u64).read_to_end(&mut events)?;
    let tape = read_tape()?;
    let mut out = vec![0; OUTPUT];
    let written = publish(&events, &tape, &mut out).map_err(|fault| io::Error::other(format!("refused: {fault:?}")))?;
    let mut stdout = io::stdout().lock();
    stdout.write_all(&out[..written])?;
    stdout.flush()
}

fn read_tape() -> io::Result<Vec<u8>> {
    let mut tape = Vec::new();
    match File::open("tape.bin") {
        Ok(file) => {
            tape.reserve_exact(MOST_INPUT);
            file.take(MOST_INPUT as u64).read_to_end(&mut tape)?;
        }
        Err(error) if error.kind() == ErrorKind::NotFound => {}
        Err(error) => return Err(error),
    }
    Ok(tape)
}

/// Writes the publication to the start of the buffer and answers how many bytes it has.
fn publish(events: &[u8], tape: &[u8], buffer: &mut [u8]) -> Result<usize, Fault> {
    if buffer.len() < LEAST_ROOM {
        return Err(Fault::new(19, Layer::Publication, buffer.len() as u32));
    }
    let mut out = Output {
        buffer,
        written: 0,
        records: 0,
    };
    if !events.is_empty() {
        match first_event(events) {
            Ok((setting, rest)) => follow(&mut Station::new(setting, tape), rest, &mut out),
            Err(fault) => out.refused(fault, 1),
        }
    }
    out.end();
    Ok(out.written)
}

/// The setting of the first event record, which has to be a set-up, and the bytes behind it.
fn first_event(events: &[u8]) -> Result<(Setting, &[u8]), Fault> {
    let (kind, body, rest) = split_record(events)?;
    if kind != SET_UP {
        return Err(Fault::kind(kind));
    }
    Ok((Setting::read(body)?, rest))
}

/// Answers the later event records, and closes the epoch that is open at the end.
fn follow(station: &mut Station, mut events: &[u8], out: &mut Output) {
    let mut number = 2;
    while !events.is_empty() {
        if out.left() < LEAST_ROOM {
            out.refused(Fault::new(19, Layer::Publication, out.left() as u32), number);
            break;
        }
        match split_record(events) {
            Ok((kind, body, rest)) => {
                if let Err(fault) = station.take(kind, body, out) {
                    out.refused(fault, number);
                }
                events = rest;
            }
            Err(fault) => {
                out.refused(fault, number);
                break;
            }
        }
        number += 1;
    }
    if let Some(epoch) = station.epoch.take() {
        station.settle(&epoch, out);
    }
}

/// Kind and body of the first record, and the bytes behind it; refused if it is cut short.
fn split_record(bytes: &[u8]) -> Result<(u16, &[u8], &[u8]), Fault> {
    let cut = Fault::new(16, Layer::Record, bytes.len() as u32);
    let (&[a, b, c, d], rest) = bytes.split_first_chunk().ok_or(cut)?;
    let size = u16::from_le_bytes([a, b]);
    let (body, rest) = rest.split_at_checked(size.into()).ok_or(cut)?;
    Ok((u16::from_le_bytes([c, d]), body, rest))
}

#[derive(Clone, Copy, Debug)]
enum Layer {
    Record = 1,
    Station = 2,
    Account = 3,
    Plan = 4,
    Tape = 5,
    Publication = 7,
}

#[derive(Clone, Copy, Debug)]
struct Fault {
    number: u16,
    layer: Layer,
    place: u32,
}

impl Fault {
    fn new(number: u16, layer: Layer, place: u32) -> Fault {
        Fault { number, layer, place }
    }

    fn kind(kind: u16) -> Fault {
        Fault::new(17, Layer::Record, kind.into())
    }

    fn length(body: &[u8]) -> Fault {
        Fault::new(18, Layer::Record, body.len() as u32)
    }
}

#[derive(Clone, Copy)]
enum Plan {
    Single,
    Dyadic,
}

impl Plan {
    fn by_number(number: u16) -> Option<Plan> {
        match number {
            1 => Some(Plan::Single),
            2 => Some(Plan::Dyadic),
            _ => None,
        }
    }

    /// The back step of a step, which is 1 or more.
    fn back(self, step: u16) -> u16 {
        match self {
            Plan::Single => step - 1,
            Plan::Dyadic => step & (step - 1),
        }
    }

    fn depth(self, steps: u16) -> u32 {
        match self {
            Plan::Single => steps.min(1).into(),
            Plan::Dyadic => u16::BITS - steps.leading_zeros(),
        }
    }
}

struct Setting {
    classes: usize,
    plan: Plan,
    grant: u32,
}

impl Setting {
    /// The setting in the body of a set-up record. Its station number is not needed.
    fn read(body: &[u8]) -> Result<Setting, Fault> {
        let &[_, _, _, _, c0, c1, p0, p1, g0, g1, g2, g3] = body else {
            return Err(Fault::length(body));
        };
        let classes = u16::from_le_bytes([c0, c1]);
        let plan = u16::from_le_bytes([p0, p1]);
        let grant = u32::from_le_bytes([g0, g1, g2, g3]);
        if !(1..=MOST_CLASSES).contains(&classes.into()) {
            return Err(Fault::new(1, Layer::Station, classes.into()));
        }
        let Some(plan) = Plan::by_number(plan) else {
            return Err(Fault::new(1, Layer::Plan, plan.into()));
        };
        if grant > MOST_GRANT {
            return Err(Fault::new(1, Layer::Account, grant));
        }
        Ok(Setting {
            classes: classes.into(),
            plan,
            grant,
        })
    }
}

struct Epoch {
    horizon: u16,
    steps: u16,
    held: u32,
}

struct Station<'a> {
    classes: usize,
    plan: Plan,
    /// The units that are neither spent nor held.
    free: u32,
    /// The cells that are left.
    tape: &'a [[u8; 4]],
    /// The serial of the newest epoch, 0 before the first.
    serial: u16,
    epoch: Option<Epoch>,
    /// The true count of each class.
    counts: [i64; MOST_CLASSES],
    /// What was published last for each class, 0 before the first step: a count that never falls.
    published: [i64; MOST_CLASSES],
    /// The noise of each class by step. That of step 0 stays 0.
    noise: [[i64; MOST_CLASSES]; MOST_STEPS + 1],
}

impl<'a> Station<'a> {
    fn new(setting: Setting, tape: &'a [u8]) -> Station<'a> {
        Station {
            classes: setting.classes,
            plan: setting.plan,
            free: setting.grant,
            tape: tape.as_chunks().0,
            serial: 0,
            epoch: None,
            counts: [0; MOST_CLASSES],
            published: [0; MOST_CLASSES],
            noise: [[0; MOST_CLASSES]; MOST_STEPS + 1],
        }
    }

    /// Answers an event record behind the first by a record, or refuses it.
    fn take(&mut self, kind: u16, body: &[u8], out: &mut Output) -> Result<(), Fault> {
        match (kind, body) {
            (OPEN, &[a, b]) => self.open(u16::from_le_bytes([a, b]), out),
            (STEP, _) => match body.as_chunks() {
                (row, []) if (1..=MOST_CLASSES).contains(&row.len()) => self.step(row, out),
                _ => Err(Fault::length(body)),
            },
            (CLOSE, []) => self.close(out),
            (OPEN | CLOSE, _) => Err(Fault::length(body)),
            _ => Err(Fault::kind(kind)),
        }
    }

    fn open(&mut self, horizon: u16, out: &mut Output) -> Result<(), Fault> {
        if self.epoch.is_some() {
            return Err(Fault::new(2, Layer::Station, self.serial.into()));
        }
        if !(1..=MOST_STEPS).contains(&horizon.into()) {
            return Err(Fault::new(3, Layer::Station, horizon.into()));
        }
        if self.serial == u16::MAX {
            return Err(Fault::new(4, Layer::Station, self.serial.into()));
        }
        let held = self.plan.depth(horizon);
        if held > self.free {
            return Err(Fault::new(5, Layer::Account, held));
        }
        self.free -= held;
        self.serial += 1;
        self.epoch = Some(Epoch {
            horizon,
            steps: 0,
            held,
        });
        self.counts = [0; MOST_CLASSES];
        self.published = [0; MOST_CLASSES];
        out.opened(self.serial, horizon, held);
        Ok(())
    }

    /// A step with a row of counts.
    fn step(&mut self, row: &[[u8; 2]], out: &mut Output) -> Result<(), Fault> {
        let Some(epoch) = &mut self.epoch else {
            return Err(Fault::new(6, Layer::Station, 0));
        };
        if row.len() != self.classes {
            return Err(Fault::new(7, Layer::Station, row.len() as u32));
        }
        if let Some(class) = row.iter().position(|&count| u16::from_le_bytes(count) > MOST_COUNT) {
            return Err(Fault::new(8, Layer::Station, class as u32));
        }
        if epoch.steps == epoch.horizon {
            return Err(Fault::new(9, Layer::Station, epoch.horizon.into()));
        }
        let Some((cells, rest)) = self.tape.split_at_checked(row.len()) else {
            return Err(Fault::new(10, Layer::Tape, self.tape.len() as u32));
        };
        self.tape = rest;
        epoch.steps += 1;
        let before = self.noise[usize::from(self.plan.back(epoch.steps))];
        let noise = &mut self.noise[usize::from(epoch.steps)];
        for (class, (&count, &cell)) in row.iter().zip(cells).enumerate() {
            self.counts[class] += i64::from(u16::from_le_bytes(count));
            noise[class] = before[class] + i64::from(i32::from_le_bytes(cell));
            let release = self.counts[class] + noise[class];
            self.published[class] = self.published[class].max(release);
        }
        out.published(self.serial, epoch.steps, &self.published[..row.len()]);
        Ok(())
    }

    fn close(&mut self, out: &mut Output) -> Result<(), Fault> {
        let epoch = self.epoch.take().ok_or(Fault::new(6, Layer::Station, 0))?;
        self.settle(&epoch, out);
        Ok(())
    }

    /// Frees the units held for a closed epoch, but for those of its steps.
    fn settle(&mut self, epoch: &Epoch, out: &mut Output) {
        let spent = self.plan.depth(epoch.steps);
        self.free += epoch.held - spent;
        out.closed(self.serial, epoch.steps, spent);
    }
}

/// The records written so far, at the start of the buffer.
struct Output<'a> {
    buffer: &'a mut [u8],
    written: usize,
    records: u32,
}

impl Output<'_> {
    fn left(&self) -> usize {
        self.buffer.len() - self.written
    }

    /// Adds a record and answers its body, which is to be filled.
    fn add(&mut self, kind: u16, size: usize) -> &mut [u8] {
        let (header, rest) = self.buffer[self.written..].split_at_mut(4);
        header[..2].copy_from_slice(&(size as u16).to_le_bytes());
        header[2..].copy_from_slice(&kind.to_le_bytes());
        self.written += 4 + size;
        self.records += 1;
        &mut rest[..size]
    }

    fn opened(&mut self, serial: u16, horizon: u16, held: u32) {
        let body = self.add(OPENED, 10);
        body[..4].copy_from_slice(&u32::from(serial).to_le_bytes());
        body[4..6].copy_from_slice(&horizon.to_le_bytes());
        body[6..].copy_from_slice(&held.to_le_bytes());
    }

    fn published(&mut self, serial: u16, step: u16, counts: &[i64]) {
        let (head, fields) = self.add(PUBLISHED, 6 + 8 * counts.len()).split_at_mut(6);
        head[..4].copy_from_slice(&u32::from(serial).to_le_bytes());
        head[4..].copy_from_slice(&step.to_le_bytes());
        for (field, count) in fields.as_chunks_mut().0.iter_mut().zip(counts) {
            *field = count.to_le_bytes();
        }
    }

    fn closed(&mut self, serial: u16, steps: u16, spent: u32) {
        let body = self.add(CLOSED, 10);
        body[..4].copy_from_slice(&u32::from(serial).to_le_bytes());
        body[4..6].copy_from_slice(&steps.to_le_bytes());
        body[6..].copy_from_slice(&spent.to_le_bytes());
    }

    fn refused(&mut self, fault: Fault, event: u32) {
        let body = self.add(REFUSED, 12);
        body[..2].copy_from_slice(&fault.number.to_le_bytes());
        body[2..4].copy_from_slice(&(fault.layer as u16).to_le_bytes());
        body[4..8].copy_from_slice(&fault.place.to_le_bytes());
        body[8..].copy_from_slice(&event.to_le_bytes());
    }

    fn end(&mut self) {
        let records = self.records;
        self.add(END, 4).copy_from_slice(&records.to_le_bytes());
    }
}
