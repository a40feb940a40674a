//! Counts which outcomes the compared cases reached.

use crate::records::whole_records;
use crate::words::Refusal;

#[derive(Clone, Copy, PartialEq, Eq, Debug)]
pub enum Outcome {
    Opened,
    Published,
    ClosedByRecord,
    ClosedAtEnd,
    Refused,
    End,
    Classes,
    PlanNumber,
    Grant,
    OpenWhileOpen,
    Horizon,
    SerialsUsed,
    UnitsNotFree,
    StepWhileIdle,
    CloseWhileIdle,
    RowLength,
    CountTooLarge,
    EpochFull,
    TapeEmpty,
    FirstCutShort,
    LaterCutShort,
    FirstKind,
    LaterKind,
    FirstLength,
    LaterLength,
    RoomInRecord,
    RoomInAnswer,
}

use Outcome::*;

const NAMES: [(Outcome, &str); 27] = [
    (Opened, "record 33, opened"),
    (Published, "record 34, published"),
    (ClosedByRecord, "record 35, closed, for a close record"),
    (ClosedAtEnd, "record 35, closed, at a stop or the end"),
    (Refused, "record 36, refused"),
    (End, "record 37, end"),
    (Classes, "refusal 1, layer 2: classes"),
    (PlanNumber, "refusal 1, layer 4: plan"),
    (Grant, "refusal 1, layer 3: grant"),
    (OpenWhileOpen, "refusal 2, layer 2: open while open"),
    (Horizon, "refusal 3, layer 2: horizon"),
    (SerialsUsed, "refusal 4, layer 2: serials used"),
    (UnitsNotFree, "refusal 5, layer 3: units not free"),
    (StepWhileIdle, "refusal 6, layer 2: step while idle"),
    (CloseWhileIdle, "refusal 6, layer 2: close record while idle"),
    (RowLength, "refusal 7, layer 2: row length"),
    (CountTooLarge, "refusal 8, layer 2: count"),
    (EpochFull, "refusal 9, layer 2: all steps taken"),
    (TapeEmpty, "refusal 10, layer 5: cells left"),
    (FirstCutShort, "refusal 16, layer 1: first record cut short"),
    (LaterCutShort, "refusal 16, layer 1: later record cut short"),
    (FirstKind, "refusal 17, layer 1: kind of the first record"),
    (LaterKind, "refusal 17, layer 1: kind of a later record"),
    (FirstLength, "refusal 18, layer 1: length of the first record"),
    (LaterLength, "refusal 18, layer 1: length of a later record"),
    (RoomInRecord, "refusal 19, layer 7: as a record"),
    (RoomInAnswer, "refusal 19, layer 7: as the answer"),
];

pub struct Outcomes {
    reached: [u64; NAMES.len()],
}

impl Outcomes {
    pub fn new() -> Outcomes {
        Outcomes { reached: [0; NAMES.len()] }
    }

    fn count(&mut self, outcome: Outcome) {
        let at = NAMES.iter().position(|(named, _)| *named == outcome).expect("every outcome has a name");
        self.reached[at] += 1;
    }

    /// Counts a publication that was refused altogether. Only a buffer that is too small is refused so.
    pub fn count_answer(&mut self, refusal: Refusal, room: usize) -> Result<(), String> {
        if refusal != (Refusal { number: 19, layer: 7, place: room as u64 }) {
            return Err(format!("an answer that no rule has: {refusal:?}"));
        }
        self.count(RoomInAnswer);
        Ok(())
    }

    /// Counts what a publication has. It has to be made of whole records, each of them one that the rules know.
    pub fn count_publication(&mut self, events: &[u8], publication: &[u8]) -> Result<(), String> {
        let asked: Vec<u16> = whole_records(events).into_iter().map(|(kind, _)| kind).collect();
        let records = whole_records(publication);
        let bytes: usize = records.iter().map(|(_, body)| 4 + body.len()).sum();
        if bytes != publication.len() || records.last().map(|(kind, _)| *kind) != Some(37) {
            return Err("a publication that is not made of whole records up to its end record".to_string());
        }
        let mut stopped = false;
        for (at, (kind, body)) in records.iter().enumerate() {
            // The set-up is not answered, so the record at 0 answers the second event record.
            let by_close = !stopped && asked.get(at + 1) == Some(&4);
            let outcome = match kind {
                33 => Opened,
                34 => Published,
                35 if by_close => ClosedByRecord,
                35 => ClosedAtEnd,
                36 => Refused,
                37 => End,
                _ => return Err(format!("a record of kind {kind} in a publication")),
            };
            self.count(outcome);
            if *kind == 36 {
                let why = refused_for(body, &asked)?;
                stopped = matches!(why, FirstCutShort | LaterCutShort | RoomInRecord);
                self.count(why);
            }
        }
        Ok(())
    }

    /// Prints how often each outcome was reached, and answers whether all were.
    pub fn print(&self) -> bool {
        println!("outcome                                             times");
        for (at, (_, name)) in NAMES.iter().enumerate() {
            println!("  {name:<48} {:>8}", self.reached[at]);
        }
        let mut all = true;
        for (at, (_, name)) in NAMES.iter().enumerate() {
            if self.reached[at] == 0 {
                println!("not reached: {name}");
                all = false;
            }
        }
        all
    }
}

/// Which outcome a refused record tells of.
fn refused_for(body: &[u8], asked: &[u16]) -> Result<Outcome, String> {
    let number = u16::from_le_bytes([body[0], body[1]]);
    let layer = u16::from_le_bytes([body[2], body[3]]);
    let event = u32::from_le_bytes([body[8], body[9], body[10], body[11]]);
    let first = event == 1;
    let asked_for = asked.get((event as usize).wrapping_sub(1)).copied();
    Ok(match (number, layer) {
        (1, 2) => Classes,
        (1, 4) => PlanNumber,
        (1, 3) => Grant,
        (2, 2) => OpenWhileOpen,
        (3, 2) => Horizon,
        (4, 2) => SerialsUsed,
        (5, 3) => UnitsNotFree,
        (6, 2) if asked_for == Some(3) => StepWhileIdle,
        (6, 2) if asked_for == Some(4) => CloseWhileIdle,
        (7, 2) => RowLength,
        (8, 2) => CountTooLarge,
        (9, 2) => EpochFull,
        (10, 5) => TapeEmpty,
        (16, 1) if first => FirstCutShort,
        (16, 1) => LaterCutShort,
        (17, 1) if first => FirstKind,
        (17, 1) => LaterKind,
        (18, 1) if first => FirstLength,
        (18, 1) => LaterLength,
        (19, 7) => RoomInRecord,
        _ => return Err(format!("a refusal that no publication has: {number}, layer {layer}, event record {event}")),
    })
}
