//! The bytes of event records, of tapes and of the records that a publication is expected to have, for writing cases
//! by hand.

/// A record of any kind, with any body.
pub fn record(kind: u16, body: &[u8]) -> Vec<u8> {
    header(body.len() as u16, kind).into_iter().chain(body.iter().copied()).collect()
}

pub fn header(length: u16, kind: u16) -> Vec<u8> {
    [length.to_le_bytes(), kind.to_le_bytes()].concat()
}

// ---------------------------------------------------------------- events

pub fn set_up(station: u32, classes: u16, plan: u16, grant: u32) -> Vec<u8> {
    let mut body = Vec::new();
    body.extend(station.to_le_bytes());
    body.extend(classes.to_le_bytes());
    body.extend(plan.to_le_bytes());
    body.extend(grant.to_le_bytes());
    record(1, &body)
}

pub fn open(horizon: u16) -> Vec<u8> {
    record(2, &horizon.to_le_bytes())
}

pub fn step(counts: &[u16]) -> Vec<u8> {
    let body: Vec<u8> = counts.iter().flat_map(|count| count.to_le_bytes()).collect();
    record(3, &body)
}

pub fn close() -> Vec<u8> {
    record(4, &[])
}

pub fn tape(cells: &[i32]) -> Vec<u8> {
    cells.iter().flat_map(|cell| cell.to_le_bytes()).collect()
}

// ---------------------------------------------------------------- a publication

pub fn opened(serial: u32, horizon: u16, units: u32) -> Vec<u8> {
    let mut body = Vec::new();
    body.extend(serial.to_le_bytes());
    body.extend(horizon.to_le_bytes());
    body.extend(units.to_le_bytes());
    record(33, &body)
}

pub fn published(serial: u32, step: u16, counts: &[i64]) -> Vec<u8> {
    let mut body = Vec::new();
    body.extend(serial.to_le_bytes());
    body.extend(step.to_le_bytes());
    body.extend(counts.iter().flat_map(|count| count.to_le_bytes()));
    record(34, &body)
}

pub fn closed(serial: u32, steps: u16, units: u32) -> Vec<u8> {
    let mut body = Vec::new();
    body.extend(serial.to_le_bytes());
    body.extend(steps.to_le_bytes());
    body.extend(units.to_le_bytes());
    record(35, &body)
}

pub fn refused(number: u16, layer: u16, place: u32, event: u32) -> Vec<u8> {
    let mut body = Vec::new();
    body.extend(number.to_le_bytes());
    body.extend(layer.to_le_bytes());
    body.extend(place.to_le_bytes());
    body.extend(event.to_le_bytes());
    record(36, &body)
}

/// The records, and the end record that counts them.
pub fn publication(records: &[Vec<u8>]) -> Vec<u8> {
    let end = record(37, &(records.len() as u32).to_le_bytes());
    [records.concat(), end].concat()
}

// ---------------------------------------------------------------- looking through records

/// The kinds and bodies of the records that stand whole at the start of some bytes, one after the other.
pub fn whole_records(bytes: &[u8]) -> Vec<(u16, &[u8])> {
    let mut found = Vec::new();
    let mut rest = bytes;
    while rest.len() >= 4 {
        let length = usize::from(u16::from_le_bytes([rest[0], rest[1]]));
        let kind = u16::from_le_bytes([rest[2], rest[3]]);
        if rest.len() < 4 + length {
            break;
        }
        found.push((kind, &rest[4..4 + length]));
        rest = &rest[4 + length..];
    }
    found
}
