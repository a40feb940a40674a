//! The edges of the rules, by hand. Where it is short enough, the whole publication is written out as well.

use crate::records::*;
use crate::{Case, Comparer, Sort};

const PLANS: [u16; 2] = [1, 2];
const MOST_GRANT: u32 = 1_000_000;

/// Horizons at which D changes in the dyadic plan and their neighbours, with D by hand.
const DYADIC_DEPTHS: [(u16, u32); 23] = [
    (1, 1),
    (2, 2),
    (3, 2),
    (4, 3),
    (5, 3),
    (7, 3),
    (8, 4),
    (15, 4),
    (16, 5),
    (31, 5),
    (32, 6),
    (63, 6),
    (64, 7),
    (127, 7),
    (128, 8),
    (255, 8),
    (256, 9),
    (257, 9),
    (511, 9),
    (512, 10),
    (1_000, 10),
    (1_023, 10),
    (1_024, 11),
];

pub fn compare(comparer: &mut Comparer) {
    let mut edges = Edges { comparer };
    edges.worked();
    edges.station_of_the_rules();
    edges.little();
    edges.set_ups();
    edges.horizons();
    edges.counts();
    edges.cells_left();
    edges.bytes_over();
    edges.step_order();
    edges.open_order();
    edges.out_of_turn();
    edges.full_epochs();
    edges.units();
    edges.units_in_turn();
    edges.closed_early();
    edges.epochs_apart();
    edges.rooms();
    edges.kinds();
    edges.cuts();
    edges.bodies();
    edges.long_epochs();
    edges.serials();
}

/// A room in which no event file stops for want of output.
fn ample(events: &[u8]) -> usize {
    (events.len() / 4 + 1) * 74 + 200
}

/// Rows that differ from class to class and from step to step.
fn row(classes: u16, step: u16) -> Vec<u16> {
    (0..classes).map(|class| (step * 7 + class * 131) % 1_001).collect()
}

/// So many cells, small ones of both signs.
fn small_cells(cells: usize) -> Vec<i32> {
    (0..cells).map(|at| (at as i32 * 37) % 19 - 9).collect()
}

/// The records of a set-up of one class and whatever follows it.
fn with_one_class(plan: u16, grant: u32, rest: &[Vec<u8>]) -> Vec<u8> {
    [set_up(9, 1, plan, grant), rest.concat()].concat()
}

struct Edges<'a> {
    comparer: &'a mut Comparer,
}

impl Edges<'_> {
    fn case(&mut self, what: String, events: Vec<u8>, tape: Vec<u8>, room: usize, expected: Option<Vec<u8>>) {
        self.comparer.compare(&Case { sort: Sort::Edges, what, events, tape, room, expected });
    }

    /// A case with room for everything.
    fn roomy(&mut self, what: String, events: Vec<u8>, tape: Vec<u8>) {
        let room = ample(&events);
        self.case(what, events, tape, room, None);
    }

    /// A case with room for everything, and with its publication.
    fn told(&mut self, what: String, events: Vec<u8>, tape: Vec<u8>, records: &[Vec<u8>]) {
        let room = ample(&events);
        self.case(what, events, tape, room, Some(publication(records)));
    }

    /// The worked publication of docs/RULES.md, all bytes by hand.
    fn worked(&mut self) {
        #[rustfmt::skip]
        let events = [
            0x0C, 0x00, 0x01, 0x00, 0x09, 0x00, 0x00, 0x00, 0x01, 0x00, 0x02, 0x00, 0x05, 0x00, 0x00, 0x00,
            0x02, 0x00, 0x02, 0x00, 0x02, 0x00,
            0x02, 0x00, 0x03, 0x00, 0x03, 0x00,
            0x00, 0x00, 0x04, 0x00,
        ];
        let tape = [0x02, 0x00, 0x00, 0x00];
        #[rustfmt::skip]
        let expected = [
            0x0A, 0x00, 0x21, 0x00, 0x01, 0x00, 0x00, 0x00, 0x02, 0x00, 0x02, 0x00, 0x00, 0x00,
            0x0E, 0x00, 0x22, 0x00, 0x01, 0x00, 0x00, 0x00, 0x01, 0x00, 0x05, 0x00, 0x00, 0x00, 0x00, 0x00, 0x00, 0x00,
            0x0A, 0x00, 0x23, 0x00, 0x01, 0x00, 0x00, 0x00, 0x01, 0x00, 0x01, 0x00, 0x00, 0x00,
            0x04, 0x00, 0x25, 0x00, 0x03, 0x00, 0x00, 0x00,
        ];
        for room in [200, 1_000, 65_536] {
            self.case(
                "the worked publication".to_string(),
                events.to_vec(),
                tape.to_vec(),
                room,
                Some(expected.to_vec()),
            );
        }
    }

    /// The worked station of docs/RULES.md: 5, 5, 5, 9, then 3 units spent and 2 left.
    fn station_of_the_rules(&mut self) {
        let events =
            with_one_class(2, 5, &[open(4), step(&[3]), step(&[0]), step(&[2]), step(&[1]), close(), open(4), open(3)]);
        let records = [
            opened(1, 4, 3),
            published(1, 1, &[5]),
            published(1, 2, &[5]),
            published(1, 3, &[5]),
            published(1, 4, &[9]),
            closed(1, 4, 3),
            refused(5, 3, 3, 8),
            opened(2, 3, 2),
            closed(2, 0, 0),
        ];
        self.told("the worked station".to_string(), events, tape(&[2, -1, -4, 3]), &records);
    }

    fn little(&mut self) {
        self.told("no events".to_string(), Vec::new(), Vec::new(), &[]);
        self.told("no events, with a tape".to_string(), Vec::new(), tape(&[1, 2]), &[]);
        for plan in PLANS {
            self.told(format!("a set-up alone, plan {plan}"), set_up(9, 1, plan, 5), tape(&[1]), &[]);
        }
        let events = with_one_class(1, 5, &[open(3)]);
        self.told("an open alone".to_string(), events, Vec::new(), &[opened(1, 3, 1), closed(1, 0, 0)]);
    }

    fn set_ups(&mut self) {
        for classes in [0, 1, 2, 3, 4, 5, 6, 7, 8, 9, 10, 16, 255, 256, 257, 264, 32_768, 65_535] {
            for plan in [0, 1, 2, 3, 4, 255, 256, 257, 258, 512, 65_535] {
                for grant in [0, 1, 5, 11, 999_999, 1_000_000, 1_000_001, 16_777_217, 2_147_483_648, 4_294_967_295] {
                    self.set_up_with(classes, plan, grant);
                }
            }
        }
        for station in [0, 1, 255, 65_536, 2_147_483_648, 4_294_967_295] {
            let events = [set_up(station, 2, 2, 3), open(2), step(&[1, 2])].concat();
            let records = [opened(1, 2, 2), published(1, 1, &[5, 7]), closed(1, 1, 1)];
            self.told(format!("station number {station}"), events, tape(&[4, 5]), &records);
        }
    }

    fn set_up_with(&mut self, classes: u16, plan: u16, grant: u32) {
        let what = format!("set-up with {classes} classes, plan {plan}, grant {grant}");
        let counts = row(classes.clamp(1, 8), 1);
        let events = [set_up(9, classes, plan, grant), open(1), step(&counts), close(), open(1_024)].concat();
        let tape = tape(&small_cells(16));
        let refusal = if !(1..=8).contains(&classes) {
            Some(refused(1, 2, classes.into(), 1))
        } else if !PLANS.contains(&plan) {
            Some(refused(1, 4, plan.into(), 1))
        } else if grant > MOST_GRANT {
            Some(refused(1, 3, grant, 1))
        } else {
            None
        };
        match refusal {
            Some(refusal) => self.told(what, events, tape, &[refusal]),
            None => self.roomy(what, events, tape),
        }
    }

    fn horizons(&mut self) {
        for plan in PLANS {
            for horizon in [0, 1_025, 1_026, 2_047, 2_048, 4_096, 32_767, 32_768, 32_769, 65_534, 65_535] {
                let events = with_one_class(plan, MOST_GRANT, &[open(horizon), step(&[1]), close()]);
                let records = [refused(3, 2, horizon.into(), 2), refused(6, 2, 0, 3), refused(6, 2, 0, 4)];
                self.told(format!("plan {plan}, horizon {horizon}"), events, tape(&[1]), &records);
            }
            for (horizon, dyadic) in DYADIC_DEPTHS {
                let depth = if plan == 1 { 1 } else { dyadic };
                let events = with_one_class(plan, MOST_GRANT, &[open(horizon), step(&[1]), close()]);
                let records = [opened(1, horizon, depth), published(1, 1, &[2]), closed(1, 1, 1)];
                self.told(format!("plan {plan}, horizon {horizon}"), events, tape(&[1]), &records);
            }
        }
    }

    fn counts(&mut self) {
        for classes in 1..=8 {
            for class in 0..classes {
                for count in [0, 1, 255, 256, 999, 1_000, 1_001, 1_024, 32_768, 65_535] {
                    let mut counts = row(classes, 3);
                    counts[usize::from(class)] = count;
                    let events = [set_up(9, classes, 2, 9), open(9), step(&counts), close()].concat();
                    let what = format!("count {count} in class {class} of {classes}");
                    let cells = tape(&small_cells(8));
                    if count > 1_000 {
                        let records = [opened(1, 9, 4), refused(8, 2, class.into(), 3), closed(1, 0, 0)];
                        self.told(what, events, cells, &records);
                    } else {
                        self.roomy(what, events, cells);
                    }
                }
            }
            // Two classes above 1,000: the first is the place.
            for (first, second) in [(0, classes - 1), (classes / 2, classes - 1)] {
                let mut counts = row(classes, 3);
                counts[usize::from(first)] = 1_001;
                counts[usize::from(second)] = 65_535;
                let events = [set_up(9, classes, 1, 9), open(9), step(&counts)].concat();
                let records = [opened(1, 9, 1), refused(8, 2, first.into(), 3), closed(1, 0, 0)];
                self.told(
                    format!("counts too large in {first} and {second} of {classes}"),
                    events,
                    Vec::new(),
                    &records,
                );
            }
        }
    }

    /// Tapes that end around a multiple of the classes, so that K - 1, K or K + 1 cells are left.
    fn cells_left(&mut self) {
        for plan in PLANS {
            for classes in 1..=8u16 {
                let k = usize::from(classes);
                for rows in 1..=3 {
                    for cells in [rows * k - 1, rows * k, rows * k + 1] {
                        self.cells_on_tape(plan, classes, cells);
                    }
                }
                self.cells_on_tape(plan, classes, 0);
            }
        }
    }

    fn cells_on_tape(&mut self, plan: u16, classes: u16, cells: usize) {
        let k = usize::from(classes);
        let mut events = [set_up(9, classes, plan, 9), open(9)].concat();
        for t in 1..=5 {
            events.extend(step(&row(classes, t)));
        }
        let what = format!("plan {plan}, {classes} classes, {cells} cells");
        if cells < k {
            let mut records = vec![opened(1, 9, if plan == 1 { 1 } else { 4 })];
            records.extend((3..=7).map(|event| refused(10, 5, cells as u32, event)));
            records.push(closed(1, 0, 0));
            self.told(what, events, tape(&small_cells(cells)), &records);
        } else {
            self.roomy(what, events, tape(&small_cells(cells)));
        }
    }

    fn bytes_over(&mut self) {
        for classes in 1..=8u16 {
            for bytes in 0..=(usize::from(classes) * 8 + 5) {
                let cells: Vec<u8> = (0..bytes).map(|at| (at * 59 + 200) as u8).collect();
                let mut events = [set_up(9, classes, 2, 9), open(9)].concat();
                for t in 1..=3 {
                    events.extend(step(&row(classes, t)));
                }
                self.roomy(format!("{classes} classes, a tape of {bytes} bytes"), events, cells);
            }
        }
        let events = with_one_class(2, 9, &[open(2), step(&[7]), step(&[7])]);
        let records = [opened(1, 2, 2), published(1, 1, &[5]), refused(10, 5, 0, 4), closed(1, 1, 1)];
        self.told("the five bytes of the rules".to_string(), events, vec![0xFE, 0xFF, 0xFF, 0xFF, 0x07], &records);
    }

    /// A step with every choice of the five reasons to refuse it.
    fn step_order(&mut self) {
        for reasons in 0..32u32 {
            let has = |reason: u32| reasons & (1 << reason) != 0;
            let (idle, length, count, full, empty) = (has(0), has(1), has(2), has(3), has(4));
            for plan in PLANS {
                let mut events = [set_up(9, 2, plan, 9), open(1)].concat();
                if full {
                    events.extend(step(&[4, 5]));
                }
                if idle {
                    events.extend(close());
                }
                let mut counts = if length { vec![1, 2, 3] } else { vec![1, 2] };
                if count {
                    counts[1] = 1_001;
                }
                events.extend(step(&counts));
                events.extend(close());
                let cells = if full { 2 } else { 0 } + if empty { 1 } else { 2 };
                self.roomy(
                    format!("step with the reasons {reasons:05b}, plan {plan}"),
                    events,
                    tape(&small_cells(cells)),
                );
            }
        }
    }

    /// An open with every choice of three reasons to refuse it; used up serials come in `serials`.
    fn open_order(&mut self) {
        for reasons in 0..8u32 {
            let has = |reason: u32| reasons & (1 << reason) != 0;
            for (plan, grant) in [(1, 1), (1, 0), (2, 3), (2, 1)] {
                let mut events = [set_up(9, 1, plan, grant), open(1), step(&[1]), close()].concat();
                if has(0) {
                    events.extend(open(1));
                }
                let horizon = if has(1) { 1_025 } else { 1 };
                let horizon = if has(2) { horizon.max(1_024) } else { horizon };
                events.extend([open(horizon), step(&[1]), open(0), open(65_535)].concat());
                let what = format!("open with the reasons {reasons:03b}, plan {plan}, grant {grant}");
                self.roomy(what, events, tape(&[1, 2, 3]));
            }
        }
    }

    fn out_of_turn(&mut self) {
        for plan in PLANS {
            let events = with_one_class(plan, 9, &[close(), close(), open(1), close(), close()]);
            let records =
                [refused(6, 2, 0, 2), refused(6, 2, 0, 3), opened(1, 1, 1), closed(1, 0, 0), refused(6, 2, 0, 6)];
            self.told(format!("close while idle, plan {plan}"), events, Vec::new(), &records);

            let events = with_one_class(plan, 9, &[open(1), open(1), close(), open(1), open(0), open(1_024), close()]);
            let records = [
                opened(1, 1, 1),
                refused(2, 2, 1, 3),
                closed(1, 0, 0),
                opened(2, 1, 1),
                refused(2, 2, 2, 6),
                refused(2, 2, 2, 7),
                closed(2, 0, 0),
            ];
            self.told(format!("open while open, plan {plan}"), events, Vec::new(), &records);

            let again = set_up(9, 1, plan, 9);
            let events = with_one_class(plan, 9, &[again.clone(), open(1), again.clone(), step(&[2]), close(), again]);
            let records = [
                refused(17, 1, 1, 2),
                opened(1, 1, 1),
                refused(17, 1, 1, 4),
                published(1, 1, &[5]),
                closed(1, 1, 1),
                refused(17, 1, 1, 7),
            ];
            self.told(format!("a set-up again, plan {plan}"), events, tape(&[3]), &records);

            let events = with_one_class(plan, 9, &[step(&[1]), step(&[1, 2, 3]), step(&[1_001]), open(1)]);
            let records =
                [refused(6, 2, 0, 2), refused(6, 2, 0, 3), refused(6, 2, 0, 4), opened(1, 1, 1), closed(1, 0, 0)];
            self.told(format!("step while idle, plan {plan}"), events, Vec::new(), &records);
        }
        for classes in 1..=8 {
            for length in 1..=8 {
                let events =
                    [set_up(9, classes, 2, 9), open(2), step(&row(length, 1)), step(&row(classes, 2))].concat();
                self.roomy(format!("a row of {length}, {classes} classes"), events, tape(&small_cells(16)));
            }
        }
    }

    /// Epochs with all their steps and more, closed and not.
    fn full_epochs(&mut self) {
        for plan in PLANS {
            for horizon in (1..=17).chain([31, 32, 33, 63, 64, 65]) {
                for (classes, ended) in [(1, true), (3, false)] {
                    let mut events = [set_up(9, classes, plan, 9), open(horizon)].concat();
                    for t in 1..=horizon + 2 {
                        events.extend(step(&row(classes, t)));
                    }
                    if ended {
                        events.extend([close(), open(1), step(&row(classes, 1)), close()].concat());
                    }
                    let cells = small_cells(usize::from(horizon + 3) * usize::from(classes));
                    self.roomy(format!("all {horizon} steps and two more, plan {plan}"), events, tape(&cells));
                }
            }
        }
    }

    /// Every horizon against every grant around its depth: D(T) equal to the free units, above and below.
    fn units(&mut self) {
        for plan in PLANS {
            for grant in 0..=12 {
                let mut events = set_up(9, 1, plan, grant);
                for horizon in 1..=1_024 {
                    events.extend([open(horizon), close()].concat());
                }
                self.roomy(format!("every horizon with a grant of {grant}, plan {plan}"), events, Vec::new());
            }
        }
        for (horizon, depth) in DYADIC_DEPTHS {
            let enough = with_one_class(2, depth, &[open(horizon)]);
            let records = [opened(1, horizon, depth), closed(1, 0, 0)];
            self.told(format!("horizon {horizon} with a grant of {depth}"), enough, Vec::new(), &records);
            let one_short = with_one_class(2, depth - 1, &[open(horizon)]);
            let records = [refused(5, 3, depth, 2)];
            self.told(format!("horizon {horizon} with a grant of one less"), one_short, Vec::new(), &records);
        }
    }

    /// Epochs one after the other until the units are gone: what was spent is gone, what was held comes back.
    fn units_in_turn(&mut self) {
        for plan in PLANS {
            for grant in 0..=40 {
                let mut events = set_up(9, 1, plan, grant);
                for horizon in [1, 2, 3, 4, 8, 15, 16, 5, 9, 3, 2, 1, 1, 1] {
                    events.extend(open(horizon));
                    for t in 1..=horizon.div_ceil(2) {
                        events.extend(step(&[t]));
                    }
                    events.extend(close());
                }
                events.extend([open(1_024), open(2), open(1)].concat());
                self.roomy(format!("epochs on a grant of {grant}, plan {plan}"), events, tape(&small_cells(60)));
            }
        }
    }

    /// Epochs closed after t of 1,024 steps, by a record and at the end.
    fn closed_early(&mut self) {
        for plan in PLANS {
            let some = (0..=40).chain([63, 64, 65, 127, 128, 129, 255, 256, 257, 511, 512, 513, 1_023, 1_024]);
            for steps in some {
                for ended in [true, false] {
                    let mut events = [set_up(9, 1, plan, 30), open(1_024)].concat();
                    for t in 1..=steps {
                        events.extend(step(&[t]));
                    }
                    if ended {
                        events.extend([close(), open(1_024), close()].concat());
                    }
                    let cells = small_cells(1_024);
                    self.roomy(format!("closed after {steps} steps, plan {plan}"), events, tape(&cells));
                }
            }
        }
    }

    /// Nothing of an epoch is left in the next: true counts, noise and what the finisher remembers start over.
    fn epochs_apart(&mut self) {
        let events =
            with_one_class(2, 9, &[open(2), step(&[1_000]), step(&[1]), close(), open(2), step(&[2]), step(&[0])]);
        let records = [
            opened(1, 2, 2),
            published(1, 1, &[1_100]),
            published(1, 2, &[1_100]),
            closed(1, 2, 2),
            opened(2, 2, 2),
            published(2, 1, &[0]),
            published(2, 2, &[9]),
            closed(2, 2, 2),
        ];
        self.told("two epochs, dyadic".to_string(), events, tape(&[100, -50, -3, 7]), &records);
        let events =
            with_one_class(1, 9, &[open(2), step(&[1_000]), step(&[1]), close(), open(2), step(&[2]), step(&[0])]);
        let records = [
            opened(1, 2, 1),
            published(1, 1, &[1_100]),
            published(1, 2, &[1_100]),
            closed(1, 2, 1),
            opened(2, 2, 1),
            published(2, 1, &[0]),
            published(2, 2, &[6]),
            closed(2, 2, 1),
        ];
        self.told("two epochs, single".to_string(), events, tape(&[100, -50, -3, 7]), &records);
    }

    /// A busy event file: three epochs, refusals between them, the last one left open.
    fn busy(plan: u16, classes: u16, last: Vec<u8>) -> (Vec<u8>, Vec<u8>) {
        let mut events = set_up(9, classes, plan, 30);
        for (horizon, steps) in [(4, 5), (9, 3), (1_024, 6)] {
            events.extend([step(&row(classes, 1)), open(horizon), open(horizon)].concat());
            for t in 1..=steps {
                events.extend(step(&row(classes, t)));
            }
            events.extend([step(&[1_001; 8]), record(40, &[1, 2, 3]), record(3, &[1])].concat());
            if horizon < 1_024 {
                events.extend(close());
            }
        }
        events.extend(last);
        (events, tape(&small_cells(usize::from(classes) * 20)))
    }

    /// Output buffers of every length, up to where nothing stops for want of it.
    fn rooms(&mut self) {
        let lasts =
            [(1, 1, Vec::new()), (2, 8, Vec::new()), (2, 3, close()), (1, 8, vec![2, 0, 3]), (2, 1, header(9, 4))];
        for (plan, classes, last) in lasts {
            let (events, tape) = Self::busy(plan, classes, last);
            let most = ample(&events).min(1_700);
            for room in 0..=most {
                let expected = if room < 120 { Some(Vec::new()) } else { None };
                let what = format!("a busy file, plan {plan}, {classes} classes, room {room}");
                self.case(what, events.clone(), tape.clone(), room, expected);
            }
        }
        for room in [0, 1, 119, 120, 121, 260] {
            for events in [Vec::new(), set_up(9, 1, 2, 5), open(1), vec![1], set_up(9, 9, 2, 5)] {
                let expected = if room < 120 { Some(Vec::new()) } else { None };
                self.case(format!("little events, room {room}"), events, Vec::new(), room, expected);
            }
        }
        // In 120 bytes one open is answered, and then 106 are left.
        let events = with_one_class(2, 9, &[open(1), step(&[1]), close()]);
        let stopped = publication(&[opened(1, 1, 1), refused(19, 7, 106, 3), closed(1, 0, 0)]);
        self.case("room 120".to_string(), events.clone(), tape(&[1]), 120, Some(stopped));
        // In 134 bytes the step is answered too: 120 are left for it.
        let stopped = publication(&[opened(1, 1, 1), published(1, 1, &[2]), refused(19, 7, 102, 4), closed(1, 1, 1)]);
        self.case("room 134".to_string(), events.clone(), tape(&[1]), 134, Some(stopped));
        // The last record is looked at with 119 left, and cut short: 19 comes before 16.
        let cut = [set_up(9, 1, 2, 9), open(1), vec![4]].concat();
        let stopped = publication(&[opened(1, 1, 1), refused(19, 7, 119, 3), closed(1, 0, 0)]);
        self.case("room 133, cut short".to_string(), cut.clone(), Vec::new(), 133, Some(stopped));
        let stopped = publication(&[opened(1, 1, 1), refused(16, 1, 1, 3), closed(1, 0, 0)]);
        self.case("room 134, cut short".to_string(), cut, Vec::new(), 134, Some(stopped));
        // With nothing more to look at, fewer than 120 bytes are enough.
        let events = with_one_class(2, 9, &[open(1)]);
        let whole = publication(&[opened(1, 1, 1), closed(1, 0, 0)]);
        self.case("room 120, one open".to_string(), events, Vec::new(), 120, Some(whole));
    }

    /// Every kind, first and later, with many body lengths, the right ones among them.
    fn kinds(&mut self) {
        let larger =
            [41, 64, 127, 128, 255, 256, 257, 258, 259, 260, 289, 292, 512, 768, 1_024, 8_448, 32_769, 65_281, 65_535];
        let lengths: Vec<usize> = (0..=20).chain([22, 24, 30, 38, 46, 54, 62, 69, 70, 71, 78, 256, 258, 268]).collect();
        for kind in (0..=40).chain(larger) {
            for length in &lengths {
                self.kind_and_length(kind, *length);
            }
        }
    }

    fn kind_and_length(&mut self, kind: u16, length: usize) {
        let body: Vec<u8> = (0..length).map(|at| [1, 0, 0, 0, 2, 0, 1, 0][at % 8]).collect();
        let odd = record(kind, &body);
        let what = format!("kind {kind} with {length} bytes");
        let place = length as u32;

        let first = [odd.clone(), open(1)].concat();
        if kind != 1 {
            self.told(format!("{what}, first"), first, Vec::new(), &[refused(17, 1, kind.into(), 1)]);
        } else if length != 12 {
            self.told(format!("{what}, first"), first, Vec::new(), &[refused(18, 1, place, 1)]);
        } else {
            self.roomy(format!("{what}, first"), first, Vec::new());
        }

        let suits = match kind {
            2 => length == 2,
            3 => length % 2 == 0 && (2..=16).contains(&length),
            4 => length == 0,
            _ => false,
        };
        let idle = with_one_class(2, 9, &[odd.clone(), open(1)]);
        let opened_first = with_one_class(2, 9, &[open(1), odd.clone(), close()]);
        if suits {
            self.roomy(format!("{what}, while idle"), idle, tape(&[5]));
            self.roomy(format!("{what}, while open"), opened_first, tape(&[5]));
        } else {
            let why = |event| {
                if (2..=4).contains(&kind) {
                    refused(18, 1, place, event)
                } else {
                    refused(17, 1, kind.into(), event)
                }
            };
            self.told(format!("{what}, while idle"), idle, tape(&[5]), &[why(2), opened(1, 1, 1), closed(1, 0, 0)]);
            self.told(
                format!("{what}, while open"),
                opened_first,
                tape(&[5]),
                &[opened(1, 1, 1), why(3), closed(1, 0, 0)],
            );
        }
    }

    /// Records cut at each place, as the first and as a later record, with an epoch open and not.
    fn cuts(&mut self) {
        let records = [
            set_up(9, 8, 2, 5),
            open(3),
            step(&row(1, 1)),
            step(&row(8, 1)),
            close(),
            record(4, &[7; 5]),
            record(0, &[1, 2, 3]),
            record(34, &[3; 14]),
            record(36, &[0; 12]),
            record(37, &[0; 4]),
            record(65_535, &[255; 9]),
            header(65_535, 3),
            header(65_535, 1),
            header(256, 2),
        ];
        for whole in records {
            for cut in 0..whole.len() {
                let part = whole[..cut].to_vec();
                let what = format!("{cut} bytes of the record {whole:02X?}");
                let refusal = |event| {
                    if cut == 0 {
                        Vec::new()
                    } else {
                        vec![refused(16, 1, cut as u32, event)]
                    }
                };
                self.told(format!("first: {what}"), part.clone(), tape(&[1]), &refusal(1));

                let idle = with_one_class(2, 9, &[part.clone()]);
                self.told(format!("after a set-up: {what}"), idle, tape(&[1]), &refusal(2));

                let closed_before = with_one_class(2, 9, &[open(1), close(), part.clone()]);
                let before = vec![opened(1, 1, 1), closed(1, 0, 0)];
                self.told(format!("after a close: {what}"), closed_before, tape(&[1]), &[before, refusal(4)].concat());

                let while_open = with_one_class(2, 9, &[open(1), part.clone()]);
                let records = [vec![opened(1, 1, 1)], refusal(3), vec![closed(1, 0, 0)]].concat();
                self.told(format!("while open: {what}"), while_open, tape(&[1]), &records);

                let after_step = with_one_class(2, 9, &[open(3), step(&[4]), part]);
                let records =
                    [vec![opened(1, 3, 2), published(1, 1, &[5])], refusal(4), vec![closed(1, 1, 1)]].concat();
                self.told(format!("after a step: {what}"), after_step, tape(&[1]), &records);
            }
        }
    }

    /// Bodies of no bytes and of 65,535, whole and one byte short.
    fn bodies(&mut self) {
        for kind in [0, 1, 2, 3, 4, 5, 33, 36, 37, 65_535] {
            for length in [0, 65_534, 65_535] {
                let whole = record(kind, &vec![1; length]);
                let mut short = whole.clone();
                short.pop();
                for odd in [whole, short] {
                    let what = format!("kind {kind} announcing {length} bytes, {} there", odd.len());
                    self.roomy(format!("{what}, first"), odd.clone(), tape(&[1]));
                    let later = with_one_class(1, 9, &[open(2), step(&[3]), odd.clone(), step(&[4])]);
                    self.case(format!("{what}, later"), later.clone(), tape(&[1, 2]), 1_000, None);
                    self.case(format!("{what}, later, little room"), later, tape(&[1, 2]), 160, None);
                    let last = with_one_class(1, 9, &[odd.clone()]);
                    self.case(format!("{what}, last"), last, tape(&[1, 2]), 1_000, None);
                }
            }
        }
    }

    /// Whole epochs of 1,024 steps, one step more and another epoch, with small and with extreme cells.
    fn long_epochs(&mut self) {
        let smallest_and_largest = |at: usize| if at % 3 == 0 { i32::MIN } else { i32::MAX };
        for plan in PLANS {
            for classes in [1, 8u16] {
                let cells = 1_025 * usize::from(classes);
                let mut events = [set_up(9, classes, plan, 30), open(1_024)].concat();
                for t in 1..=1_025 {
                    let counts = if t % 5 == 0 { vec![1_000; usize::from(classes)] } else { row(classes, t) };
                    events.extend(step(&counts));
                }
                events.extend([close(), open(2), step(&row(classes, 3)), close()].concat());
                let tapes = [
                    ("small cells", small_cells(cells)),
                    ("the smallest cells", vec![i32::MIN; cells]),
                    ("the largest cells", vec![i32::MAX; cells]),
                    ("the smallest and largest cells", (0..cells).map(smallest_and_largest).collect()),
                    ("one row too few", small_cells(cells - 2 * usize::from(classes))),
                ];
                for (name, cells) in tapes {
                    let what = format!("1,024 steps of {classes} classes, plan {plan}, {name}");
                    self.roomy(what.clone(), events.clone(), tape(&cells));
                    self.case(what, events.clone(), tape(&cells), 65_536, None);
                }
            }
        }
        self.largest_single();
    }

    /// The largest cell at each of 1,024 steps in the single plan, with the counts published by hand.
    fn largest_single(&mut self) {
        let mut events = [set_up(9, 1, 1, 1), open(1_024)].concat();
        let mut records = vec![opened(1, 1_024, 1)];
        for t in 1..=1_024u16 {
            events.extend(step(&[1_000]));
            records.push(published(1, t, &[i64::from(t) * 2_147_484_647]));
        }
        records.push(closed(1, 1_024, 1));
        self.told("the largest counts".to_string(), events, tape(&[i32::MAX; 1_024]), &records);
    }

    /// All 65,535 serials, and what comes after them.
    fn serials(&mut self) {
        for plan in PLANS {
            let mut events = set_up(9, 1, plan, 1);
            let mut records = Vec::new();
            for serial in 1..65_535 {
                events.extend([open(1), close()].concat());
                records.extend([opened(serial, 1, 1), closed(serial, 0, 0)]);
            }
            events.extend([open(1), open(1), step(&[5]), close()].concat());
            records.extend([
                opened(65_535, 1, 1),
                refused(2, 2, 65_535, 131_071),
                published(65_535, 1, &[7]),
                closed(65_535, 1, 1),
            ]);
            // 0 is no horizon, whatever the serials; that no unit is free would come later than the serials.
            events.extend([open(0), open(1), open(1_024), step(&[5]), close()].concat());
            records.push(refused(3, 2, 0, 131_074));
            records.push(refused(4, 2, 65_535, 131_075));
            records.push(refused(4, 2, 65_535, 131_076));
            records.push(refused(6, 2, 0, 131_077));
            records.push(refused(6, 2, 0, 131_078));
            self.told(format!("every serial, plan {plan}"), events, tape(&[2]), &records);
        }
        let mut events = set_up(9, 8, 2, 20);
        let mut records = Vec::new();
        for serial in 1..=65_535 {
            events.extend([open(1_024), close()].concat());
            records.extend([opened(serial, 1_024, 11), closed(serial, 0, 0)]);
        }
        events.extend([open(1_024), close()].concat());
        records.extend([refused(4, 2, 65_535, 131_072), refused(6, 2, 0, 131_073)]);
        self.told("65,536 opens and closes".to_string(), events, Vec::new(), &records);
    }
}
