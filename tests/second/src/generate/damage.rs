//! Damaged traces: every way in which a file can be faulty, and files with several faults.
//!
//! Assumes nothing of the run that is damaged.

use super::random::Random;
use super::runs::{encode, framed, Run};
use super::tables::{absent_bit, bad_counts, bad_reservation};
use crate::state::{ResourceNumber, TaskNumber, RESOURCE_LIMIT};
use crate::step::Event;
use crate::trace::{Record, FILE_LIMIT};

#[derive(Clone, Copy, Debug, PartialEq, Eq)]
pub enum Damage {
    CutAnywhere,
    CutInsideTable,
    StrayByte,
    LengthBelowTwo,
    LengthTooLong,
    BodyTooShortOrLong,
    UnknownKind,
    SecondCounts,
    ReservationTooMany,
    ReservationMissing,
    EventInsideTable,
    RecordsSwapped,
    BadCounts,
    BadReservation,
    AbsentResource,
    OverLong,
    FlippedBits,
    Noise,
}

impl Damage {
    pub const ALL: [Damage; 18] = [
        Damage::CutAnywhere,
        Damage::CutInsideTable,
        Damage::StrayByte,
        Damage::LengthBelowTwo,
        Damage::LengthTooLong,
        Damage::BodyTooShortOrLong,
        Damage::UnknownKind,
        Damage::SecondCounts,
        Damage::ReservationTooMany,
        Damage::ReservationMissing,
        Damage::EventInsideTable,
        Damage::RecordsSwapped,
        Damage::BadCounts,
        Damage::BadReservation,
        Damage::AbsentResource,
        Damage::OverLong,
        Damage::FlippedBits,
        Damage::Noise,
    ];
}

/// The trace of a run with one to three kinds of damage.
pub fn damaged_trace(random: &mut Random, run: &Run) -> Vec<u8> {
    let mut file = DamagedFile::of(run);
    for _ in 0..random.between(1, 3) {
        let damage = Damage::ALL[random.index(Damage::ALL.len())];
        file.suffer(random, damage);
    }
    file.bytes()
}

/// The trace of a run with this damage alone.
pub fn trace_with(random: &mut Random, run: &Run, damage: Damage) -> Vec<u8> {
    let mut file = DamagedFile::of(run);
    file.suffer(random, damage);
    file.bytes()
}

/// A trace as its records' bytes, and what follows them.
struct DamagedFile {
    records: Vec<Vec<u8>>,
    tail: Vec<u8>,
    /// How many records the table of the undamaged run has.
    table_size: usize,
    resources: u16,
    original: Vec<Record>,
}

impl DamagedFile {
    fn of(run: &Run) -> DamagedFile {
        let original = run.records();
        DamagedFile {
            records: original.iter().map(encode).collect(),
            tail: Vec::new(),
            table_size: original.len() - run.events.len(),
            resources: run.table.counts.resources,
            original,
        }
    }

    fn bytes(&self) -> Vec<u8> {
        let mut bytes = self.records.concat();
        bytes.extend(&self.tail);
        bytes
    }

    fn suffer(&mut self, random: &mut Random, damage: Damage) {
        match damage {
            Damage::CutAnywhere => self.cut(random),
            Damage::CutInsideTable => self.records.truncate(random.index(self.table_size)),
            Damage::StrayByte => self.tail.push(random.draw() as u8),
            Damage::LengthBelowTwo => self.set_length(random, 0, 1),
            Damage::LengthTooLong => self.set_length(random, 100, u16::MAX),
            Damage::BodyTooShortOrLong => self.resize_body(random),
            Damage::UnknownKind => self.change_kind(random),
            Damage::SecondCounts => self.insert_copy_of(random, 0),
            Damage::ReservationTooMany => self.insert_copy_of(random, 1),
            Damage::ReservationMissing => self.drop_reservation(random),
            Damage::EventInsideTable => self.insert_event(random),
            Damage::RecordsSwapped => self.swap(random),
            Damage::BadCounts | Damage::BadReservation | Damage::AbsentResource => {
                self.spoil_table(random, damage)
            }
            Damage::OverLong => self.lengthen(random),
            Damage::FlippedBits => self.flip(random),
            Damage::Noise => self.replace_by_noise(random),
        }
    }

    fn any_record<'a>(&'a mut self, random: &mut Random) -> Option<&'a mut Vec<u8>> {
        // Faults in the table are as telling as those in the many events after it.
        let reach = if random.one_in(2) {
            self.table_size.min(self.records.len())
        } else {
            self.records.len()
        };
        if reach == 0 {
            return None;
        }
        self.records.get_mut(random.index(reach))
    }

    fn cut(&mut self, random: &mut Random) {
        let mut bytes = self.bytes();
        bytes.truncate(random.index(bytes.len() + 1));
        self.records.clear();
        self.tail = bytes;
    }

    fn set_length(&mut self, random: &mut Random, low: u16, high: u16) {
        let length = random.number(low, high).to_le_bytes();
        if let Some(record) = self.any_record(random) {
            record[..2].copy_from_slice(&length);
        }
    }

    fn resize_body(&mut self, random: &mut Random) {
        let grows = random.one_in(2);
        let by = random.index(3) + 1;
        let kind_too = random.one_in(4);
        if let Some(record) = self.any_record(random) {
            let kind = u16::from_le_bytes([record[2], record[3]]);
            let kind = if kind_too { kind ^ 0x0100 } else { kind };
            let length = record.len();
            let wanted = if grows { length + by } else { length - by };
            record.resize(wanted.max(4), 0);
            *record = framed(kind, &record[4..]);
        }
    }

    fn change_kind(&mut self, random: &mut Random) {
        let unknown = [0, 9, 10, 15, 18, 19, 20, 255, 256, u16::MAX];
        let kind = unknown[random.index(unknown.len())].to_le_bytes();
        if let Some(record) = self.any_record(random) {
            record[2..4].copy_from_slice(&kind);
        }
    }

    /// A copy of a table record, anywhere. Number 0 is the counts, 1 the first reservation.
    fn insert_copy_of(&mut self, random: &mut Random, number: usize) {
        let copy = encode(&self.original[number]);
        let at = random.index(self.records.len() + 1);
        self.records.insert(at, copy);
    }

    fn drop_reservation(&mut self, random: &mut Random) {
        let at = random.index(self.table_size);
        if at < self.records.len() {
            self.records.remove(at);
        }
    }

    fn insert_event(&mut self, random: &mut Random) {
        let event = Event::Lock(TaskNumber(0), ResourceNumber(0));
        let at = random.index(self.table_size).min(self.records.len());
        self.records.insert(at, encode(&Record::Event(event)));
    }

    fn swap(&mut self, random: &mut Random) {
        if !self.records.is_empty() {
            let one = random.index(self.records.len());
            let other = random.index(self.table_size).min(self.records.len() - 1);
            self.records.swap(one, other);
        }
    }

    fn spoil_table(&mut self, random: &mut Random, damage: Damage) {
        let row = random.index(self.table_size - 1) + 1;
        let (at, record) = match (damage, self.original[0], self.original[row]) {
            (Damage::BadCounts, Record::Counts(counts), _) => {
                (0, Record::Counts(bad_counts(random, counts)))
            }
            (Damage::AbsentResource, _, Record::Reservation(mut reservation)) => {
                if usize::from(self.resources) < RESOURCE_LIMIT {
                    reservation.declared |= absent_bit(random, self.resources);
                }
                (row, Record::Reservation(reservation))
            }
            _ => (row, Record::Reservation(bad_reservation(random))),
        };
        if let Some(place) = self.records.get_mut(at) {
            *place = encode(&record);
        }
    }

    /// Fills the file up with good records to just under, at or above the limit.
    fn lengthen(&mut self, random: &mut Random) {
        let filler = encode(&Record::Event(Event::Elapse(random.between(0, 1))));
        let wanted = FILE_LIMIT + random.index(20) - 6;
        let mut size = self.bytes().len();
        while size + filler.len() <= wanted {
            self.records.push(filler.clone());
            size += filler.len();
        }
        self.tail
            .resize(self.tail.len() + wanted.saturating_sub(size), 0);
    }

    fn flip(&mut self, random: &mut Random) {
        for _ in 0..random.between(1, 4) {
            let bit = 1 << random.index(8);
            let place = random.draw() as usize;
            if let Some(record) = self.any_record(random) {
                let place = place % record.len();
                record[place] ^= bit;
            }
        }
    }

    fn replace_by_noise(&mut self, random: &mut Random) {
        let most = if random.one_in(2) { 3 } else { 20 };
        let size = random.index(200);
        self.records.clear();
        self.tail = (0..size).map(|_| random.between(0, most) as u8).collect();
    }
}
