//! The bytes of a journal: a header of 128 bytes, then records of one length.
//! Numbers have 8 bytes, low byte first.
//!
//! | from | what |
//! |---|---|
//! | 0 | `RINWJRN1` |
//! | 8 | the partitions, the levels and the bytes of a slot |
//! | 32 | the save that the slots' file is of, 16 bytes |
//! | 48 | the sum of all slots at that save |
//! | 56 | the sum of all before |
//! | 64 | the save that is being committed, 16 bytes and their sum; or zeros |
//! | 88 | zeros |
//! | 128 | records |
//!
//! A record has its sum, then the offset of a slot in its file and the slot's
//! bytes; or 2^64 − 1, a save that was prepared, and the sum of all slots at it.
//! Zeros fill it up where either is shorter. Sums of records begin with that of
//! the header and the record's number, so that no record is good in another
//! place or journal.

use super::sum::Sum;
use crate::saves::SaveId;

/// Where records begin.
pub(crate) const RECORDS: u64 = 128;

/// Where the header has the save that is being committed.
pub(crate) const MARK: u64 = 64;

const MAGIC: &[u8; 8] = b"RINWJRN1";

/// In place of an offset: the record is of a prepared save.
const PREPARED: u64 = u64::MAX;

/// What stands in a record before its bytes, and the bytes of a save.
const FRONT: usize = 16;
const SAVE: usize = 24;

/// The slots of a file.
#[derive(Clone, Copy, Debug, PartialEq, Eq)]
pub(crate) struct Layout {
    pub partitions: usize,
    pub levels: usize,
    /// Those of one slot.
    pub bytes: usize,
    /// Those of all slots.
    pub length: u64,
}

/// A save, and the sum of all slots at it.
#[derive(Clone, Copy, Debug, PartialEq, Eq)]
pub(crate) struct Save {
    pub id: SaveId,
    pub sum: u64,
}

/// What a record is of.
#[derive(Clone, Copy, Debug, PartialEq, Eq)]
pub(crate) enum Entry {
    /// The slot at this offset.
    Slot(u64),
    Prepared(Save),
}

/// What the records of one journal look like.
#[derive(Clone, Copy, Debug)]
pub(crate) struct Form {
    seed: u64,
    /// The bytes of a slot.
    bytes: usize,
}

fn number(bytes: &[u8], at: usize) -> u64 {
    let mut word = [0; 8];
    word.copy_from_slice(&bytes[at..at + 8]);
    u64::from_le_bytes(word)
}

fn id(bytes: &[u8], at: usize) -> SaveId {
    let mut id = [0; 16];
    id.copy_from_slice(&bytes[at..at + 16]);
    SaveId::new(id)
}

fn put(bytes: &mut [u8], at: usize, number: u64) {
    bytes[at..at + 8].copy_from_slice(&number.to_le_bytes());
}

/// The header of a journal in which nothing is being committed.
pub(crate) fn header(layout: Layout, base: Save) -> [u8; RECORDS as usize] {
    let mut bytes = [0; RECORDS as usize];
    bytes[..8].copy_from_slice(MAGIC);
    put(&mut bytes, 8, layout.partitions as u64);
    put(&mut bytes, 16, layout.levels as u64);
    put(&mut bytes, 24, layout.bytes as u64);
    bytes[32..48].copy_from_slice(&base.id.bytes());
    put(&mut bytes, 48, base.sum);
    let sum = Sum::new(0).add(&bytes[..56]).value();
    put(&mut bytes, 56, sum);
    bytes
}

/// What a header says: partitions, levels and bytes of a slot, and the save of
/// the slots' file. None if it is none.
pub(crate) fn read_header(bytes: &[u8; RECORDS as usize]) -> Option<([u64; 3], Save)> {
    let good = Sum::new(0).add(&bytes[..56]).value() == number(bytes, 56);
    (good && bytes.starts_with(MAGIC)).then(|| {
        let slots = [8, 16, 24].map(|at| number(bytes, at));
        let (id, sum) = (id(bytes, 32), number(bytes, 48));
        (slots, Save { id, sum })
    })
}

impl Form {
    pub(crate) fn new(layout: Layout, base: Save) -> Form {
        let header = header(layout, base);
        Form {
            seed: number(&header, 56),
            bytes: layout.bytes,
        }
    }

    /// The bytes of a record.
    pub(crate) fn length(&self) -> usize {
        FRONT + self.bytes.max(SAVE)
    }

    /// Where a record begins.
    pub(crate) fn at(&self, record: u64) -> u64 {
        RECORDS + record * self.length() as u64
    }

    /// Where the bytes of its slot begin.
    pub(crate) fn slot_at(&self, record: u64) -> u64 {
        self.at(record) + FRONT as u64
    }

    fn sum(&self, record: u64, rest: &[u8]) -> u64 {
        Sum::new(self.seed).add_number(record).add(rest).value()
    }

    /// The bytes of a record for the slot at this offset.
    pub(crate) fn slot(&self, record: u64, offset: u64, bytes: &[u8]) -> Vec<u8> {
        let mut made = vec![0; self.length()];
        put(&mut made, 8, offset);
        made[FRONT..FRONT + bytes.len()].copy_from_slice(bytes);
        self.summed(record, made)
    }

    /// The bytes of a record for a prepared save.
    pub(crate) fn prepared(&self, record: u64, save: Save) -> Vec<u8> {
        let mut made = vec![0; self.length()];
        put(&mut made, 8, PREPARED);
        made[FRONT..FRONT + 16].copy_from_slice(&save.id.bytes());
        put(&mut made, FRONT + 16, save.sum);
        self.summed(record, made)
    }

    fn summed(&self, record: u64, mut made: Vec<u8>) -> Vec<u8> {
        let sum = self.sum(record, &made[8..]);
        put(&mut made, 0, sum);
        made
    }

    /// What these bytes say as this record, or none if they are no such record.
    pub(crate) fn entry(&self, record: u64, bytes: &[u8]) -> Option<Entry> {
        if self.sum(record, &bytes[8..]) != number(bytes, 0) {
            return None;
        }
        Some(match number(bytes, 8) {
            PREPARED => Entry::Prepared(Save {
                id: id(bytes, FRONT),
                sum: number(bytes, FRONT + 16),
            }),
            offset => Entry::Slot(offset),
        })
    }

    /// The bytes at [`MARK`] while this save is being committed.
    pub(crate) fn mark(&self, id: SaveId) -> [u8; SAVE] {
        let mut made = [0; SAVE];
        made[..16].copy_from_slice(&id.bytes());
        let sum = Sum::new(self.seed).add(&made[..16]).value();
        put(&mut made, 16, sum);
        made
    }

    /// The save that is being committed, if the header has a whole mark.
    pub(crate) fn marked(&self, header: &[u8; RECORDS as usize]) -> Option<SaveId> {
        let at = MARK as usize;
        let marked = id(header, at);
        (header[at..at + SAVE] == self.mark(marked)).then_some(marked)
    }
}
