//! The journal beside a file of slots: what was written since a save.

mod form;
mod scan;
mod sum;

pub(crate) use form::{Layout, Save};
pub(crate) use scan::{Scan, Target};
pub(crate) use sum::Sum;

use crate::disk::Bytes;
use crate::saves::SaveId;
use form::{Form, MARK};
use std::collections::BTreeMap;
use std::io;

/// The slots that were written since the save that the slots' file is of, and
/// the saves that were prepared since.
///
/// A slot that is written again has its record written over, so that there are
/// no more of them than slots, unless a prepared save needs the record as it is.
pub(crate) struct Journal<F> {
    file: F,
    form: Form,
    base: Save,
    records: u64,
    /// The first record that no prepared save needs.
    free: u64,
    /// The newest record of each slot, by the slot's offset.
    newest: BTreeMap<u64, u64>,
    prepared: Vec<Save>,
}

impl<F: Bytes> Journal<F> {
    /// An empty one in this file, with all its bytes on the disk.
    pub(crate) fn begin(file: F, layout: Layout, base: Save) -> io::Result<Journal<F>> {
        file.write(0, &form::header(layout, base))?;
        file.sync()?;
        Ok(Journal::empty(file, Form::new(layout, base), base))
    }

    fn empty(file: F, form: Form, base: Save) -> Journal<F> {
        Journal {
            file,
            form,
            base,
            records: 0,
            free: 0,
            newest: BTreeMap::new(),
            prepared: Vec::new(),
        }
    }

    /// The save that the slots' file is of.
    pub(crate) fn base(&self) -> SaveId {
        self.base.id
    }

    /// Whether the slots can go back to this save.
    pub(crate) fn has(&self, id: SaveId) -> bool {
        self.base.id == id || self.prepared.iter().any(|save| save.id == id)
    }

    /// The save prepared last, if no slot was written since.
    pub(crate) fn just_prepared(&self) -> Option<Save> {
        let last = self.prepared.last().copied();
        last.filter(|_| self.records == self.free)
    }

    /// The offsets of the slots that have records.
    pub(crate) fn slots(&self) -> impl Iterator<Item = u64> {
        self.newest.keys().copied()
    }

    /// Fills the buffer with the slot at this offset, if it was written since.
    pub(crate) fn get(&self, offset: u64, buffer: &mut [u8]) -> io::Result<bool> {
        let Some(record) = self.newest.get(&offset) else {
            return Ok(false);
        };
        self.file.read(self.form.slot_at(*record), buffer)?;
        Ok(true)
    }

    /// Keeps new bytes for the slot at this offset. Says whether they are the
    /// first since a save: then it is to be synced, lest a power cut hide that
    /// there were any.
    pub(crate) fn put(&mut self, offset: u64, bytes: &[u8]) -> io::Result<bool> {
        let newest = self.newest.get(&offset).copied();
        let own = newest.filter(|record| *record >= self.free);
        let record = own.unwrap_or(self.records);
        let made = self.form.slot(record, offset, bytes);
        self.file.write(self.form.at(record), &made)?;
        if own.is_some() {
            return Ok(false);
        }
        self.newest.insert(offset, record);
        self.records += 1;
        Ok(record == self.free)
    }

    /// Adds a prepared save. It counts once the journal is synced.
    pub(crate) fn prepare(&mut self, save: Save) -> io::Result<()> {
        let made = self.form.prepared(self.records, save);
        self.file.write(self.form.at(self.records), &made)?;
        self.prepared.push(save);
        self.records += 1;
        self.free = self.records;
        Ok(())
    }

    /// Says on the disk that the slots' file is no longer of its save, but on its
    /// way to this one.
    pub(crate) fn mark(&self, id: SaveId) -> io::Result<()> {
        self.file.write(MARK, &self.form.mark(id))?;
        self.file.sync()
    }

    pub(crate) fn sync(&self) -> io::Result<()> {
        self.file.sync()
    }
}
