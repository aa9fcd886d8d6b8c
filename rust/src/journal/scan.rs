//! What a journal on the disk says.

use super::Journal;
use super::form::{self, Entry, Form, Layout, RECORDS, Save};
use crate::disk::{Bytes, Disk};
use crate::host::wrong;
use crate::saves::{NotResumed, Resumed, SaveId};
use std::collections::BTreeSet;
use std::io;
use std::path::Path;

/// A journal as it was found.
pub(crate) struct Scan<F> {
    file: F,
    form: Form,
    base: Save,
    /// The save that was being committed.
    committing: Option<SaveId>,
    /// Its records; none where the bytes are no record.
    entries: Vec<Option<Entry>>,
    /// Whether it ends within a record.
    torn: bool,
}

/// Where a save is.
pub(crate) enum Target {
    /// The slots' file is of it.
    Base(Save),
    /// So many records lead to it.
    Prepared(usize, Save),
}

fn damaged(what: impl Into<String>) -> NotResumed {
    NotResumed::Damaged(what.into())
}

impl<F: Bytes> Scan<F> {
    /// Reads the journal of this name, which is to be of these slots.
    pub(crate) fn read<D>(disk: &D, path: &Path, layout: Layout) -> io::Result<Scan<F>>
    where
        D: Disk<File = F>,
    {
        let mut scan = Scan::head(disk, path, layout)?;
        let (all, each) = (scan.file.length()? - RECORDS, scan.form.length() as u64);
        let mut bytes = vec![0; scan.form.length()];
        for record in 0..all / each {
            scan.file.read(scan.form.at(record), &mut bytes)?;
            scan.entries.push(scan.form.entry(record, &bytes));
        }
        scan.torn = all % each != 0;
        Ok(scan)
    }

    /// Reads its header alone.
    pub(crate) fn head<D>(disk: &D, path: &Path, layout: Layout) -> io::Result<Scan<F>>
    where
        D: Disk<File = F>,
    {
        if !disk.exists(path)? {
            return Err(NotResumed::NeverSaved.into());
        }
        let file = disk.open(path)?;
        let mut header = [0; RECORDS as usize];
        if file.length()? < RECORDS {
            return Err(damaged("the journal has no header").into());
        }
        file.read(0, &mut header)?;
        let said = form::read_header(&header);
        let (slots, base) = said.ok_or_else(|| damaged("the journal's header is damaged"))?;
        if slots != [layout.partitions, layout.levels, layout.bytes].map(|n| n as u64) {
            let [p, l, b] = slots;
            let text = format!("the journal is of {p} partitions of {l} levels, {b} bytes a slot");
            return Err(wrong(text));
        }
        let form = Form::new(layout, base);
        Ok(Scan {
            committing: form.marked(&header),
            file,
            form,
            base,
            entries: Vec::new(),
            torn: false,
        })
    }

    /// Where this save is, if the slots can go back to it.
    pub(crate) fn find(&self, asked: SaveId) -> Result<Target, NotResumed> {
        match self.committing {
            None if asked == self.base.id => return Ok(Target::Base(self.base)),
            Some(last) if asked != last => return Err(NotResumed::OtherSave { asked, last }),
            _ => {}
        }
        let found = self
            .entries
            .iter()
            .position(|entry| matches!(entry, Some(Entry::Prepared(save)) if save.id == asked));
        let Some(record) = found else {
            return Err(match self.committing {
                Some(_) => damaged("the journal lacks the save that was being committed"),
                None => NotResumed::OtherSave {
                    asked,
                    last: self.base.id,
                },
            });
        };
        // all before it was synced with it: what is no record there is damage
        if let Some(bad) = self.entries[..record].iter().position(Option::is_none) {
            return Err(damaged(format!("record {bad} of the journal is damaged")));
        }
        match self.entries[record] {
            Some(Entry::Prepared(save)) => Ok(Target::Prepared(record, save)),
            _ => Err(damaged("the journal lacks the save")),
        }
    }

    /// What is lost if the records from this one on are. What is no record may
    /// have become one of a slot.
    pub(crate) fn since(&self, record: usize) -> Resumed {
        let entries = &self.entries[record..];
        let slots: BTreeSet<u64> = entries
            .iter()
            .filter_map(|entry| match entry {
                Some(Entry::Slot(offset)) => Some(*offset),
                _ => None,
            })
            .collect();
        match slots.len() {
            0 if !self.torn && !entries.contains(&None) => Resumed::AsSaved,
            slots => Resumed::RolledBack { slots },
        }
    }

    /// The journal with so many of its records, all of which are good.
    pub(crate) fn journal(self, records: usize) -> Journal<F> {
        let mut journal = Journal::empty(self.file, self.form, self.base);
        for (record, entry) in self.entries[..records].iter().enumerate() {
            if let Some(Entry::Slot(offset)) = entry {
                journal.newest.insert(*offset, record as u64);
            }
        }
        journal.records = records as u64;
        journal.free = journal.records;
        journal
    }
}
