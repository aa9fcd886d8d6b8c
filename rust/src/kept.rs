//! Slots in a file and, since the first save, in a journal beside it.
//!
//! Until a first save is prepared, slots are written to their file. From then on
//! the file stays as it was at the last save, and slots go to the journal; a save
//! takes them over into the file. So between saves nothing has to be synced, the
//! slots of the last save are untouched, and the way back is to drop the journal.
//! Were the old bytes kept in it instead and the new ones written to the file,
//! each first write of a slot would wait for a sync.
//!
//! What is on the disk when, and why each crash leaves a way back:
//!
//! | step | on the disk after it | a crash before its end leaves |
//! |---|---|---|
//! | a slot is written | nothing for certain, but for the first since a save | the slots' file as it was, and records that nobody needs |
//! | prepare | the records of all slots, the prepared save | the same: no client's file has the new save yet |
//! | the client's file | the client | either client's file: both saves are in the journal |
//! | commit: mark | the new save is the one to go back to | as before; or with the mark, the new save alone |
//! | commit: slots | the slots' file is of the new save | a file between two saves, which the journal completes |
//! | commit: new journal | an empty journal of the new save | the old journal, which completes the file once more, or the new |
//!
//! A mark that is torn counts as none, as no slot was written after it. Resuming
//! the file's own save is the last step alone, with the old save; resuming a
//! prepared one is a commit.

#[cfg(test)]
mod crashes;
#[cfg(test)]
mod damage;
#[cfg(test)]
mod errors;
#[cfg(test)]
mod simulated;

use crate::disk::{Bytes, Disk};
use crate::host::wrong;
use crate::journal::{Journal, Layout, Save, Scan, Sum, Target};
use crate::saves::{NotResumed, Resumed, SaveId};
use std::io;
use std::path::{Path, PathBuf};
use std::sync::atomic::{AtomicBool, Ordering::Relaxed};

/// The slots of one store on a disk.
pub(crate) struct Kept<D: Disk> {
    disk: D,
    file: D::File,
    layout: Layout,
    /// The journal's name, if the file has a name.
    place: Option<PathBuf>,
    stand: Stand<D::File>,
    /// Whether a sync failed. It may have lost what the next one says is there,
    /// so that only the saves before it are to be trusted.
    sync_failed: AtomicBool,
}

/// Where the slots are.
enum Stand<F> {
    /// In their file.
    Unsaved,
    /// In their file, or in the journal if they were written since.
    Saved(Journal<F>),
    /// They are to go back to a save first: the client that wrote them is no more,
    /// or a save came to no end.
    Waiting,
}

fn waiting() -> io::Error {
    wrong("the slots are to go back to a save before anything else".into())
}

/// The name of the journal beside a file of this name.
pub(crate) fn beside(path: &Path) -> PathBuf {
    with_ending(path, ".journal")
}

/// The name of a journal that is not complete yet.
fn incomplete(place: &Path) -> PathBuf {
    with_ending(place, ".new")
}

fn with_ending(path: &Path, ending: &str) -> PathBuf {
    let mut name = path.as_os_str().to_owned();
    name.push(ending);
    name.into()
}

impl<D: Disk> Kept<D> {
    /// Slots of which no save was made; the journal will be in this place.
    pub(crate) fn unsaved(
        disk: D,
        file: D::File,
        layout: Layout,
        place: Option<PathBuf>,
    ) -> Kept<D> {
        Kept {
            disk,
            file,
            layout,
            place,
            stand: Stand::Unsaved,
            sync_failed: AtomicBool::new(false),
        }
    }

    /// Slots that have a journal in this place. They are to be resumed first.
    pub(crate) fn saved(
        disk: D,
        file: D::File,
        layout: Layout,
        place: PathBuf,
    ) -> io::Result<Kept<D>> {
        Scan::head(&disk, &place, layout)?;
        Ok(Kept {
            disk,
            file,
            layout,
            place: Some(place),
            stand: Stand::Waiting,
            sync_failed: AtomicBool::new(false),
        })
    }

    /// Whether slots can be read and written.
    pub(crate) fn ready(&self) -> io::Result<()> {
        match self.stand {
            Stand::Unsaved | Stand::Saved(_) if !self.sync_failed.load(Relaxed) => Ok(()),
            _ => Err(waiting()),
        }
    }

    /// Fills the buffer with the slot at this offset.
    pub(crate) fn read(&self, offset: u64, buffer: &mut [u8]) -> io::Result<()> {
        match &self.stand {
            Stand::Unsaved => self.file.read(offset, buffer),
            Stand::Saved(journal) => self.read_with(journal, offset, buffer),
            Stand::Waiting => Err(waiting()),
        }
    }

    fn read_with(
        &self,
        journal: &Journal<D::File>,
        offset: u64,
        buffer: &mut [u8],
    ) -> io::Result<()> {
        if journal.get(offset, buffer)? {
            return Ok(());
        }
        self.file.read(offset, buffer)
    }

    /// Writes the slot at this offset.
    pub(crate) fn write(&mut self, offset: u64, bytes: &[u8]) -> io::Result<()> {
        self.ready()?;
        match &mut self.stand {
            Stand::Unsaved => self.file.write(offset, bytes),
            Stand::Saved(journal) => match journal.put(offset, bytes)? {
                true => self.sync(),
                false => Ok(()),
            },
            Stand::Waiting => Err(waiting()),
        }
    }

    /// Waits until the disk has what was written: to the journal once there is
    /// one, and else to the slots' file.
    pub(crate) fn sync(&self) -> io::Result<()> {
        let synced = match &self.stand {
            Stand::Saved(journal) => journal.sync(),
            Stand::Unsaved | Stand::Waiting => self.file.sync(),
        };
        self.sync_failed.fetch_or(synced.is_err(), Relaxed);
        synced
    }

    fn place(&self) -> io::Result<&Path> {
        let nameless = "the host was given a file without its name, and has no place for a journal";
        let none = || io::Error::new(io::ErrorKind::Unsupported, nameless);
        self.place.as_deref().ok_or_else(none)
    }

    /// The sum of all slots, as they are with this journal.
    fn sum(&self, journal: Option<&Journal<D::File>>) -> io::Result<u64> {
        let mut buffer = vec![0; self.layout.bytes];
        let mut sum = Sum::new(self.layout.length);
        for offset in (0..self.layout.length).step_by(self.layout.bytes.max(1)) {
            match journal {
                Some(journal) => self.read_with(journal, offset, &mut buffer)?,
                None => self.file.read(offset, &mut buffer)?,
            }
            sum = sum.add(&buffer);
        }
        Ok(sum.value())
    }

    /// Begins a save. The first one makes the journal: the slots' file is of it.
    pub(crate) fn prepare(&mut self, id: SaveId) -> io::Result<()> {
        self.ready()?;
        match &self.stand {
            Stand::Waiting => Err(waiting()),
            Stand::Saved(journal) if journal.has(id) => {
                Err(wrong(format!("there is a save {id} already")))
            }
            Stand::Saved(_) => self.prepare_another(id),
            Stand::Unsaved => self.prepare_first(id),
        }
    }

    fn prepare_first(&mut self, id: SaveId) -> io::Result<()> {
        let place = self.place()?;
        if self.disk.exists(place)? {
            let text = format!("{} is there already", place.display());
            return Err(io::Error::new(io::ErrorKind::AlreadyExists, text));
        }
        self.sync()?;
        let sum = self.sum(None)?;
        self.begin_anew(Save { id, sum })
    }

    fn prepare_another(&mut self, id: SaveId) -> io::Result<()> {
        let Stand::Saved(journal) = &self.stand else {
            return Err(waiting());
        };
        let sum = self.sum(Some(journal))?;
        if let Stand::Saved(journal) = &mut self.stand {
            journal.prepare(Save { id, sum })?;
        }
        self.sync()
    }

    /// Ends the save that was prepared last.
    pub(crate) fn commit(&mut self, id: SaveId) -> io::Result<()> {
        self.ready()?;
        let save = match &self.stand {
            Stand::Saved(journal) if journal.base() == id => return Ok(()),
            Stand::Saved(journal) => journal.just_prepared().filter(|save| save.id == id),
            Stand::Unsaved => None,
            Stand::Waiting => return Err(waiting()),
        };
        let not_prepared = || wrong(format!("{id} is not the save that was just prepared"));
        let save = save.ok_or_else(not_prepared)?;
        match std::mem::replace(&mut self.stand, Stand::Waiting) {
            Stand::Saved(journal) => self.take_over(journal, save),
            Stand::Unsaved | Stand::Waiting => Err(waiting()),
        }
    }

    /// Brings the slots' file to this save, which the journal leads to. From the
    /// mark on there is no way back to the save before.
    fn take_over(&mut self, journal: Journal<D::File>, save: Save) -> io::Result<()> {
        self.stand = Stand::Waiting; // unless it comes to its end
        journal.mark(save.id)?;
        let mut buffer = vec![0; self.layout.bytes];
        for offset in journal.slots() {
            journal.get(offset, &mut buffer)?;
            self.file.write(offset, &buffer)?;
        }
        self.file.sync()?;
        self.begin_anew(save)
    }

    /// An empty journal of the save that the slots' file is of takes the place of
    /// the one before. If it cannot be made, all is as it was.
    fn begin_anew(&mut self, base: Save) -> io::Result<()> {
        let place = self.place()?;
        let new = incomplete(place);
        let file = self.disk.create(&new)?;
        file.permit_as(&self.file)?; // it will have the same bytes
        let journal = Journal::begin(file, self.layout, base)?;
        let renamed = self.disk.rename(&new, place);
        let placed = renamed.and_then(|()| self.disk.sync_folder(place));
        self.stand = match placed {
            Ok(()) => Stand::Saved(journal),
            Err(_) => Stand::Waiting, // either journal may be there
        };
        placed
    }

    /// Goes back to a save.
    pub(crate) fn resume(&mut self, id: SaveId) -> io::Result<Resumed> {
        if self.place.is_none() {
            return Err(NotResumed::NeverSaved.into());
        }
        let scan = Scan::read(&self.disk, self.place()?, self.layout)?;
        let lost = match scan.find(id)? {
            Target::Base(save) => {
                self.check(None, save)?;
                // also if it is empty: a name may be there that was never synced
                self.begin_anew(save)?;
                scan.since(0)
            }
            Target::Prepared(records, save) => {
                let lost = scan.since(records + 1);
                let journal = scan.journal(records);
                self.check(Some(&journal), save)?;
                self.take_over(journal, save)?;
                lost
            }
        };
        self.sync_failed.store(false, Relaxed);
        Ok(lost)
    }

    /// Whether the slots are as this save left them.
    fn check(&self, journal: Option<&Journal<D::File>>, save: Save) -> io::Result<()> {
        if self.sum(journal)? == save.sum {
            return Ok(());
        }
        let text = format!("the slots are not as the save {} left them", save.id);
        Err(NotResumed::Damaged(text).into())
    }
}
