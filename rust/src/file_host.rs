//! A host in one file.

use crate::command::{Command, Kind};
use crate::disk::{Disk, System};
use crate::host::{Host, none_outstanding, still_outstanding, wrong};
use crate::journal::Layout;
use crate::kept::{self, Kept};
use crate::saves::{Resumed, SaveId, Saves};
use crate::slots::Slots;
use std::collections::VecDeque;
use std::fmt;
use std::fs::{File, OpenOptions, TryLockError};
use std::io::{self, Read};
use std::path::{Path, PathBuf};

/// A host that keeps the slots in one file, each at a fixed offset: partitions
/// ascending, then levels, then slots, B bytes each or as many as [`Slots`]
/// says.
///
/// It completes commands in the order in which they were submitted. The bytes
/// are written as they come: whoever reads the file sees them, unless a host
/// above seals them ([`Host`]). What the file holds is nothing without the
/// store that wrote it, and the store's memory is not in the file.
///
/// # Saves
///
/// It can go back to a [save](Saves). Until the first one there is nothing but
/// the file. From then on **the file stays as it was at the last save**, and
/// slots that are written go to a journal beside it, a file of the same name
/// and `.journal`, which may become as long as the file and a little longer. The
/// next save takes them over into the file; whoever comes back after a crash
/// drops them. Whoever copies a saved store copies both files and the client's.
/// [`Reader::save`](crate::Reader::save) and [`Reader::load`](crate::Reader::load)
/// make the calls below.
///
/// Going back asks for the sum of all slots at the save, which the journal has:
/// a file that something else wrote to is refused, not read as if it were the
/// store's. That is for accidents, and no seal.
///
/// ```
/// use rinwolfedd::{FileHost, Resumed, SaveId, Saves, Shape};
///
/// # let folder = std::env::temp_dir().join(format!("rinwolfedd-doc-{}", std::process::id()));
/// # std::fs::create_dir(&folder)?;
/// # let path = folder.join("store");
/// let shape = Shape::hiding(64, 8)?;
/// let mut host = FileHost::create(&path, shape)?;
/// // .. look-ups, and then a save:
/// let id = SaveId::random()?;
/// host.prepare(id)?;
/// // .. here the client and the id are written to a file of their own
/// host.commit(id)?;
/// drop(host);
///
/// let mut host = FileHost::open(&path, shape)?;
/// assert_eq!(host.resume(id)?, Resumed::AsSaved);
/// # std::fs::remove_dir_all(folder)?;
/// # Ok::<(), Box<dyn std::error::Error>>(())
/// ```
///
/// A host that was made of a name locks the file until it is dropped, where the
/// file system has locks, so that two programs do not use it at once.
pub struct FileHost {
    kept: Kept<System>,
    slots: Slots,
    outstanding: VecDeque<Command>,
}

/// Not which slots were written since a save, which are many.
impl fmt::Debug for FileHost {
    fn fmt(&self, f: &mut fmt::Formatter<'_>) -> fmt::Result {
        f.debug_struct("FileHost")
            .field("slots", &self.slots)
            .field("outstanding", &self.outstanding)
            .finish_non_exhaustive()
    }
}

impl FileHost {
    /// Creates the file and fills it with zeros, so that a disk without room
    /// shows here and not midway in a look-up. If that fails, the file is
    /// removed again.
    ///
    /// # Errors
    ///
    /// `AlreadyExists` for a file that exists, which is never overwritten, and
    /// for a journal beside it, of a file that is gone; `InvalidInput` for a
    /// shape out of bounds; and those of the file system.
    pub fn create(path: impl AsRef<Path>, slots: impl Into<Slots>) -> io::Result<FileHost> {
        let (path, slots) = (path.as_ref(), slots.into());
        let length = length(slots)?;
        let mut options = OpenOptions::new();
        let mut file = options.read(true).write(true).create_new(true).open(path)?;
        // some file systems say only at the sync that they have no room
        let filled = lock(&file)
            .and_then(|()| no_journal(path))
            .and_then(|()| io::copy(&mut io::repeat(0).take(length), &mut file))
            .and_then(|_| file.sync_all());
        if let Err(error) = filled {
            let _ = std::fs::remove_file(path); // the first error says more
            return Err(error);
        }
        FileHost::unsaved(file, slots, place(path))
    }

    /// **Destroys what the file holds**, and every save of it: a new store begins
    /// in a file that exists. It has to be long enough, and must not be open
    /// elsewhere. The journal beside it is removed; the file of the client that was
    /// saved with it is of no use any more.
    ///
    /// # Errors
    ///
    /// `UnexpectedEof` for a file that is too short, `InvalidInput` for a shape
    /// out of bounds, `ResourceBusy` for a file that is locked, and those of the
    /// file system.
    pub fn reuse(path: impl AsRef<Path>, slots: impl Into<Slots>) -> io::Result<FileHost> {
        let file = System.open(path.as_ref())?;
        lock(&file)?;
        let place = place(path.as_ref());
        let host = FileHost::unsaved(file, slots.into(), place.clone())?;
        if let Some(place) = place
            && System.exists(&place)?
        {
            // before a slot is written: it would go back to slots that are no more
            System.remove(&place)?;
            System.sync_folder(&place)?;
        }
        Ok(host)
    }

    /// Opens the file of a store whose client was saved. The slots that it has
    /// are of no use but to that client: until it is [resumed](Saves::resume) it
    /// takes no command. Nothing is changed before that.
    ///
    /// # Errors
    ///
    /// `NotFound` if there is no such file or no journal beside it
    /// ([`NotResumed::NeverSaved`](crate::NotResumed)), `InvalidInput` if these
    /// are not the slots of the journal or the shape is out of bounds,
    /// `InvalidData` for a damaged journal, `UnexpectedEof` for a file that is
    /// too short, `ResourceBusy` for one that is locked, and those of the file
    /// system.
    pub fn open(path: impl AsRef<Path>, slots: impl Into<Slots>) -> io::Result<FileHost> {
        let (path, slots) = (path.as_ref(), slots.into());
        let file = System.open(path)?;
        lock(&file)?;
        let layout = layout(&file, slots)?;
        let place = kept::beside(&path.canonicalize()?);
        Ok(FileHost {
            kept: Kept::saved(System, file, layout, place)?,
            slots,
            outstanding: VecDeque::new(),
        })
    }

    /// **Destroys what the file holds**, as [`reuse`](FileHost::reuse) does. The
    /// file is open for reading and writing, not in append mode (each write
    /// would go to its end) nor elsewhere, and long enough.
    ///
    /// Its name is not known: it makes no saves (`Unsupported`), is not locked,
    /// and a journal stays. Whoever resumes a save with that is told that the
    /// slots are not as it left them.
    ///
    /// # Errors
    ///
    /// `UnexpectedEof` for a file that is too short, `InvalidInput` for a shape
    /// out of bounds, and those of the file system.
    pub fn from_file(file: File, slots: impl Into<Slots>) -> io::Result<FileHost> {
        FileHost::unsaved(file, slots.into(), None)
    }

    fn unsaved(file: File, slots: Slots, place: Option<PathBuf>) -> io::Result<FileHost> {
        let layout = layout(&file, slots)?;
        Ok(FileHost {
            kept: Kept::unsaved(System, file, layout, place),
            slots,
            outstanding: VecDeque::new(),
        })
    }

    /// Waits until the file system has all that was written.
    ///
    /// # Errors
    ///
    /// Those of the file system.
    pub fn sync(&self) -> io::Result<()> {
        self.kept.sync()
    }
}

/// The bytes of all slots.
fn length(slots: Slots) -> io::Result<u64> {
    let out = || wrong(format!("the shape is out of bounds: {}", slots.shape()));
    Ok(slots.length().ok_or_else(out)? as u64)
}

/// The slots, if the file is long enough for them.
fn layout(file: &File, slots: Slots) -> io::Result<Layout> {
    let (has, wants) = (file.metadata()?.len(), length(slots)?);
    if has < wants {
        let short = format!("the file has {has} bytes, the slots take {wants}");
        return Err(io::Error::new(io::ErrorKind::UnexpectedEof, short));
    }
    Ok(Layout {
        partitions: slots.shape().partitions(),
        levels: slots.shape().levels(),
        bytes: slots.bytes(),
        length: wants,
    })
}

/// Where the journal of this file goes: beside the file itself, by whatever name
/// it was asked for. None for a file that is in no folder.
fn place(path: &Path) -> Option<PathBuf> {
    Some(kept::beside(&path.canonicalize().ok()?))
}

fn no_journal(path: &Path) -> io::Result<()> {
    let place = kept::beside(&path.canonicalize()?);
    if !System.exists(&place)? {
        return Ok(());
    }
    let text = format!("{} is the journal of a saved store", place.display());
    Err(io::Error::new(io::ErrorKind::AlreadyExists, text))
}

/// Locks the file until it is closed. Where there are no locks, nobody is kept
/// away.
fn lock(file: &File) -> io::Result<()> {
    match file.try_lock() {
        Err(TryLockError::WouldBlock) => {
            let text = "the file is in use by another host";
            Err(io::Error::new(io::ErrorKind::ResourceBusy, text))
        }
        Err(TryLockError::Error(error)) if error.kind() != io::ErrorKind::Unsupported => Err(error),
        Ok(()) | Err(TryLockError::Error(_)) => Ok(()),
    }
}

impl Host for FileHost {
    fn fits(&self, slots: Slots) -> io::Result<()> {
        self.slots.hold(slots)
    }

    fn submit(&mut self, command: Command, bytes: &[u8]) -> io::Result<()> {
        let offset = self.slots.submitted(command, bytes.len())?;
        self.kept.ready()?;
        if command.kind == Kind::Write {
            self.kept.write(offset as u64, bytes)?;
        }
        self.outstanding.push_back(command);
        Ok(())
    }

    fn next_completed(&mut self, buffer: &mut [u8]) -> io::Result<Command> {
        let command = *self.outstanding.front().ok_or_else(none_outstanding)?;
        if command.kind == Kind::Read {
            let offset = self.slots.read(command, buffer.len())?;
            self.kept.read(offset as u64, buffer)?;
        }
        self.outstanding.pop_front();
        Ok(command)
    }
}

impl Saves for FileHost {
    fn prepare(&mut self, id: SaveId) -> io::Result<()> {
        if !self.outstanding.is_empty() {
            return Err(still_outstanding());
        }
        self.kept.prepare(id)
    }

    fn commit(&mut self, id: SaveId) -> io::Result<()> {
        self.kept.commit(id)
    }

    fn resume(&mut self, id: SaveId) -> io::Result<Resumed> {
        let resumed = self.kept.resume(id)?;
        self.outstanding.clear();
        Ok(resumed)
    }
}
