//! Hosts whose slots go back to a save.

use crate::host::{Host, Recorded};
use std::fmt;
use std::fs::File;
use std::io::{self, Read};

/// Where the operating system hands out random bytes.
const RANDOM: &str = "/dev/urandom";

/// Which save it is: 16 bytes, drawn anew for each. The file of the saved client
/// has them and so has the host, which tells by them whether its slots belong to
/// that client.
///
/// They are public. They are drawn and never made of what is saved: a digest of
/// the client would tell the host whether two of them are equal.
#[derive(Clone, Copy, PartialEq, Eq, PartialOrd, Ord, Hash)]
pub struct SaveId([u8; 16]);

impl SaveId {
    /// The save of these bytes. Whoever saves draws them, or leaves it to
    /// [`random`](SaveId::random).
    #[must_use]
    pub const fn new(bytes: [u8; 16]) -> SaveId {
        SaveId(bytes)
    }

    /// A save of bytes that the operating system draws.
    ///
    /// # Errors
    ///
    /// That it has no random bytes.
    pub fn random() -> io::Result<SaveId> {
        let mut bytes = [0; 16];
        File::open(RANDOM)?.read_exact(&mut bytes)?;
        Ok(SaveId(bytes))
    }

    /// Its bytes.
    #[must_use]
    pub const fn bytes(&self) -> [u8; 16] {
        self.0
    }
}

/// 32 digits in base sixteen.
impl fmt::Display for SaveId {
    fn fmt(&self, f: &mut fmt::Formatter<'_>) -> fmt::Result {
        write!(f, "{:032x}", u128::from_be_bytes(self.0))
    }
}

impl fmt::Debug for SaveId {
    fn fmt(&self, f: &mut fmt::Formatter<'_>) -> fmt::Result {
        write!(f, "SaveId({self})")
    }
}

/// How the slots came to be as a save left them.
#[derive(Clone, Copy, Debug, PartialEq, Eq)]
#[must_use = "look-ups since the save may be lost"]
pub enum Resumed {
    /// No slot was written since the save. Nothing is lost but look-ups that were
    /// only begun.
    AsSaved,
    /// Slots were written since, and are again as the save left them: **every
    /// look-up since the save is lost**, the writes of blocks among them.
    RolledBack {
        /// How many slots had been written since, each counted once. After a
        /// power cut there may have been more, which never reached the disk.
        slots: usize,
    },
}

/// The plain sentence for whoever goes on from the save.
impl fmt::Display for Resumed {
    fn fmt(&self, f: &mut fmt::Formatter<'_>) -> fmt::Result {
        match self {
            Resumed::AsSaved => f.write_str("no slot was written since the save"),
            Resumed::RolledBack { slots } => write!(
                f,
                "{slots} slots were written since the save and are as it left them again: \
                 all look-ups since the save are lost"
            ),
        }
    }
}

/// Why slots do not go back to a save. It is inside the [`io::Error`] of
/// [`Saves::resume`]; nothing was changed.
#[derive(Clone, Debug, PartialEq, Eq)]
#[non_exhaustive]
pub enum NotResumed {
    /// No client was saved with these slots, or their journal is gone
    /// (`NotFound`).
    NeverSaved,
    /// The slots are of another save (`InvalidInput`): the saved client is older
    /// than it, or belongs to other slots. With it look-ups would bring old
    /// contents, or anything.
    OtherSave {
        /// The save that was asked for.
        asked: SaveId,
        /// The last save of these slots.
        last: SaveId,
    },
    /// The journal or the slots are not as the save left them (`InvalidData`).
    Damaged(String),
}

impl fmt::Display for NotResumed {
    fn fmt(&self, f: &mut fmt::Formatter<'_>) -> fmt::Result {
        match self {
            NotResumed::NeverSaved => f.write_str("no client was saved with these slots"),
            NotResumed::OtherSave { asked, last } => write!(
                f,
                "the saved client {asked} is older than the last save of these slots, {last}, \
                 or belongs to others"
            ),
            NotResumed::Damaged(what) => write!(f, "{what}: there is no way back to the save"),
        }
    }
}

impl std::error::Error for NotResumed {}

impl From<NotResumed> for io::Error {
    fn from(why: NotResumed) -> io::Error {
        let kind = match why {
            NotResumed::NeverSaved => io::ErrorKind::NotFound,
            NotResumed::OtherSave { .. } => io::ErrorKind::InvalidInput,
            NotResumed::Damaged(_) => io::ErrorKind::InvalidData,
        };
        io::Error::new(kind, why)
    }
}

/// A host whose slots go back to a save. [`Reader::save`](crate::Reader::save) and
/// [`Reader::load`](crate::Reader::load) do all of the following; it is for those
/// who write such a host, or save a [`Store`](crate::Store) themselves.
///
/// A saved client is good only with the slots as they were at its save: with
/// later ones it would hand out old contents and not know it. Such a host
/// therefore keeps the slots of the last save besides those that were written
/// since. After a crash, or when a program ends without another save, the slots
/// and the saved client go on from there together, and the host
/// [says](Resumed) what is lost.
///
/// # A save
///
/// Whoever saves draws a [`SaveId`], and then, with no command outstanding and
/// none submitted in between:
///
/// 1. [`prepare`](Saves::prepare): the host makes sure that it can go back to
///    the slots as they are now.
/// 2. The client is written to a new file together with the id; that is synced,
///    renamed to its name, and the folder synced.
/// 3. [`commit`](Saves::commit): the host forgets the save before.
///
/// Wherever that ends, the client file that is found can be resumed: until the
/// commit begins the host goes back to the last save and to every save prepared
/// since, from there on to the new one alone. If the second step fails, the client
/// goes on, and may be saved again with another id.
///
/// # A load
///
/// Whoever loads reads the client's file and the id in it, syncs its folder,
/// and only then asks the host to [`resume`](Saves::resume) that save: the name of
/// the file may be newer than the disk's, and the host may forget the save of
/// the file that a power cut would bring back. If it refuses, the client is not
/// used.
///
/// # What is hidden
///
/// What is proved of hiding goes through a save and the load of its form if no
/// call comes between the two. After a [roll-back](Resumed::RolledBack) it is
/// different: the client has forgotten look-ups that the host has seen, and may
/// read a slot again that it read before. **The host can then link look-ups made
/// before the crash with look-ups made after it**, such as two of one block. To
/// save often keeps those few.
///
/// What a host keeps for a way back are the bytes of slots as they were
/// submitted: sealed, if a host above [seals](Host#sealing) them. Such a host
/// hands all three calls on to the one below. It seals with fresh randomness and
/// not by a counter, which a roll-back would set back.
pub trait Saves: Host {
    /// Begins a save: from now on the host can also go back to the slots as they
    /// are.
    ///
    /// # Errors
    ///
    /// `InvalidInput` while a command is outstanding and for an id that it has
    /// already; those of the file system. After an error of a sync it takes no
    /// more commands until it is [resumed](Saves::resume).
    fn prepare(&mut self, id: SaveId) -> io::Result<()>;

    /// Ends the save that was prepared last, now that the client's file is on the
    /// disk: from now on the host goes back to this save, and to none before it.
    ///
    /// # Errors
    ///
    /// `InvalidInput` for another save than the one prepared last, and if slots
    /// were written since; those of the file system, after which it takes no more
    /// commands until it is [resumed](Saves::resume) from this save, which is good.
    fn commit(&mut self, id: SaveId) -> io::Result<()>;

    /// Goes back to a save; commands that were outstanding are forgotten. A
    /// client is loaded only after it.
    ///
    /// If that fails halfway, also by a crash, it can be asked again.
    ///
    /// # Errors
    ///
    /// [`NotResumed`] in an [`io::Error`] if this is no save that it goes back
    /// to: then nothing was changed. Those of the file system.
    fn resume(&mut self, id: SaveId) -> io::Result<Resumed>;
}

impl<H: Saves + ?Sized> Saves for &mut H {
    fn prepare(&mut self, id: SaveId) -> io::Result<()> {
        (**self).prepare(id)
    }

    fn commit(&mut self, id: SaveId) -> io::Result<()> {
        (**self).commit(id)
    }

    fn resume(&mut self, id: SaveId) -> io::Result<Resumed> {
        (**self).resume(id)
    }
}

impl<H: Saves + ?Sized> Saves for Box<H> {
    fn prepare(&mut self, id: SaveId) -> io::Result<()> {
        (**self).prepare(id)
    }

    fn commit(&mut self, id: SaveId) -> io::Result<()> {
        (**self).commit(id)
    }

    fn resume(&mut self, id: SaveId) -> io::Result<Resumed> {
        (**self).resume(id)
    }
}

/// The commands noted stay: the host has seen them.
impl<H: Saves> Saves for Recorded<H> {
    fn prepare(&mut self, id: SaveId) -> io::Result<()> {
        self.host_mut().prepare(id)
    }

    fn commit(&mut self, id: SaveId) -> io::Result<()> {
        self.host_mut().commit(id)
    }

    fn resume(&mut self, id: SaveId) -> io::Result<Resumed> {
        self.host_mut().resume(id)
    }
}
