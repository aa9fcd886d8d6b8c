//! An oblivious block store whose every call is proved.
//!
//! A [`Reader`] looks blocks up at a [`Host`] that must not learn which: with a
//! place in the eviction cache for every block (E = N), the slots that the host
//! sees read and written, their order and their number do not tell which block
//! was asked for, nor whether it was read or written. That is said of the
//! commands: the bytes are not sealed here, and time is not hidden. Whoever
//! needs the bytes sealed does it in the host, at every write and each time
//! anew; to seal contents before they are written is not enough
//! ([`Host`](Host#sealing) says why).
//!
//! ```
//! use rinwolfedd::{Error, MemoryHost, Reader, Recorded, Shape};
//!
//! let shape = Shape::hiding(64, 8)?; // 64 blocks of 8 bytes
//! let host = MemoryHost::new(shape, 1)?;
//! let mut reader = Reader::open(shape, Recorded::new(host))?;
//!
//! reader.write(42, b"genotype")?;
//! assert_eq!(reader.read(42)?.contents, b"genotype");
//! assert_eq!(reader.read(7)?.contents, [0; 8]); // never written
//!
//! for command in reader.host().commands() {
//!     println!("{command}"); // each command that the host saw, such as "w 3 0 1"
//! }
//! # Ok::<(), Error>(())
//! ```
//!
//! Slots are kept in a file ([`FileHost`]), in memory ([`MemoryHost`]), or by
//! whatever implements [`Host`]; [`Recorded`] notes the commands that a host
//! sees. Both hosts also go back to the slots of a saved client ([`Saves`]).
//!
//! Below the reader are the five calls, and saving and loading: [`Store`] owns what
//! they need, [`calls`] has them as the proved library exports them, over lent
//! bytes and with the document's numbers, which [`Refusal`] names.
//!
//! How a store stands is told by its page, a text to be pinned up
//! ([`Reader::page`], [`Store::page`]), and by the same figures as numbers
//! ([`Summary`]). They are for the owner: nothing is sent for them, and they
//! tell what the host must not learn, such as how many blocks wait and where.
//!
//! # Where blocks were found
//!
//! A look-up also tells where its block was [found](Found): nowhere, in the
//! cache or in a level. The reader's [tally](Reader::tally) has how many look-ups
//! were served from where. Both are for the owner, too: nothing is sent for them,
//! and they tell what the commands hide, such as whether a block was asked for
//! not long ago.
//!
//! ```
//! use rinwolfedd::{Error, Found, MemoryHost, Reader, Shape};
//!
//! let shape = Shape::hiding(64, 8)?;
//! let mut reader = Reader::open(shape, MemoryHost::new(shape, 1)?)?;
//! assert_eq!(reader.write(42, b"genotype")?.found, Found::Nowhere);
//! for _ in 0..9 {
//!     let looked_up = reader.read(42)?;
//!     assert_eq!(looked_up.contents, b"genotype");
//!     println!("found {}", looked_up.found); // "found in the cache", "found in level 0"
//! }
//!
//! let tally = reader.tally();
//! println!("{} of {} from the cache", tally.cache(), tally.total());
//! assert_eq!((tally.total(), tally.nowhere()), (10, 1));
//! # Ok::<(), Error>(())
//! ```
//!
//! # Jobs that are left for later
//!
//! A look-up queues two jobs, which rebuild parts of the store and are most of
//! what it sends. A reader runs them before it returns, or leaves some for later
//! ([`Reader::leave_jobs`]): then it returns as soon as it has the contents, and
//! jobs are run while nobody waits ([`Reader::settle`], [`Reader::advance`]). For
//! how many commands look-ups waited is told by [`Reader::waits`].
//!
//! ```
//! use rinwolfedd::{Error, MemoryHost, Reader, Shape};
//!
//! let shape = Shape::hiding(64, 8)?;
//! let mut reader = Reader::open(shape, MemoryHost::new(shape, 1)?)?;
//! reader.write_all([[7; 8]; 64])?;
//! let whole = reader.take_waits().returned();
//!
//! reader.leave_jobs(6);
//! for fish in [3, 17, 42] {
//!     assert_eq!(reader.read(fish)?.contents, [7; 8]);
//! }
//! println!("{whole}"); // such as "16.9 commands on average, 65 at most"
//! println!("{}", reader.waits().returned()); // such as "3.0 commands on average, 4 at most"
//! reader.settle()?; // now nobody waits
//! # Ok::<(), Error>(())
//! ```
//!
//! Jobs of one partition that are queued together run together, and send fewer
//! commands than one after the other. Where storage is billed by the command, they
//! are let gather ([`Reader::gather_jobs`]); [`Reader::commands`] tells how many
//! were sent in all:
//!
//! ```
//! # use rinwolfedd::{Error, MemoryHost, Reader, Shape};
//! # let shape = Shape::hiding(64, 8)?;
//! # let mut reader = Reader::open(shape, MemoryHost::new(shape, 1)?)?;
//! reader.gather_jobs(16); // those of eight look-ups
//! for fish in (0..64).cycle().take(640) {
//!     reader.read(fish)?;
//! }
//! reader.settle()?;
//! println!("{:.1} commands for each", reader.commands() as f64 / 640.0);
//! # Ok::<(), Error>(())
//! ```
//!
//! # Saving
//!
//! The machine is shut down between seasons. [`Reader::save`] writes the client, of
//! which the host knows nothing, to a file, and [`Reader::load`] goes on from there
//! with the host's slots as they were at that save:
//!
//! ```
//! use rinwolfedd::{FileHost, Reader, Resumed, Shape};
//!
//! # let folder = std::env::temp_dir().join(format!("rinwolfedd-crate-{}", std::process::id()));
//! # std::fs::create_dir(&folder)?;
//! # let [slots, client] = ["slots", "client"].map(|name| folder.join(name));
//! let shape = Shape::hiding(64, 8)?;
//! let mut reader = Reader::open(shape, FileHost::create(&slots, shape)?)?;
//! reader.write(42, b"genotype")?;
//! reader.save(&client)?;
//! drop(reader); // the season is over
//!
//! let (mut reader, resumed) = Reader::load(&client, FileHost::open(&slots, shape)?)?;
//! assert_eq!(resumed, Resumed::AsSaved); // else it says what is lost
//! assert_eq!(reader.read(42)?.contents, b"genotype");
//! # std::fs::remove_dir_all(folder)?;
//! # Ok::<(), Box<dyn std::error::Error>>(())
//! ```
//!
//! A saved client is good only with the slots of its save. After a crash both go
//! back to the last save together, and [`Resumed`] says that look-ups since are
//! lost; a client of an older save or of another store is refused
//! ([`Error::not_resumed`]). Wherever a crash comes, also within a save or on the
//! way back, one whole save is left.
//!
//! **The client's file is for the owner of the store, not for its host**: it has
//! where each block is, and the contents of those that wait in the cache, which
//! nobody seals.
//!
//! What is proved of contents and hiding goes through a save and the load of its
//! form if no call comes between the two, as at the end of a season. After a
//! roll-back contents are those of the save, but the host may learn more: it has
//! seen look-ups that the client no longer knows of, and slots may be read a second
//! time ([`Reader::load`] says what that tells).
//!
//! # Linking
//!
//! The calls are in the library `librinwolfedd.a`, which `scripts/library`
//! writes to the repository's `target/staticlib`. It is linked from there, or
//! from the folder that the environment variable `RINWOLFEDD_LIB_DIR` names
//! when this crate is built. The folder should be an absolute path: a relative
//! one is taken from this crate's folder, wherever cargo is run.
//!
//! The library is for Linux on x86-64, and a build for anything else is an
//! error. Where nothing is linked, as under clippy and rustdoc,
//! `RINWOLFEDD_UNLINKED=1` lets both pass: a missing library, and another
//! target. A build script of a package that depends on this one finds the C
//! header in the folder `DEP_RINWOLFEDD_INCLUDE`.

#![deny(missing_docs)]
#![warn(clippy::missing_errors_doc, clippy::must_use_candidate)]

mod answer;
pub mod calls;
mod client_file;
mod command;
mod disk;
mod error;
mod file_host;
mod found;
mod host;
mod journal;
mod kept;
mod looked_up;
mod memory_host;
mod progress;
mod reader;
mod refusal;
mod saves;
mod shape;
mod slots;
mod store;
mod summary;
mod tally;
mod tape;
mod waits;

pub use command::{Command, Kind};
pub use error::Error;
pub use file_host::FileHost;
pub use found::Found;
pub use host::{Host, Recorded};
pub use looked_up::LookedUp;
pub use memory_host::MemoryHost;
pub use progress::Progress;
pub use reader::Reader;
pub use refusal::{Refusal, UnknownNumber};
pub use saves::{NotResumed, Resumed, SaveId, Saves};
pub use shape::Shape;
pub use slots::Slots;
pub use store::{Request, Store};
pub use summary::{Figures, Summary};
pub use tally::Tally;
pub use tape::Tape;
pub use waits::{Wait, Waits};
