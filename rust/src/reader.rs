//! Whole look-ups: a store, its host and its tape.

mod left;
mod many;
mod saved;
mod turns;

use crate::error::Error;
use crate::found::Found;
use crate::host::Host;
use crate::looked_up::LookedUp;
use crate::refusal::Refusal;
use crate::saves::SaveId;
use crate::shape::Shape;
use crate::store::{Request, Store};
use crate::summary::Summary;
use crate::tally::Tally;
use crate::tape::Supply;
use crate::waits::Waits;
use std::fmt;
use std::fs::File;
use std::io::Read;

/// Where the operating system hands out random bytes.
const RANDOM: &str = "/dev/urandom";

/// Reads and writes blocks by whole look-ups. Each is a request, its reads,
/// the collect, and both its jobs to the end, with up to W commands
/// outstanding; so the next look-up finds nothing in its way. A reader that is
/// told to [leave jobs](Reader::leave_jobs) returns as soon as it has the
/// contents, and the next look-up is asked while jobs of earlier ones are still
/// to be done. One that lets them [gather](Reader::gather_jobs) runs those of one
/// partition together, which costs fewer commands.
///
/// With E = N the commands do not tell which block was looked up, nor whether
/// it was read or written; the bytes beside them do, unless the host
/// [seals](Host#sealing) them. With a smaller cache a look-up may be refused with
/// [`Refusal::CacheFull`], and that does depend on the blocks. To ask again is
/// of no use: the same block is refused until another one, which waits in the
/// cache, has been looked up, and its jobs have made room. Jobs that are left are
/// done first.
///
/// Words come from `/dev/urandom`, or from any other source with
/// [`with_words`](Reader::with_words). All that a look-up takes, with every job
/// that it may have to run, are there before it begins, with some to spare for
/// those that are [passed over](crate::Tape), so that of random words there are
/// enough and only the host can fail midway. Then all later look-ups answer
/// [`Error::Unfinished`]. No word is lent to a call that was taken before.
///
/// Each look-up also tells the owner of the store where its block was
/// [found](Found), and a [tally](Reader::tally) has how often it was where.
///
/// At a host that [`Saves`](crate::Saves), a reader outlives its program:
/// [`save`](Reader::save) and [`load`](Reader::load).
pub struct Reader<H, R = File> {
    store: Store,
    host: H,
    words: Supply<R>,
    /// What a completed read brought.
    arrived: Vec<u8>,
    outstanding: usize,
    /// All commands so far.
    sent: u64,
    /// Whether a look-up, or a run of jobs that were left, has begun and not come
    /// to its end.
    unfinished: bool,
    /// With more jobs than `most_left` a look-up runs some, until at most
    /// `runs_to` are left.
    most_left: usize,
    runs_to: usize,
    /// The store's first save, by which its files are told from others.
    first_save: Option<SaveId>,
    tally: Tally,
    waits: Waits,
}

/// The store's shape and the host.
impl<H: fmt::Debug, R> fmt::Debug for Reader<H, R> {
    fn fmt(&self, f: &mut fmt::Formatter<'_>) -> fmt::Result {
        let mut fields = f.debug_struct("Reader");
        fields.field("store", &self.store).field("host", &self.host);
        fields.finish_non_exhaustive()
    }
}

impl<H: Host> Reader<H> {
    /// Opens a store at the host, with the operating system's randomness. All
    /// blocks are zeros, whatever the host's slots hold.
    ///
    /// # Errors
    ///
    /// [`Error::Refused`] for a shape out of bounds, [`Error::Host`] for a host
    /// that it does not [fit](Host::fits), [`Error::Words`] if the system has no
    /// random words.
    pub fn open(shape: Shape, host: H) -> Result<Reader<H>, Error> {
        let random = File::open(RANDOM).map_err(Error::Words)?;
        Reader::with_words(shape, host, random)
    }
}

impl<H: Host, R: Read> Reader<H, R> {
    /// Opens a store whose words are the bytes of this source, low byte first.
    /// For a store that is to hide anything, nobody else may know them, and no
    /// other store may have them.
    ///
    /// # Errors
    ///
    /// [`Error::Refused`] for a shape out of bounds, [`Error::Host`] for a host
    /// that it does not [fit](Host::fits), [`Error::Words`] for a source that
    /// fails or has fewer than N words.
    pub fn with_words(shape: Shape, host: H, words: R) -> Result<Reader<H, R>, Error> {
        if !shape.is_within_bounds() {
            return Err(Refusal::ShapeOutOfBounds.into());
        }
        host.fits(shape.into()).map_err(Error::Host)?;
        let mut words = Supply::new(words);
        words.ready(shape.blocks()).map_err(Error::Words)?;
        let mut tape = words.tape();
        let store = Store::open(shape, &mut tape)?;
        let taken = tape.taken();
        words.take(taken);
        Ok(Reader::of(store, host, words))
    }

    /// One for a store of which no command is outstanding.
    fn of(store: Store, host: H, words: Supply<R>) -> Reader<H, R> {
        let shape = store.shape();
        Reader {
            store,
            host,
            words,
            arrived: vec![0; shape.bytes()],
            outstanding: 0,
            sent: 0,
            unfinished: false,
            most_left: 0,
            runs_to: 0,
            first_save: None,
            tally: Tally::new(shape.levels()),
            waits: Waits::default(),
        }
    }

    /// The shape of the store.
    #[must_use]
    pub fn shape(&self) -> Shape {
        self.store.shape()
    }

    /// The host.
    #[must_use]
    pub fn host(&self) -> &H {
        &self.host
    }

    /// The host, to be changed. A slot that is written behind the store's back
    /// brings other contents than those that were stored.
    #[must_use]
    pub fn host_mut(&mut self) -> &mut H {
        &mut self.host
    }

    /// Gives the host back; the store is lost. While jobs are left, commands may
    /// be outstanding at the host: [`settle`](Reader::settle) waits for all.
    #[must_use]
    pub fn into_host(self) -> H {
        self.host
    }

    /// Whether a look-up failed midway, or jobs that were left, so that every
    /// later one answers [`Error::Unfinished`]. If not, the reader goes on after
    /// an error.
    #[must_use]
    pub fn is_unfinished(&self) -> bool {
        self.unfinished
    }

    /// The [page](Store::page) on the state of the store, a text for its owner
    /// and not for its host. Between look-ups no job is queued but those that are
    /// [left](Reader::leave_jobs); after one that failed midway the page tells how
    /// far it came.
    #[must_use]
    pub fn page(&self) -> String {
        self.store.page()
    }

    /// The figures of the [page](Reader::page), as numbers.
    #[must_use]
    pub fn summary(&self) -> Summary {
        self.store.summary()
    }

    /// How many look-ups found their block nowhere, in the cache and in each
    /// level, since the reader was opened: for the owner of the store, not for
    /// its host.
    #[must_use]
    pub fn tally(&self) -> &Tally {
        &self.tally
    }

    /// For how many commands look-ups waited, since the reader was opened or
    /// since [`take_waits`](Reader::take_waits). Only look-ups that returned
    /// contents count.
    #[must_use]
    pub fn waits(&self) -> &Waits {
        &self.waits
    }

    /// Hands out for how many commands look-ups waited so far, and begins anew.
    pub fn take_waits(&mut self) -> Waits {
        std::mem::take(&mut self.waits)
    }

    /// How many commands were sent in all since the reader was opened or loaded:
    /// those of look-ups, and those of jobs, whenever they were run.
    #[must_use]
    pub fn commands(&self) -> u64 {
        self.sent
    }

    /// Looks a block up: hands out its contents, and tells where it was found.
    ///
    /// ```
    /// # use rinwolfedd::{Error, Found, MemoryHost, Reader, Shape};
    /// # let shape = Shape::hiding(64, 8)?;
    /// # let mut reader = Reader::open(shape, MemoryHost::new(shape, 1)?)?;
    /// let first = reader.read(7)?;
    /// assert_eq!((first.contents, first.found), (vec![0; 8], Found::Nowhere));
    /// assert_ne!(reader.read(7)?.found, Found::Nowhere); // in the cache, or stored
    /// # Ok::<(), Error>(())
    /// ```
    ///
    /// # Errors
    ///
    /// [`Error::Refused`] for a block that is none of the store's, or for want
    /// of a place in a cache with fewer than N, once jobs that were
    /// [left](Reader::leave_jobs) are done; [`Error::Words`] if fewer words
    /// are left than a look-up asks for: 2, and for each of its two jobs and of
    /// those that are left 2^L − 1, and 32 that may be passed over. Nothing
    /// was sent for it then, and the reader goes on. [`Error::Host`] if the host
    /// fails or completes what it was not sent, which ends the reader:
    /// [`Error::Unfinished`] from then on. So does [`Error::NotRandom`], if so
    /// many words are passed over that those ready end.
    pub fn read(&mut self, block: usize) -> Result<LookedUp, Error> {
        let mut contents = vec![0; self.shape().bytes()];
        let found = self.read_into(block, &mut contents)?;
        Ok(LookedUp { contents, found })
    }

    /// Looks a block up, puts its contents into the buffer, which has B bytes,
    /// and tells where it was found.
    ///
    /// # Errors
    ///
    /// Those of [`read`](Reader::read), and [`Error::Refused`] for a buffer of
    /// another length.
    pub fn read_into(&mut self, block: usize, buffer: &mut [u8]) -> Result<Found, Error> {
        self.look_up(Request::Read { block }, buffer)
    }

    /// Gives a block new contents of B bytes: hands out those before, and tells
    /// where they were found.
    ///
    /// # Errors
    ///
    /// Those of [`read`](Reader::read), and [`Error::Refused`] for contents of
    /// another length.
    pub fn write(&mut self, block: usize, contents: &[u8]) -> Result<LookedUp, Error> {
        let mut before = vec![0; self.shape().bytes()];
        let found = self.look_up(Request::Write { block, contents }, &mut before)?;
        let contents = before;
        Ok(LookedUp { contents, found })
    }
}
