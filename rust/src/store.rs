//! A store that owns its state and its memory.

mod form;

use crate::calls::{self, PAGE, STATE};
use crate::command::{Command, Kind};
use crate::found::Found;
use crate::refusal::Refusal;
use crate::shape::Shape;
use crate::summary::Summary;
use crate::tape::Tape;
use std::fmt;

/// What is asked for.
#[derive(Clone, Copy, PartialEq, Eq)]
pub enum Request<'a> {
    /// The contents of a block.
    Read {
        /// The block, 0 to N−1.
        block: usize,
    },
    /// New contents for a block; its contents before are handed out.
    Write {
        /// The block, 0 to N−1.
        block: usize,
        /// B bytes.
        contents: &'a [u8],
    },
}

/// Neither the block nor the contents, so that no log has them.
impl fmt::Debug for Request<'_> {
    fn fmt(&self, f: &mut fmt::Formatter<'_>) -> fmt::Result {
        let name = match self {
            Request::Read { .. } => "Read",
            Request::Write { .. } => "Write",
        };
        f.debug_struct(name).finish_non_exhaustive()
    }
}

/// The client of one store: its state, and the memory and the buffer that its
/// shape needs. The five calls of the proved library are [`open`](Store::open),
/// [`request`](Store::request), [`turn`](Store::turn),
/// [`completion`](Store::completion) and [`collect`](Store::collect). How it
/// stands between any two of them is told by its [`page`](Store::page), and in
/// numbers by its [`summary`](Store::summary). It outlives its program by
/// [`save`](Store::save) and [`load`](Store::load).
///
/// [`Reader`](crate::Reader) makes whole look-ups of them; a program that makes
/// them itself decides when a command is sent and when jobs are done.
///
/// ```
/// use rinwolfedd::{Found, Refusal, Request, Shape, Store, Tape};
///
/// let shape = Shape::new(1, 1, 1, 1).with_window(1);
/// // This tape is fixed, to show the calls; one that hides anything is random.
/// let mut tape = Tape::new(&[0; 14]);
/// let mut store = Store::open(shape, &mut tape)?;
/// assert_eq!(tape.taken(), 1); // a partition for the one block
/// store.request(Request::Write { block: 0, contents: &[7] }, &mut tape)?;
/// let (contents, found) = store.collect()?;
/// assert_eq!((contents, found), (&[0][..], Found::Nowhere)); // the contents before
///
/// // Its jobs are still to be done: their first command is a write.
/// let (command, bytes) = store.turn(&mut tape)?;
/// assert_eq!((command.to_string(), bytes.len()), ("w 0 0 0".to_string(), 1));
/// assert_eq!(store.turn(&mut tape), Err(Refusal::WindowFull));
/// store.completion(command, &[])?;
/// assert_eq!(store.summary().queued(), 2); // the first has begun
/// # Ok::<(), Refusal>(())
/// ```
pub struct Store {
    shape: Shape,
    state: [u8; STATE],
    memory: Vec<u8>,
    /// The bytes of a turn's write, or what a collect hands out.
    buffer: Vec<u8>,
}

/// Only the shape: the rest tells which block is where.
impl fmt::Debug for Store {
    fn fmt(&self, f: &mut fmt::Formatter<'_>) -> fmt::Result {
        let mut fields = f.debug_struct("Store");
        fields.field("shape", &self.shape).finish_non_exhaustive()
    }
}

/// Where the state has how many jobs are queued (docs/MEMORY.md).
const JOBS: usize = 13;

impl Store {
    /// Opens a store of the shape: all blocks are zeros. Takes N words.
    ///
    /// # Errors
    ///
    /// [`Refusal::ShapeOutOfBounds`], or [`Refusal::TooFewWords`] for a tape
    /// with fewer than N.
    pub fn open(shape: Shape, tape: &mut Tape<'_>) -> Result<Store, Refusal> {
        let memory = shape.needed().ok_or(Refusal::ShapeOutOfBounds)?;
        let mut store = Store {
            shape,
            state: [0; STATE],
            memory: vec![0; memory],
            buffer: vec![0; shape.bytes()],
        };
        let (state, memory) = (&mut store.state, &mut store.memory);
        let answer = calls::open(state, memory, shape.numbers(), tape.rest());
        answer.accepted()?;
        tape.take(answer.taken());
        Ok(store)
    }

    /// The shape with which it was opened, or that of the form it was loaded from.
    #[must_use]
    pub fn shape(&self) -> Shape {
        self.shape
    }

    /// Takes a request in hand. Takes two words.
    ///
    /// # Errors
    ///
    /// [`Refusal::RequestInHand`], [`Refusal::NoSuchBlock`],
    /// [`Refusal::ContentsLength`], [`Refusal::QueueFull`],
    /// [`Refusal::CacheFull`] (only with fewer places than blocks) or
    /// [`Refusal::TooFewWords`]. A refused call changes nothing.
    pub fn request(&mut self, request: Request<'_>, tape: &mut Tape<'_>) -> Result<(), Refusal> {
        let (kind, block, contents) = match request {
            Request::Read { block } => (calls::READ, block, &[][..]),
            Request::Write { block, contents } => (calls::WRITE, block, contents),
        };
        let (state, memory) = (&mut self.state, &mut self.memory);
        let answer = calls::request(state, memory, kind, block, contents, tape.rest());
        answer.accepted()?;
        tape.take(answer.taken());
        Ok(())
    }

    /// Sends one command, with the bytes of a write; those of a read are
    /// empty. A turn that draws the orders of the levels that jobs write takes a
    /// word for each of up to 375 draws, and those that it passes over
    /// ([`Tape`]): with 64 more than draws it is refused less than once in 10^120
    /// times, with none to spare one of five with the most draws is. The bytes
    /// are those of a block, or zeros: whoever seals them seals all of them, each
    /// time anew ([`Host`](crate::Host#sealing)).
    ///
    /// # Errors
    ///
    /// [`Refusal::WindowFull`], [`Refusal::NothingToSend`] or
    /// [`Refusal::TooFewWords`]: then nothing is left of the tape, and the turn
    /// may be asked for again with another.
    pub fn turn(&mut self, tape: &mut Tape<'_>) -> Result<(Command, &[u8]), Refusal> {
        let (state, memory) = (&mut self.state, &mut self.memory);
        let answer = calls::turn(state, memory, tape.rest(), &mut self.buffer);
        if let Err(refusal) = answer.accepted() {
            if refusal == Refusal::TooFewWords {
                tape.spend();
            }
            return Err(refusal);
        }
        tape.take(answer.taken());
        let command = answer.command().expect("an accepted turn has sent one");
        let bytes = match command.kind {
            Kind::Read => &[],
            Kind::Write => &self.buffer[..],
        };
        Ok((command, bytes))
    }

    /// Says that the host has completed a command: a read with the B bytes
    /// that it brought, a write with none. Commands may complete in any order.
    ///
    /// # Errors
    ///
    /// [`Refusal::NotOutstanding`] or [`Refusal::CompletionLength`].
    pub fn completion(&mut self, command: Command, bytes: &[u8]) -> Result<(), Refusal> {
        let slot = [
            command.partition.into(),
            command.level.into(),
            command.slot.into(),
        ];
        let kind = command.kind.number().into();
        let (state, memory) = (&mut self.state, &mut self.memory);
        calls::completion(state, memory, kind, slot, bytes).accepted()
    }

    /// Hands out the block's contents before the request, once it is finished,
    /// with where the block was found, and queues its two jobs. It is finished
    /// when it is not held, its reads have completed, and so have those of a
    /// job for its partition that were outstanding when it ceased to be held.
    /// Where it was found is for the owner of the store, not for its host
    /// ([`Found`]).
    ///
    /// # Errors
    ///
    /// [`Refusal::NoRequest`] or [`Refusal::NotFinished`].
    pub fn collect(&mut self) -> Result<(&[u8], Found), Refusal> {
        let answer = calls::collect(&mut self.state, &mut self.memory, &mut self.buffer);
        answer.accepted()?;
        Ok((&self.buffer, answer.found()))
    }

    /// How many jobs are queued, one that has begun among them: at most 64, and
    /// with more than 62 no request is accepted. The host can count them, too: a
    /// collect queues two, and a job leaves with the last write of its run.
    #[must_use]
    pub fn queued(&self) -> usize {
        self.number(JOBS)
    }

    /// A number of the state.
    fn number(&self, index: usize) -> usize {
        let at = 4 * index;
        u16::from_le_bytes([self.state[at], self.state[at + 1]]).into()
    }

    /// The page on the state of the store, a text of P + 1 lines of 28
    /// characters and a newline. Numbers are right-aligned.
    ///
    /// | line | 4 characters | 6 each |
    /// |---|---|---|
    /// | of each partition, 0 upward | the partition | its counter, the blocks stored in its levels, those that wait for it, its queued jobs |
    /// | the last | `all` and a blank | the blocks nowhere, stored and waiting, which are N together; blanks |
    ///
    /// Blocks are counted by their place, whatever request is in hand, and a job
    /// that has begun counts as queued. It may be asked for between any two
    /// calls: it takes no words, changes nothing, and nothing is sent. It costs
    /// about a step for each block, partition and queued job.
    ///
    /// **It is for the owner of the store, not for its host.** It tells what the
    /// commands hide: how many different blocks were ever looked up, how many
    /// wait, and for which partitions.
    ///
    /// ```
    /// # use rinwolfedd::{Refusal, Request, Shape, Store, Tape};
    /// let mut tape = Tape::new(&[0; 10]); // one that hides anything is random
    /// let mut store = Store::open(Shape::new(3, 2, 2, 1), &mut tape)?;
    /// store.request(Request::Read { block: 1 }, &mut tape)?;
    /// store.collect()?;
    /// let lines = [
    ///     "   0     0     0     1     2",
    ///     "   1     0     0     0     0",
    ///     "all      2     0     1      ",
    /// ];
    /// assert!(store.page().lines().eq(lines));
    /// # Ok::<(), Refusal>(())
    /// ```
    #[must_use]
    pub fn page(&self) -> String {
        let mut page = vec![0; PAGE];
        let answer = calls::page(&self.state, &self.memory, &mut page);
        // It is not refused: the memory is as long as the shape needs, each
        // number of the state is in its range after an accepted open and every
        // call since (theorem `after-left`), and no page is longer.
        answer.accepted().expect("an open store has a page");
        page.truncate(answer.length());
        String::from_utf8(page).expect("a page is digits, blanks, `all` and newlines")
    }

    /// The figures of the [page](Store::page), as numbers. They are for the
    /// owner of the store, too.
    #[must_use]
    pub fn summary(&self) -> Summary {
        // every line of the page has its columns, for every shape
        Summary::of(&self.page()).expect("a page has its columns")
    }
}
