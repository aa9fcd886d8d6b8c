//! A fast plain implementation of document 01's block store, for benchmarks,
//! with where a block was found, even draws, look-ups while a partition is
//! rebuilt and jobs of one partition together (document 02, P2 to P4 and P7).
//! It answers the documents' numbers. It owns its memory, so the questions about
//! the length of lent memory are left out, and as a refused open hands back no
//! store, so is the closed state.
//!
//! A slot has an index in its partition like a node in a heap: slot s of
//! level l is at 2^(l+1) + s. A rebuild's reads, levels ascending and slots
//! ascending within a level, are then the unread bits from 2 upward. An
//! index in the store has the partition in the bits above.

mod beside;
mod calls;
mod parts;
mod rebuild;
mod turn;

use crate::shape::Shape;
use parts::{Block, IDLE, JOBS, Job, Partition, Queue, Request, Sent};

pub const READ: u8 = 1;
pub const WRITE: u8 = 2;

/// What a turn sends and a completion names. The default is the command of
/// zeros that a refusal reports.
#[derive(Clone, Copy, Debug, Default, PartialEq, Eq)]
#[repr(C, align(4))]
pub struct Command {
    pub kind: u8,
    pub partition: u8,
    pub level: u8,
    pub slot: u8,
}

/// The number answered, where a collected block was found, the words taken and
/// a turn's command, in the eight bytes that a call hands back in a register.
#[derive(Clone, Copy, Debug, Default, PartialEq, Eq)]
pub struct Answer {
    pub number: u8,
    /// 0 nowhere, 1 in the cache, 2 + l in level l. A refusal tells 0.
    pub found: u8,
    /// A call is to be lent at most 65,535 words, so that these can be counted.
    pub taken: u16,
    pub command: Command,
}

impl Answer {
    fn refused(number: u8) -> Answer {
        Answer {
            number,
            ..Answer::default()
        }
    }

    fn sent(command: Command, taken: u16) -> Answer {
        Answer {
            taken,
            command,
            ..Answer::default()
        }
    }

    fn collected(found: u8) -> Answer {
        Answer {
            found,
            ..Answer::default()
        }
    }
}

/// The room that is always zeros, the one for bytes that nobody wants, and
/// the first of those for the blocks that a job gathers.
const ZEROS: u16 = 0;
const JUNK: u16 = 1;
const GATHER: u16 = 2;
/// The most slots of a level.
const SLOTS: usize = 256;
/// The bytes of a cache line.
const LINE: usize = 64;

pub struct Store {
    request: Request,
    job: Job,
    sent: Sent,
    queue: Queue,
    /// B, W, L and E.
    bytes: usize,
    window: usize,
    levels: usize,
    places: usize,
    /// The blocks in the eviction cache.
    waiting: usize,
    partitions: Vec<Partition>,
    blocks: Vec<Block>,
    /// By index of slot: the block written there, or N for a dummy. That of
    /// a slot read, or of an empty level, means nothing.
    block_at: Vec<u16>,
    /// By level and item, laid out as the slots are: the item's slot.
    slot_of: Vec<u16>,
    /// By block: the room of its contents while it waits or its request is
    /// in hand, and ZEROS while it is nowhere.
    room_of: Vec<u16>,
    /// A stack of free rooms, so that few are in use again and again.
    free: Vec<u16>,
    /// The blocks of a rebuild, each with its room in the lower half, and GONE
    /// in place of one that has left.
    gathered: [u32; SLOTS],
    /// By index in the partition of a slot to be written: where its contents
    /// lie.
    outgoing: [u32; 2 * SLOTS],
    /// The rooms of the blocks that a job has taken from the cache, which are
    /// free once it has ended.
    waited: [u16; JOBS],
    /// By m: 2^32 / m, rounded up, to draw below m without a division.
    inverse: [u32; SLOTS + 1],
    /// Rooms of B bytes, after a gap of `start` bytes that puts them on a
    /// cache line's border: ZEROS, JUNK, those for the blocks that a job
    /// gathers, and one for each block and for a request's contents.
    contents: Vec<u8>,
    start: usize,
}

impl Store {
    /// Takes N words. All memory is allocated here.
    pub fn open(shape: Shape, words: &[u16]) -> Result<Store, u8> {
        if !shape.in_bounds() {
            return Err(1);
        }
        let n = shape.blocks;
        let words = words.get(..n).ok_or(3)?;
        let slots = shape.partitions << (shape.levels + 1);
        let first = usize::from(GATHER) + shape.capacity();
        let rooms = first + n + 1;
        let contents = vec![0; rooms * shape.bytes + LINE];
        let mask = shape.partitions as u16 - 1;
        Ok(Store {
            request: Request::default(),
            job: IDLE,
            sent: Sent::default(),
            queue: Queue::default(),
            bytes: shape.bytes,
            window: shape.window,
            levels: shape.levels,
            places: shape.places,
            waiting: 0,
            partitions: vec![Partition::FRESH; shape.partitions],
            blocks: words.iter().map(|w| Block::nowhere(w & mask)).collect(),
            block_at: vec![n as u16; slots],
            slot_of: vec![0; slots],
            room_of: vec![ZEROS; n],
            free: (first as u16..rooms as u16).rev().collect(),
            gathered: [0; SLOTS],
            outgoing: [0; 2 * SLOTS],
            waited: [ZEROS; JOBS],
            inverse: std::array::from_fn(|m| inverse(m as u32)),
            start: contents.as_ptr().align_offset(LINE).min(LINE),
            contents,
        })
    }

    /// Where the bytes of a room begin.
    #[inline]
    fn at(&self, room: u16) -> usize {
        self.start + usize::from(room) * self.bytes
    }
}

fn inverse(m: u32) -> u32 {
    if m < 2 { 0 } else { u32::MAX / m + 1 }
}
