//! The client's state: position map, eviction cache, partitions with their
//! levels, the queue of rebuild jobs and the request in hand.

use crate::found::Found;
use crate::mistakes::Mistake;
use crate::shape::Shape;
use std::collections::VecDeque;

pub const READ: usize = 1;
pub const WRITE: usize = 2;

/// What a turn sends and a completion names. The default is the command of
/// zeros that a refusal reports.
#[derive(Clone, Copy, Debug, Default, PartialEq, Eq, Hash, PartialOrd, Ord)]
pub struct Command {
    pub kind: usize,
    pub partition: usize,
    pub level: usize,
    pub slot: usize,
}

#[derive(Clone, Copy, Debug, PartialEq, Eq, Hash)]
pub enum Place {
    Nowhere,
    /// In the eviction cache; a lower age number has waited longer.
    Waiting(u64),
    /// An item of a level of the block's partition.
    Stored {
        level: usize,
        item: usize,
    },
}

#[derive(Clone, Debug, PartialEq, Eq, Hash)]
pub struct Level {
    /// The order: the slot of each item.
    pub slot_of: Vec<usize>,
    /// The slot-to-block index; a slot without a block is a dummy's.
    pub block_at: Vec<Option<usize>>,
    /// Which slots have been read since the level was written. A slot counts
    /// as read once its read is sent.
    pub read: Vec<bool>,
    /// Whether an order was ever drawn; only two mistakes look at this.
    pub drawn: bool,
}

impl Level {
    fn empty(level: usize) -> Level {
        let slots = 2 << level;
        Level {
            slot_of: (0..slots).collect(),
            block_at: vec![None; slots],
            read: vec![false; slots],
            drawn: false,
        }
    }

    pub fn slots(&self) -> usize {
        self.slot_of.len()
    }

    /// What an empty level's order and marks are means nothing.
    pub fn forget_order(&mut self) {
        for (item, slot) in self.slot_of.iter_mut().enumerate() {
            *slot = item;
        }
        self.read.fill(false);
        self.drawn = false;
    }

    /// The slot of the lowest-numbered unread dummy item. A slot whose block
    /// was collected has been read, so it is never taken for a dummy.
    pub fn dummy(&self, mistake: Mistake) -> Option<usize> {
        let free = |slot: &usize| !self.read[*slot] && self.block_at[*slot].is_none();
        if mistake == Mistake::LowestDummySlot {
            return (0..self.slots()).find(free);
        }
        self.slot_of.iter().copied().find(free)
    }
}

#[derive(Clone, Debug, PartialEq, Eq, Hash)]
pub struct Request {
    pub kind: usize,
    pub block: usize,
    pub contents: Vec<u8>,
    /// The block's next partition.
    pub next: usize,
    /// The eviction partition.
    pub evict: usize,
    /// Levels below this one need no further read.
    pub level: usize,
    /// The reads it awaits: its own, and those of a job beside it that were
    /// outstanding when it was released.
    pub awaits: Vec<Command>,
    /// Where the block was found; none while the request is held.
    pub found: Option<Found>,
    /// Where the block was when the request was accepted; only a mistake
    /// looks at this.
    pub at_acceptance: Found,
}

impl Request {
    /// It is held until its block's place is looked up, and not again after.
    pub fn is_held(&self) -> bool {
        self.found.is_none()
    }
}

#[derive(Clone, Debug, PartialEq, Eq, Hash)]
pub struct State {
    pub shape: Shape,
    pub mistake: Mistake,
    /// The position map: each block's partition and its place there.
    pub partition: Vec<usize>,
    pub place: Vec<Place>,
    /// The bytes of blocks that wait or have been gathered.
    pub contents: Vec<Vec<u8>>,
    pub counter: Vec<usize>,
    /// By partition, then by level.
    pub levels: Vec<Vec<Level>>,
    pub queue: VecDeque<usize>,
    /// How many jobs the front one runs for, itself among them, or 0 until one
    /// of its commands is sent. A request's read of a slot that it would read
    /// is one.
    pub begun: usize,
    pub request: Option<Request>,
    /// How many writes the front job has sent, once it has drawn its orders.
    pub writing: Option<usize>,
    pub outstanding: Vec<Command>,
    /// The age number of the next block that enters the cache.
    pub age: u64,
}

/// What the next turn does.
#[derive(Clone, Copy, Debug, PartialEq, Eq)]
pub enum Step {
    /// The request's read in this level.
    RequestRead(usize),
    /// The front job's read of a level's slot.
    JobRead(usize, usize),
    /// The front job chooses blocks, draws its orders and sends its first
    /// write.
    FirstWrite,
    /// The front job's write of a level's slot.
    Write(usize, usize),
}

impl State {
    pub fn fresh(shape: Shape, mistake: Mistake, partition: Vec<usize>) -> State {
        State {
            shape,
            mistake,
            partition,
            place: vec![Place::Nowhere; shape.blocks],
            contents: vec![vec![0; shape.bytes]; shape.blocks],
            counter: vec![0; shape.partitions],
            levels: vec![(0..shape.levels).map(Level::empty).collect(); shape.partitions],
            queue: VecDeque::new(),
            begun: 0,
            request: None,
            writing: None,
            outstanding: Vec::new(),
            age: 0,
        }
    }

    pub fn filled(&self, partition: usize, level: usize) -> bool {
        self.counter[partition] >> level & 1 == 1
    }

    pub fn is_waiting(&self, block: usize) -> bool {
        matches!(self.place[block], Place::Waiting(_))
    }

    pub fn waiting(&self) -> usize {
        (0..self.shape.blocks)
            .filter(|b| self.is_waiting(*b))
            .count()
    }

    pub fn busy(&self, partition: usize) -> bool {
        self.outstanding.iter().any(|c| c.partition == partition)
    }

    /// The level of the request's next read. A held request has none.
    pub fn request_read(&self) -> Option<usize> {
        let request = self.request.as_ref()?;
        let p = self.partition[request.block];
        let skips = match self.mistake {
            Mistake::WaitingSendsNothing => self.is_waiting(request.block),
            Mistake::WaitingSkipsRebuild => self.is_undrawn(p) && self.is_waiting(request.block),
            _ => false,
        };
        if request.is_held() || skips {
            return None;
        }
        (request.level..self.shape.levels).find(|level| self.costs_a_read(p, *level))
    }

    /// Not held, all reads sent, and all that it awaits completed.
    pub fn finished(&self, request: &Request) -> bool {
        if request.is_held() {
            return false;
        }
        let p = self.partition[request.block];
        let early = match self.mistake {
            Mistake::FinishedEarly => true,
            Mistake::FinishedByOwnRead => self.is_undrawn(p),
            _ => false,
        };
        if early && let Some((level, slot)) = self.own_slot(request.block) {
            let own = |c: &Command| (c.partition, c.level, c.slot) == (p, level, slot);
            return self.levels[p][level].read[slot] && !self.outstanding.iter().any(own);
        }
        let later = self.mistake == Mistake::LaterJobReadsAwaited && self.busy(p);
        self.request_read().is_none() && request.awaits.is_empty() && !later
    }

    /// The command the next turn sends, if there is one to send.
    pub fn step(&self) -> Option<Step> {
        if let Some(level) = self.request_read() {
            return Some(Step::RequestRead(level));
        }
        let q = *self.queue.front()?;
        if let Some(sent) = self.writing {
            let next = self.writes(q).nth(sent);
            return next.map(|(level, slot)| Step::Write(level, slot));
        }
        let in_hand = self.released_for(q).is_some();
        if in_hand && self.mistake == Mistake::JobStandsStill {
            return None;
        }
        for level in self.source_levels(q) {
            if let Some(slot) = self.levels[q][level].read.iter().position(|read| !read) {
                return Some(Step::JobRead(level, slot));
            }
        }
        // Orders are drawn only after the request is collected.
        let waits = in_hand && self.mistake != Mistake::DrawsWithRequest;
        (!waits && !self.busy(q)).then_some(Step::FirstWrite)
    }
}
