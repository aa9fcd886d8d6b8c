//! The parts of a store's state.

use super::Command;

/// The most levels, and the words of bits for a partition's slots.
pub const LEVELS: usize = 8;
pub const WORDS: usize = 8;
/// The most jobs in the queue.
pub const JOBS: usize = 64;
/// The most commands outstanding.
pub const MOST_SENT: usize = 32;

/// A place that is no slot.
pub const NOWHERE: u16 = u16::MAX;
pub const WAITING: u16 = u16::MAX - 1;
/// The end of a list of waiting blocks.
pub const NONE: u16 = u16::MAX;

/// In place of where its block was found, a request that is held has this.
pub const HELD: u8 = u8::MAX;

#[derive(Clone, Copy)]
pub struct Block {
    /// NOWHERE, WAITING or the index of its slot in the store.
    pub place: u16,
    pub partition: u16,
    /// The neighbours in the list of blocks that wait for the partition.
    pub older: u16,
    pub younger: u16,
}

impl Block {
    pub fn nowhere(partition: u16) -> Block {
        Block {
            place: NOWHERE,
            partition,
            older: NONE,
            younger: NONE,
        }
    }
}

#[derive(Clone, Copy)]
pub struct Partition {
    /// The slots that no request has read since their level was written. An
    /// empty level has none, nor has a source once the job has drawn.
    pub unread: [u64; WORDS],
    /// By level, the lowest-numbered unread dummy item. That of a job's source
    /// means nothing once one of its slots was read beside the job.
    pub dummy: [u16; LEVELS],
    pub counter: u16,
    /// The blocks its levels hold.
    pub stored: u16,
    /// Its jobs in the queue.
    pub jobs: u16,
    /// The ends of the list of blocks that wait for it.
    pub oldest: u16,
    pub youngest: u16,
}

impl Partition {
    pub const FRESH: Partition = Partition {
        unread: [0; WORDS],
        dummy: [0; LEVELS],
        counter: 0,
        stored: 0,
        jobs: 0,
        oldest: NONE,
        youngest: NONE,
    };
}

/// The request in hand, if its kind is one.
#[derive(Clone, Copy, Default)]
pub struct Request {
    /// READ, WRITE or, without a request, 0.
    pub kind: u8,
    /// What the answer to its collect tells, or HELD.
    pub found: u8,
    /// The levels whose read is yet to be sent, as bits; 0 while held.
    pub pending: u32,
    /// The reads outstanding that it waits for.
    pub outstanding: usize,
    pub block: usize,
    pub partition: usize,
    pub next: usize,
    pub evict: usize,
    /// The index in the partition of the slot to read the block from, or 0.
    pub own: usize,
    /// Beside a job of its partition, the index at which the sources end, or
    /// 0.
    pub end: usize,
    /// The room of a write's contents.
    pub room: u16,
}

#[derive(Clone, Copy, PartialEq, Eq)]
pub enum Phase {
    /// No job is queued.
    Idle,
    /// Slots of the sources are yet to be read.
    Read,
    /// All reads are sent, or there are none.
    Gather,
    /// Slots are yet to be written.
    Write,
    /// All writes are sent.
    Written,
}

/// The front job, with those that run together with it.
#[derive(Clone, Copy)]
pub struct Job {
    pub phase: Phase,
    /// Without a job, a number that no partition has.
    pub partition: usize,
    /// Whether it has begun, how many jobs run, or would if they began now, and
    /// the counter once they have run.
    pub begun: bool,
    pub jobs: u16,
    pub after: u16,
    /// The index in the store of the partition's first slot.
    pub base: usize,
    /// The index in the partition at which the sources end: they are the filled
    /// levels below. Then the levels yet to be written, as bits.
    pub end: usize,
    pub targets: u32,
    /// A word of the sources' slots that are yet to be read, and which it is.
    pub unread: u64,
    pub word: usize,
    /// The blocks gathered so far, and how many of them have left since.
    pub count: usize,
    pub gone: usize,
    /// The next write, and how many are left of its level.
    pub write: Command,
    pub left: usize,
    /// The blocks that were taken from the cache.
    pub taken: usize,
}

pub const IDLE: Job = Job {
    phase: Phase::Idle,
    partition: usize::MAX,
    begun: false,
    jobs: 0,
    after: 0,
    base: 0,
    end: 0,
    targets: 0,
    unread: 0,
    word: 0,
    count: 0,
    gone: 0,
    write: Command {
        kind: 0,
        partition: 0,
        level: 0,
        slot: 0,
    },
    left: 0,
    taken: 0,
};

impl Job {
    pub fn has_drawn(&self) -> bool {
        matches!(self.phase, Phase::Write | Phase::Written)
    }

    /// How many jobs of its partition are one job for look-ups.
    pub fn one(&self) -> u16 {
        if self.begun { self.jobs } else { 1 }
    }

    /// The index in the partition of the next slot to read, or `end`. All the
    /// sources' slots below have been read.
    pub fn next(&self) -> usize {
        match self.phase {
            Phase::Read => 64 * self.word + self.unread.trailing_zeros() as usize,
            _ => self.end,
        }
    }
}

/// The commands outstanding. The lower half of an entry is the command. In the
/// upper half the lowest bit says whether the request in hand waits for it,
/// and the others where the bytes of a read go.
#[derive(Clone, Copy, Default)]
pub struct Sent {
    entries: [u64; MOST_SENT],
    pub count: usize,
}

impl Sent {
    #[inline]
    pub fn push(&mut self, command: Command, at: usize, awaited: bool) {
        let upper = (at as u64) << 1 | u64::from(awaited);
        self.entries[self.count % MOST_SENT] = upper << 32 | u64::from(packed(command));
        self.count += 1;
    }

    /// The request in hand waits for all of them.
    pub fn await_all(&mut self) {
        for entry in &mut self.entries[..self.count.min(MOST_SENT)] {
            *entry |= 1 << 32;
        }
    }

    #[inline]
    pub fn find(&self, command: Command) -> Option<usize> {
        let packed = packed(command);
        if self.count > 0 && self.entries[0] as u32 == packed {
            return Some(0);
        }
        self.find_later(packed)
    }

    #[inline(never)]
    fn find_later(&self, packed: u32) -> Option<usize> {
        let entries = &self.entries[..self.count.min(MOST_SENT)];
        entries.iter().position(|entry| *entry as u32 == packed)
    }

    /// Takes a command out and hands back where its bytes go, and whether the
    /// request waited for it.
    #[inline]
    pub fn remove(&mut self, index: usize) -> (usize, bool) {
        let upper = self.entries[index % MOST_SENT] >> 32;
        self.count -= 1;
        self.entries[index % MOST_SENT] = self.entries[self.count % MOST_SENT];
        ((upper >> 1) as usize, upper & 1 == 1)
    }
}

#[inline]
fn packed(command: Command) -> u32 {
    u32::from_ne_bytes([command.kind, command.partition, command.level, command.slot])
}

/// A ring of partition numbers.
#[derive(Clone, Copy)]
pub struct Queue {
    ring: [u8; JOBS],
    first: usize,
    pub len: usize,
}

impl Default for Queue {
    fn default() -> Queue {
        Queue {
            ring: [0; JOBS],
            first: 0,
            len: 0,
        }
    }
}

impl Queue {
    pub fn push(&mut self, partition: usize) {
        self.ring[(self.first + self.len) % JOBS] = partition as u8;
        self.len += 1;
    }

    pub fn front(&self) -> usize {
        usize::from(self.ring[self.first % JOBS])
    }

    /// The first so many jobs of the front one's partition leave.
    pub fn leave(&mut self, jobs: u16) {
        let partition = self.front();
        self.first = (self.first + 1) % JOBS;
        self.len -= 1;
        if jobs > 1 {
            self.leave_later(partition, jobs - 1);
        }
    }

    #[inline(never)]
    fn leave_later(&mut self, partition: usize, mut jobs: u16) {
        let mut kept = 0;
        for at in 0..self.len {
            let job = self.ring[(self.first + at) % JOBS];
            if usize::from(job) == partition && jobs > 0 {
                jobs -= 1;
            } else {
                self.ring[(self.first + kept) % JOBS] = job;
                kept += 1;
            }
        }
        self.len = kept;
    }
}
