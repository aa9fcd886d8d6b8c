//! Look-ups while a partition is rebuilt (document 02, P4): which jobs hold a
//! request, what it reads of the levels that a job beside it reads too, and
//! which of the job's reads it awaits.

use crate::mistakes::Mistake;
use crate::state::{Command, Level, Place, Request, State};

impl Level {
    /// Whether no slot of it is unread.
    pub fn is_spent(&self) -> bool {
        self.read.iter().all(|read| *read)
    }

    /// How many of its slots have been read since it was written.
    pub fn reads(&self) -> usize {
        self.read.iter().filter(|read| **read).count()
    }

    /// The slot of the lowest-numbered unread item, a block or a dummy.
    fn first_unread(&self) -> Option<usize> {
        let mut items = self.slot_of.iter().copied();
        items.find(|slot| !self.read[*slot])
    }
}

impl State {
    /// Whether the front job is for this partition and has its orders still to
    /// draw.
    pub fn is_undrawn(&self, partition: usize) -> bool {
        self.queue.front() == Some(&partition) && self.writing.is_none()
    }

    /// Whether the front job reads this level of this partition. A request
    /// that is not held finds the job's orders undrawn.
    pub fn is_source(&self, partition: usize, level: usize) -> bool {
        self.queue.front() == Some(&partition) && self.source_levels(partition).contains(&level)
    }

    /// How many jobs for this partition are one job: "The run counts as one job
    /// for look-ups during a rebuild".
    fn one_job(&self, partition: usize) -> usize {
        let at_front = self.queue.front() == Some(&partition);
        match self.mistake {
            Mistake::RunHolds => 1,
            _ if at_front => self.begun.max(1),
            _ => 1,
        }
    }

    /// What holds a request for this partition: a job for it, unless it is the
    /// only one, at the front and undrawn, and the levels that it does not
    /// read have a dummy to spare.
    pub fn holds(&self, partition: usize) -> bool {
        let jobs = self.jobs(partition);
        let at_front = self.queue.front() == Some(&partition);
        let only = jobs <= self.one_job(partition);
        let undrawn = self.is_undrawn(partition);
        let passes = match self.mistake {
            Mistake::ReleasedAtOnce => return false,
            Mistake::HeldByEveryJob => false,
            Mistake::ReleasedBesideTwo => undrawn,
            Mistake::ReleasedBehindOthers => only && (undrawn || !at_front),
            Mistake::ReleasedBesideDrawn => only && at_front,
            _ => only && undrawn,
        };
        jobs > 0 && (!passes || self.is_worn(partition))
    }

    /// Whether a filled level that is no source has been read 2^l times.
    fn is_worn(&self, partition: usize) -> bool {
        let levels = self.levels[partition].iter().enumerate();
        let mut others = levels
            .filter(|(level, _)| self.filled(partition, *level))
            .filter(|(level, _)| !self.is_source(partition, *level));
        others.any(|(level, table)| table.reads() >= 1 << level)
    }

    /// The request in hand, if it is not held and for this partition.
    pub fn released_for(&self, partition: usize) -> Option<&Request> {
        let request = self.request.as_ref()?;
        let here = !request.is_held() && self.partition[request.block] == partition;
        here.then_some(request)
    }

    /// What a request awaits that is released now: of its partition's commands
    /// all that are outstanding, which are reads of the job beside it.
    pub fn awaited(&self, block: usize) -> Vec<Command> {
        let p = self.partition[block];
        let of_job = self.outstanding.iter().filter(|c| c.partition == p);
        match self.mistake {
            Mistake::JobReadsNotAwaited => Vec::new(),
            Mistake::OwnJobReadAwaited => {
                let own = self.own_slot(block);
                of_job
                    .filter(|c| own == Some((c.level, c.slot)))
                    .copied()
                    .collect()
            }
            _ => of_job.copied().collect(),
        }
    }

    /// The level and slot of a block that is stored.
    pub fn own_slot(&self, block: usize) -> Option<(usize, usize)> {
        match self.place[block] {
            Place::Stored { level, item } => {
                let levels = &self.levels[self.partition[block]];
                Some((level, levels[level].slot_of[item]))
            }
            _ => None,
        }
    }

    /// Whether the job beside a request has read the slot of a stored block.
    pub fn was_read(&self, block: usize) -> bool {
        let levels = &self.levels[self.partition[block]];
        let own = self.own_slot(block);
        own.is_some_and(|(level, slot)| levels[level].read[slot])
    }

    /// Whether a request's read of a level sends a command: not if the level
    /// is a source with no slot unread.
    pub fn costs_a_read(&self, partition: usize, level: usize) -> bool {
        let spent = self.is_source(partition, level) && self.levels[partition][level].is_spent();
        self.filled(partition, level) && (!spent || self.mistake == Mistake::SpentSourceCostsRead)
    }

    /// The slot that a request for this block reads in a level of its
    /// partition.
    pub fn slot_to_read(&self, block: usize, level: usize) -> Option<usize> {
        let p = self.partition[block];
        let table = &self.levels[p][level];
        let own = match self.own_slot(block) {
            Some((there, slot)) if there == level => Some(slot),
            _ => None,
        };
        if !self.is_source(p, level) {
            return own.or_else(|| table.dummy(self.mistake));
        }
        let again = self.mistake == Mistake::SlotReadTwice;
        let own = own.filter(|slot| !table.read[*slot] || again);
        own.or_else(|| self.early(table))
    }

    /// The slot of a source that is read for a block that is not there unread.
    fn early(&self, table: &Level) -> Option<usize> {
        match self.mistake {
            Mistake::LowestUnreadSlot => table.read.iter().position(|read| !read),
            Mistake::SourceReadsDummy => table.dummy(self.mistake),
            Mistake::SpentSourceCostsRead if table.is_spent() => Some(table.slot_of[0]),
            _ => table.first_unread(),
        }
    }
}
