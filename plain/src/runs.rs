//! Jobs of one partition together (document 02, P7): how many jobs the front
//! one runs for, which levels they read and write, and which blocks they take
//! from the cache. A run of one job is document 01's.

use crate::mistakes::Mistake;
use crate::state::{Place, State};

impl State {
    /// The jobs for a partition that are queued, those of a begun run among
    /// them.
    pub fn jobs(&self, q: usize) -> usize {
        self.queue.iter().filter(|job| **job == q).count()
    }

    /// The counter with all levels filled.
    fn full(&self) -> usize {
        (1 << self.shape.levels) - 1
    }

    /// Whether all levels of a partition are filled.
    pub fn is_full(&self, q: usize) -> bool {
        self.counter[q] == self.full()
    }

    /// How many jobs would run if the front one, for q, began now: it "takes
    /// with it the queued jobs for the same partition, oldest first, so that
    /// they are j in all, at most 2^L − 1 − counter, or just itself when all
    /// levels are filled".
    fn joined(&self, q: usize) -> usize {
        let waits = |block| self.is_waiting(block) && self.partition[block] == q;
        let queued = match self.mistake {
            Mistake::JobsNotJoined => 1,
            Mistake::JoinsIfWaiting if !(0..self.shape.blocks).any(waits) => 1,
            Mistake::JoinsNeighbours => self.queue.iter().take_while(|job| **job == q).count(),
            _ => self.jobs(q),
        };
        match (self.full() - self.counter[q], self.mistake) {
            (0, Mistake::FullJoins) => queued,
            (0, _) => 1,
            (most, Mistake::CutLater) => queued.min(most + 1),
            (most, _) => queued.min(most),
        }
    }

    /// j of the front job, for q: fixed since it has begun, until then what it
    /// would be.
    pub fn run(&self, q: usize) -> usize {
        let open = self.mistake == Mistake::JoinsUntilDrawn && self.writing.is_none();
        match self.begun {
            0 => self.joined(q),
            _ if open => self.joined(q),
            begun => begun,
        }
    }

    /// The front job, for q, sends a command, and so has begun.
    pub fn begin(&mut self, q: usize) {
        self.begun = self.run(q);
    }

    /// The counter after the front job: it "grows by j (a full one falls as
    /// before)".
    pub fn counter_after(&self, q: usize) -> usize {
        match self.counter[q] + self.run(q) {
            after if after <= self.full() => after,
            _ => self.shape.capacity(),
        }
    }

    /// "let t be the highest level at which the counter and counter + j
    /// differ". If all levels are filled it is the last one.
    fn highest(&self, q: usize) -> usize {
        match self.counter[q] + self.run(q) {
            after if after <= self.full() => (self.counter[q] ^ after).ilog2() as usize,
            _ => self.shape.levels - 1,
        }
    }

    /// "Filled levels up to t are the sources", ascending.
    pub fn source_levels(&self, q: usize) -> Vec<usize> {
        let levels = 0..=self.highest(q);
        let filled = |level: &usize| self.filled(q, *level);
        match self.mistake {
            Mistake::SourcesFromBelow => levels.take_while(filled).collect(),
            _ => levels.filter(filled).collect(),
        }
    }

    /// "the levels up to t that are filled in counter + j are written, highest
    /// first". The counter of a full partition falls to the last level alone.
    pub fn written_levels(&self, q: usize) -> Vec<usize> {
        let after = self.counter_after(q);
        let levels = (0..=self.highest(q)).rev();
        let written = levels.filter(|level| after >> level & 1 == 1);
        match self.mistake {
            Mistake::LowestLevelFirst => written.rev().collect(),
            _ => written.collect(),
        }
    }

    /// The front job's writes in turn: the level and the slot of each.
    pub fn writes(&self, q: usize) -> impl Iterator<Item = (usize, usize)> {
        let slots = |level: usize| (0..2 << level).map(move |slot| (level, slot));
        self.written_levels(q).into_iter().flat_map(slots)
    }

    /// The blocks that a partition's levels name.
    pub fn stored(&self, q: usize) -> Vec<usize> {
        self.named(q, 0..self.shape.levels)
    }

    /// Those that the front job's sources name.
    pub fn sourced(&self, q: usize) -> Vec<usize> {
        self.named(q, self.source_levels(q))
    }

    fn named(&self, q: usize, levels: impl IntoIterator<Item = usize>) -> Vec<usize> {
        let tables = levels.into_iter().map(|level| &self.levels[q][level]);
        let blocks = tables.flat_map(|table| table.block_at.iter().flatten());
        blocks.copied().collect()
    }

    /// "up to j waiting blocks are taken, longest first, while the partition
    /// stores fewer than 2^(L−1)", those taken before among them.
    pub fn chosen(&self, q: usize) -> Vec<usize> {
        let stored = match self.mistake {
            Mistake::OnlySourcesCounted => self.sourced(q).len(),
            _ => self.stored(q).len(),
        };
        let (room, most) = (self.shape.capacity().saturating_sub(stored), self.run(q));
        let most = match self.mistake {
            Mistake::FullPartitionTakesBlock => most,
            Mistake::RoomAskedOnce if room > 0 => most,
            Mistake::TakesOne => room.min(1),
            _ => room.min(most),
        };
        let age = |block: usize| match self.place[block] {
            Place::Waiting(age) if self.partition[block] == q => Some((age, block)),
            _ => None,
        };
        let mut waiting: Vec<(u64, usize)> = (0..self.shape.blocks).filter_map(age).collect();
        waiting.sort();
        waiting.iter().take(most).map(|(_, block)| *block).collect()
    }

    /// The front job's last write has completed: "at its end the counter grows
    /// by j .. and all j leave the queue". The others keep their order.
    pub fn end_job(&mut self) {
        let Some(q) = self.queue.front().copied() else {
            return;
        };
        let mut leaving = match self.mistake {
            Mistake::OnlyFrontLeaves => 1,
            _ => self.run(q),
        };
        self.counter[q] = match self.mistake {
            Mistake::FullCounterGrows if self.is_full(q) => 0,
            _ => self.counter_after(q),
        };
        self.queue.retain(|job| {
            let leaves = *job == q && leaving > 0;
            leaving -= usize::from(leaves);
            !leaves
        });
        self.begun = 0;
        self.writing = None;
    }
}
