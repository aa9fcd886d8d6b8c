//! Jobs of one partition together (document 02, P7), in every state that is in
//! range: how many jobs the front one runs for, the levels that they read and
//! write, and what they change. That as many are queued, or may run together, is
//! asked of no state.

use super::{View, slots};
use plain::calls::{Draws, ask};
use plain::mistakes::Mistake;
use plain::state::WRITE;
use plain::turn::{order, order_bounds};

impl View {
    /// The jobs for q in the queue.
    pub fn jobs_for(&self, q: usize) -> usize {
        self.queue.iter().filter(|job| **job == q).count()
    }

    /// How far the counter of q can grow: not at all if all levels are filled.
    fn room(&self, q: usize) -> usize {
        (1 << self.shape.levels) - 1 - self.counter[q]
    }

    pub fn is_full(&self, q: usize) -> bool {
        self.room(q) == 0
    }

    /// Of so many jobs for q those that run together: as many as its counter can
    /// grow by, and one alone if all levels are filled.
    fn joins(&self, q: usize, jobs: usize) -> usize {
        match self.room(q) {
            0 => 1,
            room => room.min(jobs),
        }
    }

    /// For how many jobs the front one, for q, runs: of those it began with, and
    /// until then of those queued, as many as may run together.
    pub fn joined(&self, q: usize) -> usize {
        let jobs = match self.begun {
            0 => self.jobs_for(q),
            begun => begun,
        };
        self.joins(q, jobs)
    }

    /// The counter of q after the run at the front.
    fn grown(&self, q: usize) -> usize {
        match self.is_full(q) {
            true => self.shape.capacity(),
            false => self.counter[q] + self.joined(q),
        }
    }

    /// The highest level at which that differs from the counter now; the last one
    /// if all are filled.
    fn top(&self, q: usize) -> usize {
        let differs = |level: &usize| (self.counter[q] ^ self.grown(q)) >> level & 1 == 1;
        let last = self.shape.levels - 1;
        let top = (0..=last).rev().find(differs);
        top.filter(|_| !self.is_full(q)).unwrap_or(last)
    }

    /// The levels that the run at the front, for q, reads, lowest first.
    pub fn sources(&self, q: usize) -> Vec<usize> {
        let levels = 0..=self.top(q);
        levels.filter(|level| self.is_filled(q, *level)).collect()
    }

    /// Those that it writes, highest first.
    pub fn targets(&self, q: usize) -> Vec<usize> {
        let (levels, grown) = ((0..=self.top(q)).rev(), self.grown(q));
        levels.filter(|level| grown >> level & 1 == 1).collect()
    }

    /// Its writes: the level and the slot of each.
    pub fn writes(&self, q: usize) -> Vec<(usize, usize)> {
        let each = |level| (0..slots(level)).map(move |slot| (level, slot));
        self.targets(q).into_iter().flat_map(each).collect()
    }

    /// The next slot of its sources that it reads.
    pub fn unread(&self, q: usize) -> Option<(usize, usize)> {
        let each = |level| (0..slots(level)).map(move |slot| (level, slot));
        let mut all = self.sources(q).into_iter().flat_map(each);
        all.find(|(level, slot)| {
            let passed = slots(*level) - 2 + slot < self.cursor;
            !passed && self.is_unread(q, *level, *slot)
        })
    }

    /// The blocks that have waited longest for q, as many as jobs run, if q has
    /// room. One that is listed twice, as no call leaves it, is chosen twice.
    fn chosen(&self, q: usize) -> Vec<usize> {
        let stored = self.held_in(q, 0..self.shape.levels).count();
        let room = self.shape.capacity().saturating_sub(stored);
        let waiting = self.waiting.iter().copied();
        let waiting = waiting.filter(|b| self.partition[*b] == q);
        waiting.take(self.joined(q).min(room)).collect()
    }

    /// The first write of the run at the front, for q: the orders of all its
    /// levels are drawn, and the blocks go to their new places.
    pub fn rebuild(&mut self, q: usize, draws: &mut Draws) -> Result<(), u8> {
        let (targets, chosen) = (self.targets(q), self.chosen(q));
        let bounds = |level: &usize| order_bounds(slots(*level), Mistake::None);
        ask(draws.settle(targets.iter().flat_map(bounds)), 3)?;
        let sources = self.held_in(q, self.sources(q));
        let mut gathered: Vec<usize> = sources.chain(chosen.iter().copied()).collect();
        gathered.sort();
        gathered.dedup();
        let most = targets.iter().map(|level| 1 << level).sum();
        ask(gathered.len() <= most, 2)?;
        let (first, cells) = (self.cell(q, 0, 0), slots(self.top(q) + 1) - 2);
        self.begun = self.joined(q);
        for block in chosen {
            remove_first(&mut self.waiting, block);
        }
        self.holds[first..first + cells].fill(0);
        for level in targets {
            let more = gathered.split_off(gathered.len().min(1 << level));
            self.fill(q, level, &gathered, draws);
            gathered = more;
        }
        Ok(())
    }

    /// A level is written: it has these blocks, and an order of its own.
    fn fill(&mut self, q: usize, level: usize, blocks: &[usize], draws: &mut Draws) {
        let order = order(slots(level), Mistake::None, draws);
        for (item, slot) in order.into_iter().enumerate() {
            let (at, cell) = (self.cell(q, level, item), self.cell(q, level, slot));
            self.order[at] = slot;
            self.mark[cell] = 1;
            self.holds[cell] = blocks.get(item).map_or(0, |b| b + 1);
            if let Some(block) = blocks.get(item) {
                self.place[*block] = Some((level, slot));
            }
        }
    }

    /// The run at the front is done once all its writes are sent and none is
    /// outstanding: its jobs leave the queue, or as many as there are.
    pub fn finish_job(&mut self) {
        let Some(q) = self.queue.first().copied() else {
            return;
        };
        let writes = self.outstanding.iter().any(|c| c.kind == WRITE);
        if writes || self.sent != self.writes(q).len() {
            return;
        }
        let (grown, jobs) = (self.grown(q), self.joined(q));
        for _ in 0..jobs {
            remove_first(&mut self.queue, q);
        }
        self.counter[q] = grown;
        (self.begun, self.cursor, self.sent) = (0, 0, 0);
    }
}

/// The first of these is taken out, if there is one.
fn remove_first(list: &mut Vec<usize>, value: usize) {
    if let Some(at) = list.iter().position(|other| *other == value) {
        list.remove(at);
    }
}
