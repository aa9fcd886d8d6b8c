//! Look-ups while a partition is rebuilt (document 02, P4), in every state that
//! is in range: which jobs hold a request, what it reads of a level, and for
//! which commands it waits.

use super::{Request, View, slots};
use plain::state::Command;

impl View {
    /// Whether the only job for q is at the front and has not drawn its order.
    /// Those that have begun together count as one.
    pub fn is_beside(&self, q: usize) -> bool {
        let only = self.jobs_for(q) <= self.begun.max(1);
        self.queue.first() == Some(&q) && only && self.sent == 0
    }

    /// Whether the level is one of those that the front job, for q, gathers;
    /// also once it has drawn its orders.
    pub fn is_source(&self, q: usize, level: usize) -> bool {
        self.queue.first() == Some(&q) && self.sources(q).contains(&level)
    }

    pub fn is_filled(&self, q: usize, level: usize) -> bool {
        self.counter[q] >> level & 1 == 1
    }

    pub fn is_unread(&self, q: usize, level: usize, slot: usize) -> bool {
        self.mark[self.cell(q, level, slot)] == 1
    }

    /// How many slots of a level have been read since it was written.
    fn reads(&self, q: usize, level: usize) -> usize {
        let all = 0..slots(level);
        all.filter(|slot| !self.is_unread(q, level, *slot)).count()
    }

    /// Whether a filled level that is no source has been read 2^level times.
    pub fn is_worn(&self, q: usize) -> bool {
        (0..self.shape.levels).any(|level| {
            let read = self.is_filled(q, level) && !self.is_source(q, level);
            read && self.reads(q, level) >= 1 << level
        })
    }

    /// Whether a request for a block of q is held, unless it was released before.
    pub fn holds(&self, q: usize) -> bool {
        self.jobs_for(q) > 0 && (!self.is_beside(q) || self.is_worn(q))
    }

    /// Whether a request is held though nothing holds it, or released beside
    /// another job than one that is alone, at the front and undrawn, as no call
    /// leaves it. Once released, its own reads may wear a level.
    pub fn is_held_oddly(&self) -> bool {
        self.request.as_ref().is_some_and(|r| {
            let q = self.partition[r.block];
            match r.found {
                None => !self.holds(q),
                Some(_) => self.jobs_for(q) > 0 && !self.is_beside(q),
            }
        })
    }

    /// The request in hand, if it was released and its block is of q.
    pub fn released_for(&self, q: usize) -> Option<&Request> {
        let request = self.request.as_ref()?;
        let here = request.found.is_some() && self.partition[request.block] == q;
        here.then_some(request)
    }

    /// A request that is held until now and no longer: its block is looked up,
    /// and of what is outstanding it waits for all of its partition.
    pub fn release(&mut self) {
        let held = self.request.as_ref().filter(|r| r.found.is_none());
        let free = held.filter(|r| !self.holds(self.partition[r.block]));
        let found = free.map(|r| self.look_up(r.block));
        if let (Some(request), Some(_)) = (&mut self.request, found) {
            request.found = found;
            request.awaits = self.outstanding.len();
        }
    }

    /// Whether a request for a block of q reads this level: it is filled, and
    /// of a source some slot is unread.
    fn costs(&self, q: usize, level: usize) -> bool {
        let unread = || (0..slots(level)).any(|slot| self.is_unread(q, level, slot));
        self.is_filled(q, level) && (!self.is_source(q, level) || unread())
    }

    /// The first level to which the request has yet to send a read.
    pub fn level_left(&self, request: &Request) -> Option<usize> {
        let q = self.partition[request.block];
        (request.level..self.shape.levels).find(|level| self.costs(q, *level))
    }

    /// The slot that a request for this block reads of a level: of a source the
    /// block's own if it is unread, else that of the lowest-numbered unread item;
    /// of another level its own, else that of the lowest-numbered unread dummy.
    pub fn slot_read(&self, block: usize, level: usize) -> Option<usize> {
        let q = self.partition[block];
        let own = self.place[block].filter(|(there, _)| *there == level);
        let own = own.map(|(_, slot)| slot);
        let mut items = (0..slots(level)).map(|k| self.order[self.cell(q, level, k)]);
        let unread = |slot: &usize| self.is_unread(q, level, *slot);
        if self.is_source(q, level) {
            return own.filter(unread).or_else(|| items.find(unread));
        }
        let dummy = |slot: &usize| unread(slot) && self.holder(q, level, *slot).is_none();
        own.or_else(|| items.find(dummy))
    }

    /// The commands for which a request still waits.
    pub fn awaited(&self, request: &Request) -> impl Iterator<Item = &Command> {
        let q = self.partition[request.block];
        let first = self.outstanding.iter().take(request.awaits);
        first.filter(move |command| command.partition == q)
    }

    /// Whether the request is released, its reads are sent, and all that it
    /// waits for has completed.
    pub fn is_finished(&self, request: &Request) -> bool {
        let sent = request.found.is_some() && self.level_left(request).is_none();
        sent && self.awaited(request).next().is_none()
    }
}
