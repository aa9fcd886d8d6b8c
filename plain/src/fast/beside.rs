//! Look-ups beside a job of their partition that has not drawn its order yet
//! (document 02, P4).
//!
//! Once released beside the job, a request sends its reads before the job goes
//! on, and what the job has read are the slots of its sources below its next
//! one. Until then a slot of the sources is unread if it is not below and no
//! request has read it.

use super::parts::WORDS;
use super::{Answer, GATHER, Store, WRITE};

/// In the list of gathered blocks, one that has left the job. It comes behind
/// all blocks.
const GONE: u32 = u32::MAX;

impl Store {
    /// Prepares the reads of a request that is released beside the front job.
    ///
    /// Document 02 holds a request back if a level that is no source was read
    /// 2^l times. This needs no question: each look-up has queued a job, and
    /// with those that run the jobs since such a level was written are fewer
    /// than 2^l.
    #[inline(never)]
    pub(super) fn go_beside(&mut self) {
        let next = self.job.next();
        let request = &mut self.request;
        request.end = self.job.end;
        // The sources below the job's next slot have no unread one, and those
        // above have: requests read at most half of a level.
        request.pending &= !0 << (next.ilog2() - 1);
        // Nothing but reads of the job can be outstanding.
        request.outstanding = self.sent.count;
        self.sent.await_all();
        if (1..next).contains(&request.own) {
            request.own = 0;
            let wanted = request.block as u32;
            let gathered = &self.gathered[..self.job.count];
            let read = gathered.iter().find(|entry| **entry >> 16 == wanted);
            self.room_of[request.block] = read.map_or(GATHER, |entry| *entry as u16);
        }
    }

    /// Sends the request's read of a source, which the job then passes over.
    #[inline(never)]
    pub(super) fn source_read(&mut self, level: usize) -> Answer {
        let (first, own) = (2 << level, self.request.own);
        let (index, room) = if own.wrapping_sub(first) < first {
            (own, self.own_room())
        } else {
            let index = self.lowest_unread(level);
            (index, self.gather(index))
        };
        if index / 64 == self.job.word {
            self.job.unread &= !(1 << (index % 64));
            self.next_word();
        }
        self.job.begun = true;
        self.send_request_read(level, index, room)
    }

    /// The index in the partition of the lowest-numbered unread item of a
    /// source that has one.
    fn lowest_unread(&self, level: usize) -> usize {
        let (first, next) = (2 << level, self.job.next());
        let unread = &self.partitions[self.job.partition].unread;
        let items = &self.slot_of[self.job.base + first..][..first];
        let mut indices = items.iter().map(|slot| first + usize::from(*slot));
        let free = |i: &usize| *i >= next && unread[i / 64 % WORDS] >> (i % 64) & 1 == 1;
        indices.find(free).unwrap_or(next)
    }

    /// Whether a room has what the front job has read.
    #[inline]
    pub(super) fn is_jobs(&self, room: u16) -> bool {
        usize::from(room.wrapping_sub(GATHER)) < self.job.count
    }

    /// The wanted block, which the job has read into this room, leaves the job.
    /// Hands back the room of its contents after the request.
    #[inline(never)]
    pub(super) fn leave_job(&mut self, room: u16) -> u16 {
        self.gathered[usize::from(room - GATHER)] = GONE;
        self.job.gone += 1;
        if self.request.kind == WRITE {
            return self.request.room;
        }
        let (from, own) = (self.at(room), self.own_room());
        let to = self.at(own);
        self.contents.copy_within(from..from + self.bytes, to);
        own
    }
}
