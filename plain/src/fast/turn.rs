//! The turn: a request's reads, and the reads and the writes of a rebuild.

use super::parts::{IDLE, Job, Phase, WORDS};
use super::{Answer, Command, GATHER, JUNK, READ, SLOTS, Store, WRITE};

impl Store {
    pub fn turn(&mut self, words: &[u16], buffer: &mut [u8]) -> Answer {
        if self.sent.count >= self.window {
            return Answer::refused(9);
        }
        if self.request.pending != 0 {
            return self.request_read();
        }
        match self.job.phase {
            Phase::Read => self.job_read(),
            Phase::Write if buffer.len() == self.bytes => self.write(buffer, 0),
            Phase::Write => Answer::refused(15),
            Phase::Gather if self.may_draw() => self.first_write(words, buffer),
            _ => Answer::refused(10),
        }
    }

    /// Whether all reads of the job have completed and no request is served
    /// beside it.
    #[inline]
    fn may_draw(&self) -> bool {
        self.sent.count == self.request.outstanding && self.request.end == 0
    }

    /// Sends the request's next read.
    #[inline(never)]
    fn request_read(&mut self) -> Answer {
        let request = &self.request;
        let level = request.pending.trailing_zeros() as usize;
        let first = 2 << level;
        if first < request.end {
            return self.source_read(level);
        }
        let (index, room) = if request.own.wrapping_sub(first) < first {
            (request.own, self.own_room())
        } else {
            let dummy = &mut self.partitions[request.partition].dummy[level];
            let item = usize::from(*dummy);
            if item >= first {
                return Answer::refused(2);
            }
            *dummy += 1;
            let base = request.partition << (self.levels + 1);
            (first + usize::from(self.slot_of[base + first + item]), JUNK)
        };
        self.send_request_read(level, index, room)
    }

    /// Gives the request's block a room.
    #[inline(always)]
    pub(super) fn own_room(&mut self) -> u16 {
        let room = self.free.pop().unwrap_or(JUNK);
        self.room_of[self.request.block] = room;
        room
    }

    /// Sends the request's read of a level's slot, whose index in the partition
    /// is given.
    #[inline(always)]
    pub(super) fn send_request_read(&mut self, level: usize, index: usize, room: u16) -> Answer {
        let request = &mut self.request;
        let unread = &mut self.partitions[request.partition].unread;
        unread[index / 64 % WORDS] &= !(1 << (index % 64));
        request.pending &= request.pending - 1;
        request.outstanding += 1;
        let command = Command {
            kind: READ,
            partition: request.partition as u8,
            level: level as u8,
            slot: (index - (2 << level)) as u8,
        };
        self.sent.push(command, self.at(room), true);
        Answer::sent(command, 0)
    }

    /// Makes the queue's front job ready to run with those of its partition
    /// that are queued. Until it has begun there may come more.
    pub(super) fn next_job(&mut self) {
        if self.queue.len == 0 {
            self.job = IDLE;
            return;
        }
        let partition = self.queue.front();
        let record = &self.partitions[partition];
        let (counter, full) = (record.counter, (1 << self.levels) - 1);
        let jobs = record.jobs.min(full - counter).max(1);
        // The sources are below the highest level that changes, or are all.
        let (after, above) = match counter == full {
            true => (1 << (self.levels - 1), self.levels),
            false => (
                counter + jobs,
                (counter ^ (counter + jobs)).ilog2() as usize,
            ),
        };
        let end = 2 << above;
        self.job = Job {
            phase: Phase::Read,
            partition,
            jobs,
            after,
            base: partition << (self.levels + 1),
            end,
            targets: u32::from(after) & (end as u32 - 1),
            unread: record.unread[0] & below(end),
            ..IDLE
        };
        self.next_word();
    }

    /// Goes on to the next word with an unread slot, if this one has none.
    #[inline]
    pub(super) fn next_word(&mut self) {
        let job = &mut self.job;
        let unread = &self.partitions[job.partition].unread;
        while job.unread == 0 {
            job.word += 1;
            if 64 * job.word >= job.end {
                job.phase = Phase::Gather;
                return;
            }
            job.unread = unread[job.word % WORDS];
        }
    }

    /// Sends the read of the job's next slot.
    #[inline]
    fn job_read(&mut self) -> Answer {
        let index = 64 * self.job.word + self.job.unread.trailing_zeros() as usize;
        let level = index.ilog2() - 1;
        let room = self.gather(index);
        let job = &mut self.job;
        let command = Command {
            kind: READ,
            partition: job.partition as u8,
            level: level as u8,
            slot: (index - (2 << level)) as u8,
        };
        job.unread &= job.unread - 1;
        if job.unread == 0 {
            self.next_word();
        }
        self.sent.push(command, self.at(room), false);
        if !self.job.begun {
            // A request goes on that only those jobs held that now run.
            self.job.begun = true;
            self.release();
        }
        Answer::sent(command, 0)
    }

    /// The room for what the read of a source's slot brings. A dummy's bytes go
    /// where nobody looks, which costs less than to foresee whose they are.
    #[inline(always)]
    pub(super) fn gather(&mut self, index: usize) -> u16 {
        let job = &mut self.job;
        let block = self.block_at[job.base + index];
        let dummy = usize::from(block) == self.blocks.len();
        let gather = GATHER + job.count as u16;
        self.gathered[job.count % SLOTS] = u32::from(block) << 16 | u32::from(gather);
        job.count += usize::from(!dummy);
        if dummy { JUNK } else { gather }
    }

    /// Sends the write of the job's next slot. The buffer has B bytes.
    #[inline(always)]
    pub(super) fn write(&mut self, buffer: &mut [u8], taken: u16) -> Answer {
        let job = &mut self.job;
        let command = job.write;
        job.write.slot = command.slot.wrapping_add(1);
        job.left -= 1;
        if job.left == 0 {
            self.next_level();
        }
        self.sent.push(command, 0, false);
        let index = (2 << command.level) + usize::from(command.slot);
        let at = self.outgoing[index % (2 * SLOTS)] as usize;
        buffer.copy_from_slice(&self.contents[at..at + self.bytes]);
        Answer::sent(command, taken)
    }

    /// Goes on to the highest of the levels yet to be written.
    #[inline]
    pub(super) fn next_level(&mut self) {
        let job = &mut self.job;
        let Some(level) = job.targets.checked_ilog2() else {
            job.phase = Phase::Written;
            return;
        };
        job.phase = Phase::Write;
        job.targets ^= 1 << level;
        job.left = 2 << level;
        job.write = Command {
            kind: WRITE,
            partition: job.partition as u8,
            level: level as u8,
            slot: 0,
        };
    }

    /// The front job's last write has completed.
    #[inline(never)]
    pub(super) fn end_job(&mut self) {
        let Job {
            partition,
            jobs,
            after,
            taken,
            ..
        } = self.job;
        let record = &mut self.partitions[partition];
        record.counter = after;
        record.jobs -= jobs;
        self.queue.leave(jobs);
        for index in 0..taken {
            self.give_back(self.waited[index]);
        }
        self.next_job();
        self.release();
    }
}

/// The bits of a partition's first word below this index.
#[inline]
pub(super) fn below(index: usize) -> u64 {
    if index < 64 { (1 << index) - 1 } else { !0 }
}
