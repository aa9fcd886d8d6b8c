//! Request, completion and collect.

use super::parts::{Block, HELD, NONE, NOWHERE, Phase, Request, WAITING};
use super::{Answer, Command, READ, Store, WRITE, ZEROS};

/// The most jobs queued when a request is accepted.
const MOST_JOBS: usize = 62;

impl Store {
    pub fn request(&mut self, kind: u8, block: usize, contents: &[u8], words: &[u16]) -> Answer {
        match self.questions(kind, block, contents.len(), words.len()) {
            0 => {}
            number => return Answer::refused(number),
        }
        let mut room = ZEROS;
        if kind == WRITE {
            room = self.free.pop().unwrap_or(ZEROS);
            let at = self.at(room);
            self.contents[at..at + self.bytes].copy_from_slice(contents);
        }
        let mask = self.partitions.len() - 1;
        let partition = usize::from(self.blocks[block].partition);
        self.request = Request {
            kind,
            found: HELD,
            pending: 0,
            outstanding: 0,
            block,
            partition,
            next: usize::from(words[0]) & mask,
            evict: usize::from(words[1]) & mask,
            own: 0,
            end: 0,
            room,
        };
        self.release();
        Answer::sent(Command::default(), 2)
    }

    fn questions(&self, kind: u8, block: usize, length: usize, words: usize) -> u8 {
        if kind != READ && kind != WRITE {
            return 2;
        }
        if self.request.kind != 0 {
            return 4;
        }
        let Some(record) = self.blocks.get(block) else {
            return 5;
        };
        if length != if kind == WRITE { self.bytes } else { 0 } {
            return 6;
        }
        if self.queue.len > MOST_JOBS {
            return 7;
        }
        if self.waiting >= self.places && record.place != WAITING {
            return 8;
        }
        if words < 2 { 3 } else { 0 }
    }

    /// Lets a held request go if its partition has no job, or only one that
    /// is at the front and has not drawn; jobs that run together are one. This
    /// may become so at acceptance, when a job begins and when one ends, also
    /// one of another partition.
    #[inline(always)]
    pub(super) fn release(&mut self) {
        let Request {
            found, partition, ..
        } = self.request;
        if found != HELD {
            return;
        }
        let (jobs, job) = (self.partitions[partition].jobs, &self.job);
        if jobs == 0 {
            self.look_up();
        } else if job.partition == partition && jobs <= job.one() && !job.has_drawn() {
            self.look_up();
            self.go_beside();
        }
    }

    /// Looks the request's block up, which jobs may have moved before. In its
    /// partition, slot s of level l has index 2^(l+1) + s.
    #[inline]
    fn look_up(&mut self) {
        let request = &mut self.request;
        request.pending = u32::from(self.partitions[request.partition].counter);
        (request.found, request.own) = match self.blocks[request.block].place {
            NOWHERE => (0, 0),
            WAITING => (1, 0),
            place => {
                let index = place & ((2 << self.levels) - 1);
                (index.ilog2() as u8 + 1, usize::from(index))
            }
        };
    }

    pub fn completion(&mut self, command: Command, bytes: &[u8]) -> u8 {
        let Some(index) = self.sent.find(command) else {
            let known = matches!(command.kind, READ | WRITE);
            return if known { 11 } else { 2 };
        };
        if command.kind == READ {
            if bytes.len() != self.bytes {
                return 12;
            }
            let (at, awaited) = self.sent.remove(index);
            self.request.outstanding -= usize::from(awaited);
            self.contents[at..at + self.bytes].copy_from_slice(bytes);
        } else {
            if !bytes.is_empty() {
                return 12;
            }
            self.sent.remove(index);
            if self.job.phase == Phase::Written && self.sent.count == self.request.outstanding {
                self.end_job();
            }
        }
        0
    }

    pub fn collect(&mut self, answer: &mut [u8]) -> Answer {
        let request = self.request;
        if request.kind == 0 {
            return Answer::refused(13);
        }
        if request.found == HELD || request.pending != 0 || request.outstanding != 0 {
            return Answer::refused(14);
        }
        if answer.len() != self.bytes {
            return Answer::refused(15);
        }
        let room = self.room_of[request.block];
        let at = self.at(room);
        answer.copy_from_slice(&self.contents[at..at + self.bytes]);
        self.room_of[request.block] = self.kept(room);
        self.leave(request.block);
        self.wait(request.block, request.next);
        self.request = Request::default();
        for partition in [request.partition, request.evict] {
            self.partitions[partition].jobs += 1;
            self.queue.push(partition);
        }
        if !self.job.begun {
            self.next_job();
        }
        Answer::collected(request.found)
    }

    /// The room of the block's contents after its request, given the one of
    /// those before.
    #[inline]
    fn kept(&mut self, room: u16) -> u16 {
        if self.is_jobs(room) {
            return self.leave_job(room);
        }
        if self.request.kind == READ {
            return room;
        }
        self.give_back(room);
        self.request.room
    }

    pub(super) fn give_back(&mut self, room: u16) {
        if room != ZEROS {
            self.free.push(room);
        }
    }

    /// Takes a block from its place.
    fn leave(&mut self, block: usize) {
        let Block {
            place, partition, ..
        } = self.blocks[block];
        match place {
            NOWHERE => {}
            WAITING => self.unlink(block),
            _ => self.partitions[usize::from(partition)].stored -= 1,
        }
    }

    /// Takes a waiting block from its partition's list.
    pub(super) fn unlink(&mut self, block: usize) {
        let Block {
            partition,
            older,
            younger,
            ..
        } = self.blocks[block];
        let partition = &mut self.partitions[usize::from(partition)];
        match older {
            NONE => partition.oldest = younger,
            _ => self.blocks[usize::from(older)].younger = younger,
        }
        match younger {
            NONE => partition.youngest = older,
            _ => self.blocks[usize::from(younger)].older = older,
        }
        self.waiting -= 1;
    }

    /// Puts a block at the young end of a partition's list.
    fn wait(&mut self, block: usize, partition: usize) {
        let list = &mut self.partitions[partition];
        let older = list.youngest;
        list.youngest = block as u16;
        match older {
            NONE => list.oldest = block as u16,
            _ => self.blocks[usize::from(older)].younger = block as u16,
        }
        self.blocks[block] = Block {
            place: WAITING,
            partition: partition as u16,
            older,
            younger: NONE,
        };
        self.waiting += 1;
    }
}
