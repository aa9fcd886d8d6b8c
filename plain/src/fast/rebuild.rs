//! The middle of a job: the blocks are gathered, orders are drawn, and the
//! blocks get their new place.

use super::parts::{NONE, Partition};
use super::turn::below;
use super::{Answer, Store, ZEROS};

impl Store {
    #[inline(never)]
    pub(super) fn first_write(&mut self, words: &[u16], buffer: &mut [u8]) -> Answer {
        if buffer.len() != self.bytes {
            return Answer::refused(15);
        }
        let targets = self.job.targets;
        let Some(taken) = run_words(words, targets) else {
            return Answer::refused(3);
        };
        let chosen = self.chosen();
        // What the levels to be written hold together is what their bits say.
        if self.job.count - self.job.gone + chosen > targets as usize {
            return Answer::refused(2);
        }
        for _ in 0..chosen {
            self.take();
        }
        // A block that has left comes behind all others.
        self.gathered[..self.job.count].sort_unstable();
        self.job.count -= self.job.gone;
        self.partitions[self.job.partition].forget(self.job.end);
        self.draw_orders(&words[..taken]);
        self.job.begun = true;
        self.next_level();
        self.write(buffer, taken as u16)
    }

    /// How many waiting blocks the job takes: as many as there are jobs, if so
    /// many wait and there is room for them.
    fn chosen(&self) -> usize {
        let partition = &self.partitions[self.job.partition];
        let room = (1 << (self.levels - 1)) - usize::from(partition.stored);
        let most = room.min(self.job.jobs.into());
        let (mut block, mut count) = (partition.oldest, 0);
        while block != NONE && count < most {
            block = self.blocks[usize::from(block)].younger;
            count += 1;
        }
        count
    }

    /// Takes the block that has waited longest from the cache.
    fn take(&mut self) {
        let partition = &mut self.partitions[self.job.partition];
        let block = partition.oldest;
        partition.stored += 1;
        let room = self.room_of[usize::from(block)];
        self.unlink(usize::from(block));
        self.gathered[self.job.count] = u32::from(block) << 16 | u32::from(room);
        self.waited[self.job.taken] = room;
        self.job.count += 1;
        self.job.taken += 1;
    }

    /// Draws the orders of the levels to be written from the words that settle
    /// them, the highest first, and fills each with blocks before the next.
    fn draw_orders(&mut self, mut words: &[u16]) {
        let (mut targets, mut placed) = (self.job.targets, 0);
        while let Some(level) = targets.checked_ilog2() {
            words = &words[self.draw_order(level, words)..];
            let count = (self.job.count - placed).min(1 << level);
            self.place(level, placed, count);
            placed += count;
            targets ^= 1 << level;
        }
    }

    /// Draws a level's order. Hands back how many words that took.
    #[inline]
    fn draw_order(&mut self, level: u32, words: &[u16]) -> usize {
        let first = self.job.base + (2 << level);
        let slot_of = &mut self.slot_of[first..first + (2 << level)];
        for (slot, item) in slot_of.iter_mut().zip(0..) {
            *slot = item;
        }
        let inverse = &self.inverse[..=slot_of.len()];
        let mut i = slot_of.len() - 1;
        for (at, word) in words.iter().map(|word| u32::from(*word)).enumerate() {
            let m = i as u32 + 1;
            if is_passed(word, m) {
                continue;
            }
            let part = inverse[i + 1].wrapping_mul(word);
            let j = (u64::from(part) * u64::from(m)) >> 32;
            slot_of.swap(i, j as usize);
            i -= 1;
            if i == 0 {
                return at + 1;
            }
        }
        words.len()
    }

    /// Gives so many of the gathered blocks, from there on, their new place in
    /// a level.
    #[inline]
    fn place(&mut self, level: u32, from: usize, count: usize) {
        let (index, slots) = (2 << level, 2 << level);
        let first = self.job.base + index;
        let (start, bytes) = (self.start as u32, self.bytes as u32);
        let slot_of = &self.slot_of[first..first + slots];
        let block_at = &mut self.block_at[first..first + slots];
        let outgoing = &mut self.outgoing[index..index + slots];
        block_at.fill(self.blocks.len() as u16);
        outgoing.fill(start + u32::from(ZEROS) * bytes);
        for (entry, slot) in self.gathered[from..from + count].iter().zip(slot_of) {
            let (block, room) = (entry >> 16, entry & 0xFFFF);
            block_at[usize::from(*slot)] = block as u16;
            outgoing[usize::from(*slot)] = start + room * bytes;
            self.blocks[block as usize].place = first as u16 + slot;
        }
        let partition = &mut self.partitions[self.job.partition];
        partition.dummy[level as usize] = count as u16;
        match level {
            0..5 => partition.unread[0] |= below(slots) << index,
            _ => partition.unread[1 << (level - 5)..2 << (level - 5)].fill(!0),
        }
    }
}

impl Partition {
    /// No slot below this index is unread any longer.
    fn forget(&mut self, end: usize) {
        self.unread[0] &= !below(end);
        self.unread[1..(end / 64).max(1)].fill(0);
    }
}

/// How many words the orders of these levels take, if they settle them.
fn run_words(words: &[u16], mut levels: u32) -> Option<usize> {
    let mut taken = 0;
    while let Some(level) = levels.checked_ilog2() {
        taken += order_words(&words[taken..], 2 << level)?;
        levels ^= 1 << level;
    }
    Some(taken)
}

/// How many words an order of so many slots takes, if they settle it.
fn order_words(words: &[u16], slots: u32) -> Option<usize> {
    let mut left = words.iter();
    for m in (2..=slots).rev() {
        while is_passed(u32::from(*left.next()?), m) {}
    }
    Some(words.len() - left.len())
}

/// Whether a draw below m passes the word over. The limit is above 2^16 - m,
/// so that it is seldom computed.
#[inline]
fn is_passed(word: u32, m: u32) -> bool {
    word + m > 1 << 16 && word >= (1 << 16) - (1 << 16) % m
}
