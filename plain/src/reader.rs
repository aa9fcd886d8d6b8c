//! The partition reader of document 001, Figure 6 (document 02, P6): the reads
//! for a block, in that text's order, all from the state in which its request
//! is released. To cache in a block is to read its slot. A level is marked for
//! shuffling, or being shuffled, if it is a source of the front job.
//!
//! The turn chooses one read at a time (state.rs, beside.rs). This shares no
//! choice with it, so that the two can be compared.

use crate::state::{Place, State};

/// What a level's state is as ReadPartition, 2) tells it.
#[derive(Clone, Copy, Debug, PartialEq, Eq)]
pub enum Condition {
    /// "The level is empty."
    Empty,
    /// "The level is not marked for shuffling."
    Unmarked,
    /// "The level is marked for shuffling but all blocks have been cached in."
    AllRead,
    /// It is marked and has an unread slot.
    SomeUnread,
}

impl Condition {
    pub fn is_marked(self) -> bool {
        matches!(self, Condition::AllRead | Condition::SomeUnread)
    }
}

/// ReadPartition, 1): the level where the block resides. "If .. blockid is not
/// found in partition p*", it is nowhere or waits in the cache, and there is
/// none.
pub fn level_of(state: &State, block: usize) -> Option<usize> {
    match state.place[block] {
        Place::Stored { level, .. } => Some(level),
        Place::Nowhere | Place::Waiting(_) => None,
    }
}

/// Whether the front job shuffles the levels up to this one: the counter ends
/// with other bits from there on once its jobs have run (document 02, P7), or
/// all levels are filled.
fn is_shuffled(state: &State, partition: usize, level: usize) -> bool {
    let counter = state.counter[partition];
    let left = (1 << state.shape.levels) - 1 - counter;
    let queued = state.queue.iter().filter(|q| **q == partition);
    let jobs = match state.begun {
        0 => left.min(queued.count()),
        begun => begun,
    };
    let at_front = state.queue.front() == Some(&partition);
    at_front && (left == 0 || (counter + jobs) >> level != counter >> level)
}

/// ReadPartition, 2): the condition of a level. The sources of a job are the
/// filled levels that it shuffles.
pub fn condition(state: &State, partition: usize, level: usize) -> Condition {
    let filled = state.counter[partition] & 1 << level != 0;
    let marked = is_shuffled(state, partition, level);
    let unread = state.levels[partition][level].read.contains(&false);
    match (filled, marked, unread) {
        (false, _, _) => Condition::Empty,
        (true, false, _) => Condition::Unmarked,
        (true, true, false) => Condition::AllRead,
        (true, true, true) => Condition::SomeUnread,
    }
}

/// ReadFake: "if level l is not being shuffled", the next dummy, which is the
/// lowest-numbered unread one as the order is random; "if level l is being
/// shuffled, and level l has unread blocks", the lowest-numbered unread item,
/// before the job comes to it; else nothing.
pub fn read_fake(
    state: &State,
    partition: usize,
    level: usize,
    condition: Condition,
) -> Option<usize> {
    let table = &state.levels[partition][level];
    let mut unread = table.slot_of.iter().filter(|slot| !table.read[**slot]);
    let slot = match condition {
        Condition::Unmarked => unread.find(|slot| table.block_at[**slot].is_none()),
        Condition::SomeUnread => unread.next(),
        Condition::Empty | Condition::AllRead => None,
    };
    slot.copied()
}

/// ReadReal: "if blockid has been cached in", ReadFake, else the block's slot.
/// Only a job reads a slot ahead of the block's request, and so only in a
/// marked level.
pub fn read_real(state: &State, block: usize, level: usize, condition: Condition) -> Option<usize> {
    let partition = state.partition[block];
    let table = &state.levels[partition][level];
    match state.place[block] {
        Place::Stored { item, .. } => {
            let slot = table.slot_of[item];
            let cached_in = condition.is_marked() && table.read[slot];
            match cached_in {
                true => read_fake(state, partition, level, condition),
                false => Some(slot),
            }
        }
        Place::Nowhere | Place::Waiting(_) => None,
    }
}

/// ReadPartition: the level and the slot of each read. 3) "For each filled
/// level l .. if l = l*, ReadReal(l, blockid). Else, ReadFake(l)." A level of
/// which nothing is read has no entry.
pub fn read_partition(state: &State, block: usize) -> Vec<(usize, usize)> {
    let partition = state.partition[block];
    let star = level_of(state, block);
    let conditions: Vec<Condition> = (0..state.shape.levels)
        .map(|level| condition(state, partition, level))
        .collect();
    let levels = conditions.into_iter().enumerate();
    let filled = levels.filter(|(_, condition)| *condition != Condition::Empty);
    let reads = filled.filter_map(|(level, condition)| {
        let slot = match star == Some(level) {
            true => read_real(state, block, level, condition),
            false => read_fake(state, partition, level, condition),
        };
        Some((level, slot?))
    });
    reads.collect()
}
