//! The fields that tell a state, and the state that fields tell. What a form
//! leaves out is zeros in a loaded state: the orders and marks of levels that
//! are not filled, and the contents of blocks that do not wait.

use super::{Form, Layout, Record, Spot, Written};
use crate::mistakes::Mistake;
use crate::state::{Level, Place, State};
use std::collections::VecDeque;

/// A permutation turned round: the item of each slot.
fn inverse(order: &[usize]) -> Vec<usize> {
    let mut items = vec![0; order.len()];
    for (item, slot) in order.iter().enumerate() {
        items[*slot] = item;
    }
    items
}

/// An order as the form has it, and as it is taken from there.
fn order(order: &[usize], mistake: Mistake) -> Vec<usize> {
    match mistake {
        Mistake::OrderBySlot => inverse(order),
        _ => order.to_vec(),
    }
}

/// What marks a slot that has been read.
pub(super) fn mark_of_read(mistake: Mistake) -> usize {
    usize::from(mistake != Mistake::MarksTurned)
}

/// The age of a record, of so many, by how many blocks have waited longer, and
/// back.
fn age(rank: usize, records: usize, mistake: Mistake) -> usize {
    match mistake {
        Mistake::AgesReversed => (records - 1).abs_diff(rank),
        _ => rank,
    }
}

impl State {
    /// The fields that tell this state, if it is at rest.
    pub fn form(&self) -> Form {
        Form {
            number: Layout::of(&self.shape).number,
            shape: self.shape,
            counters: self.counter.clone(),
            queue: self.queue.iter().copied().collect(),
            blocks: (0..self.shape.blocks).map(|b| self.spot(b)).collect(),
            levels: self.written(),
            records: self.records(),
        }
    }

    fn spot(&self, block: usize) -> (usize, Spot) {
        let spot = match self.place[block] {
            Place::Nowhere => Spot::Nowhere,
            Place::Waiting(_) => Spot::Waiting,
            Place::Stored { level, item } => {
                let levels = &self.levels[self.partition[block]];
                let slot = levels[level].slot_of[item];
                Spot::Slot { level, slot }
            }
        };
        (self.partition[block], spot)
    }

    fn written(&self) -> Vec<Written> {
        let levels = |p: usize| (0..self.shape.levels).map(move |level| (p, level));
        let all = (0..self.shape.partitions).flat_map(levels);
        let filled = all.filter(|(p, level)| self.filled(*p, *level));
        let of_read = mark_of_read(self.mistake);
        let mark = |read: &bool| if *read { of_read } else { 1 - of_read };
        let written = |(partition, level): (usize, usize)| Written {
            partition,
            level,
            order: order(&self.levels[partition][level].slot_of, self.mistake),
            marks: { self.levels[partition][level].read.iter() }
                .map(mark)
                .collect(),
        };
        filled.map(written).collect()
    }

    /// The records go longest waiting first, which this alone decides.
    fn records(&self) -> Vec<Record> {
        let waiting = |block: usize| match self.place[block] {
            Place::Waiting(age) => Some((age, block)),
            _ => None,
        };
        let mut blocks: Vec<_> = (0..self.shape.blocks).filter_map(waiting).collect();
        blocks.sort();
        let records = blocks.iter().enumerate();
        let record = |(rank, (_, block)): (usize, &(u64, usize))| Record {
            block: *block,
            age: age(rank, blocks.len(), self.mistake),
            contents: self.contents[*block].clone(),
        };
        records.map(record).collect()
    }
}

impl Form {
    /// The state that these fields tell.
    pub fn state(&self, mistake: Mistake) -> State {
        let mut state = State::fresh(self.shape, mistake, Vec::new());
        state.partition = self.blocks.iter().map(|(p, _)| *p).collect();
        state.counter = self.counters.clone();
        state.queue = self.jobs(mistake);
        if let (Mistake::LoadBegins, Some(q)) = (mistake, state.queue.front().copied()) {
            state.begin(q);
        }
        self.bring_levels(&mut state);
        for (block, (_, spot)) in self.blocks.iter().enumerate() {
            state.put(block, *spot);
        }
        self.bring_records(&mut state);
        state
    }

    fn bring_levels(&self, state: &mut State) {
        state.levels.iter_mut().flatten().for_each(Level::leave_out);
        for written in &self.levels {
            let level = &mut state.levels[written.partition][written.level];
            written.bring(level, state.mistake);
        }
    }

    fn bring_records(&self, state: &mut State) {
        for record in &self.records {
            state.recall(record, self.records.len());
        }
        state.age = self.records.len() as u64;
    }

    fn jobs(&self, mistake: Mistake) -> VecDeque<usize> {
        let waits = |q: &usize| self.blocks.contains(&(*q, Spot::Waiting));
        let mut jobs = self.queue.clone();
        if mistake == Mistake::LoadPrefersWaiting {
            jobs.sort_by_key(|q| !waits(q));
        }
        jobs.into()
    }
}

impl Written {
    fn bring(&self, level: &mut Level, mistake: Mistake) {
        let of_read = mark_of_read(mistake);
        let was_read = |mark: &usize| (*mark != 0) == (of_read == 1);
        level.slot_of = order(&self.order, mistake);
        level.drawn = true;
        if mistake != Mistake::LoadClearsMarks {
            level.read = self.marks.iter().map(was_read).collect();
        }
    }
}

impl Level {
    /// Zeros, as for every level that a form does not have.
    fn leave_out(&mut self) {
        self.slot_of.fill(0);
    }
}

impl State {
    /// Puts a block in its place; of the cache, what is there is told later.
    fn put(&mut self, block: usize, spot: Spot) {
        self.place[block] = match spot {
            Spot::Nowhere => Place::Nowhere,
            Spot::Waiting => Place::Waiting(0),
            Spot::Slot { level, slot } => {
                let table = &mut self.levels[self.partition[block]][level];
                table.block_at[slot] = Some(block);
                let item = table.slot_of.iter().position(|s| *s == slot);
                let item = item.expect("an order has all slots");
                Place::Stored { level, item }
            }
        };
    }

    fn recall(&mut self, record: &Record, records: usize) {
        let rank = age(record.age, records, self.mistake);
        self.place[record.block] = Place::Waiting(rank as u64);
        if self.mistake != Mistake::ContentsDropped || rank > 0 {
            self.contents[record.block] = record.contents.clone();
        }
    }
}
