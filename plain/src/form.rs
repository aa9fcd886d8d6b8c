//! The saved form of a client (document 02, P5). A state at rest is told by
//! the fields of a `Form`, these are written one behind the other as a payload,
//! and the payload is cut into blocks that end with a sum. Loading goes back
//! the same way and asks whether the fields are those of a store.

pub mod bad;
pub mod broken;
mod fields;
mod levels;
mod read;
mod rules;
pub mod sums;
mod write;

pub use rules::Rule;

use crate::shape::Shape;

/// The bytes of a block, and those of them that are before its sum.
pub const BLOCK: usize = 512;
pub const BODY: usize = 508;

/// The bytes of a place that is no level.
const NOWHERE: usize = 255;
const WAITING: usize = 254;

/// The most jobs of a queue.
pub const JOBS: usize = 64;

/// What a form number says of how a form is written.
#[derive(Clone, Copy, Debug, PartialEq, Eq)]
pub struct Layout {
    pub number: usize,
    /// The bytes of a slot.
    pub slot: usize,
}

/// In form 1 the slots of the largest level just fit into a byte.
pub const FORM_1: Layout = Layout { number: 1, slot: 1 };

impl Layout {
    /// How a store of this shape is saved.
    pub fn of(_: &Shape) -> Layout {
        FORM_1
    }

    /// How a form of this number is read, whether or not its shape has it.
    pub fn numbered(_: usize) -> Layout {
        FORM_1
    }
}

/// The fields of a form, in its order.
#[derive(Clone, Debug, PartialEq, Eq)]
pub struct Form {
    pub number: usize,
    pub shape: Shape,
    pub counters: Vec<usize>,
    /// Front to back.
    pub queue: Vec<usize>,
    /// Each block's partition and place.
    pub blocks: Vec<(usize, Spot)>,
    /// The filled levels, partitions and then levels upward.
    pub levels: Vec<Written>,
    /// The waiting blocks, in any order.
    pub records: Vec<Record>,
}

/// The place of a block, which a form names by its slot.
#[derive(Clone, Copy, Debug, PartialEq, Eq)]
pub enum Spot {
    Nowhere,
    Waiting,
    Slot { level: usize, slot: usize },
}

/// A filled level. Which one it is follows from the counters.
#[derive(Clone, Debug, PartialEq, Eq)]
pub struct Written {
    pub partition: usize,
    pub level: usize,
    /// The slot of each item, as numbered when the level was written.
    pub order: Vec<usize>,
    /// For each slot, 1 if it has been read.
    pub marks: Vec<usize>,
}

#[derive(Clone, Debug, PartialEq, Eq)]
pub struct Record {
    pub block: usize,
    /// 0 for the block that has waited longest.
    pub age: usize,
    pub contents: Vec<u8>,
}

impl Form {
    /// Where a filled level is among those of the form.
    pub fn written(&self, partition: usize, level: usize) -> Option<usize> {
        let here = |w: &Written| (w.partition, w.level) == (partition, level);
        self.levels.iter().position(here)
    }

    /// The blocks whose place is this level.
    pub fn blocks_in(&self, partition: usize, level: usize) -> Vec<usize> {
        let inside = |block: &usize| {
            let (p, spot) = self.blocks[*block];
            p == partition && matches!(spot, Spot::Slot { level: l, .. } if l == level)
        };
        (0..self.blocks.len()).filter(inside).collect()
    }

    /// The blocks whose place is the cache.
    pub fn waiting(&self) -> usize {
        let waits = |(_, spot): &&(usize, Spot)| *spot == Spot::Waiting;
        self.blocks.iter().filter(waits).count()
    }
}

/// The bytes of the longest form of a shape: 64 jobs are queued, all blocks
/// wait and all levels are filled. E has no part in it.
pub fn longest(shape: &Shape) -> usize {
    let Shape {
        blocks: n,
        partitions: p,
        levels: l,
        bytes: b,
        ..
    } = *shape;
    let slot = Layout::of(shape).slot;
    let queue = 2 + 2 * JOBS;
    let levels = p * ((2 << l) - 2) * (slot + 1);
    let payload = 1 + 12 + 2 * p + queue + (2 + 1) * n + levels + (4 + b) * n;
    payload.div_ceil(BODY) * BLOCK
}
