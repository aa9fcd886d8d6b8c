//! Pairs of lists in which the client is saved and loaded (document 02, P5).
//! Each run loads the form that its own save just put into the buffer; if that
//! save was refused there is none, and the load is refused, too.

use super::{Builder, LONGEST, MOST_NUMBERS, Pair, builder};
use crate::calls::Ask;
use crate::form::longest;
use crate::shape::Shape;
use crate::state::{State, WRITE};

const TWO_PARTITIONS: Shape = Shape::new(2, 2, 2, 1, 2, 1);
const ONE_LEVEL: Shape = Shape::new(2, 2, 1, 1, 2, 1);

/// A random pair with saves and loads, most of them when the store is at rest
/// with most tapes.
pub fn reloading(shape: Shape, width: u32, seed: u64) -> Pair {
    let mut builder = builder(shape, width, seed);
    builder.same(Ask::Open(shape), shape.blocks, 0);
    while builder.estimate() < MOST_NUMBERS && builder.sides[0].len() < LONGEST {
        let at_rest = builder.share(State::is_at_rest);
        match builder.rng.below(100) {
            0..2 => builder.save(0),
            2..4 => builder.save(1),
            4..30 if at_rest > 90 => builder.reload(),
            _ => builder.step(),
        }
    }
    builder.pair()
}

/// Level 1 of partition 1 holds block 0. Block 1, which is nowhere, is asked
/// for; then the client is saved and loaded, and block 0 is asked for, or block
/// 1 again. If the load forgets which slot has been read, the one list reads the
/// block and the other the same dummy again.
pub fn reloaded_marks(width: u32) -> Pair {
    let mut builder = Builder::opened(TWO_PARTITIONS, width);
    builder.serve(0);
    builder.commands(3, WRITE, [1, 1], &[0, 1, 2, 3]);
    builder.reload();
    builder.read([1, 1]);
    builder.any_read([1, 1], 4);
    builder.collect();
    builder.reload();
    builder.read([0, 1]);
    builder.any_read([1, 1], 4);
    builder.pair()
}

/// Block 0 is asked for twice, or block 0 and then block 1, so that one block
/// waits or two. Then the client is saved and loaded. If the load brings jobs
/// forward for which a block waits, it shows in how often the first two jobs are
/// for one partition.
pub fn reloaded_queue(width: u32) -> Pair {
    let mut builder = Builder::opened(ONE_LEVEL, width);
    builder.serve(0);
    builder.read([0, 1]);
    builder.collect();
    builder.reload();
    builder.commands(1, WRITE, [0, 0], &[0, 1]);
    builder.turn(1);
    builder.pair()
}

impl Builder {
    /// A save with a buffer that is so many bytes short.
    fn save(&mut self, short: usize) {
        self.same(Ask::Save, 0, longest(&self.shape) - short);
    }

    pub(super) fn reload(&mut self) {
        self.save(0);
        self.same(Ask::Reload, 0, 0);
    }
}
