//! Pairs of lists made for look-ups while a partition is rebuilt (document 02,
//! P4). One list asks for a block that is stored there, the other for one that
//! is not.

use super::{Builder, Pair};
use crate::shape::Shape;
use crate::state::{READ, WRITE};

/// With one partition the words drawn decide nothing but orders.
const ONE_PARTITION: Shape = Shape::new(2, 1, 2, 1, 2, 2);
const TWO_PARTITIONS: Shape = Shape::new(2, 2, 2, 1, 2, 1);
/// The only level is filled once a job has run, so that jobs run alone.
const ONE_LEVEL: Shape = Shape::new(2, 2, 1, 1, 2, 2);

/// Block 0 has been stored in level 1 by two jobs together, read from there,
/// and stored in level 0 by the first of the next two. The second has read
/// nothing of both levels, of which level 1 has three slots unread, when block 0
/// is asked for, or block 1, which is nowhere. The block asked for is asked for
/// again beside the next rebuild of both levels; level 1 then holds block 0
/// alone, or both.
pub fn source_unread(width: u32) -> Pair {
    let mut builder = Builder::opened(ONE_PARTITION, width);
    builder.serve(0);
    builder.commands(3, WRITE, [0, 1], &[0, 1, 2, 3]);
    builder.read([0, 0]);
    builder.any_read([0, 1], 4);
    builder.collect();
    builder.commands(1, WRITE, [0, 0], &[0, 1]);
    for _ in 0..2 {
        builder.read([0, 1]);
        builder.any_read([0, 0], 2);
        builder.any_read([0, 1], 4);
        builder.collect();
        builder.any_read([0, 0], 2);
        builder.any_read([0, 1], 4);
        builder.any_read([0, 1], 4);
        builder.commands(3, WRITE, [0, 1], &[0, 1, 2, 3]);
        builder.commands(1, WRITE, [0, 0], &[0, 1]);
    }
    builder.pair()
}

/// Block 0 has been stored by the first of two jobs for partition 0.
fn stored(width: u32) -> Builder {
    let mut builder = Builder::opened(ONE_LEVEL, width);
    builder.serve(0);
    builder.commands(1, WRITE, [0, 0], &[0, 1]);
    builder
}

/// The job has read slot 0, which may be block 0's, and this read completes
/// last. A collect comes before that, and a turn before the collect.
pub fn source_read(width: u32) -> Pair {
    let mut builder = stored(width);
    builder.turn(0);
    builder.read([0, 1]);
    builder.turn(0);
    builder.complete(READ, [0, 0], 1);
    builder.collect();
    builder.complete(READ, [0, 0], 0);
    builder.turn(1);
    builder.collect();
    builder.commands(1, WRITE, [0, 0], &[0, 1]);
    builder.pair()
}

/// The job has read both slots, and the read of slot 0 is outstanding.
pub fn source_spent(width: u32) -> Pair {
    let mut builder = stored(width);
    builder.turn(0);
    builder.turn(0);
    builder.complete(READ, [0, 0], 1);
    builder.read([0, 1]);
    builder.turn(1);
    builder.collect();
    builder.complete(READ, [0, 0], 0);
    builder.collect();
    builder.commands(1, WRITE, [0, 0], &[0, 1]);
    builder.pair()
}

/// Level 1 of partition 1 holds block 0 and has been read once when its next
/// job, which reads no level, is at the front. Block 0 is asked for, or block
/// 1, which waits; that is the last read the level can spare.
pub fn above_sources(width: u32) -> Pair {
    let mut builder = Builder::opened(TWO_PARTITIONS, width);
    builder.serve(0);
    builder.commands(3, WRITE, [1, 1], &[0, 1, 2, 3]);
    builder.read([1, 1]);
    builder.any_read([1, 1], 4);
    builder.collect();
    builder.read([0, 1]);
    builder.any_read([1, 1], 4);
    builder.collect();
    builder.commands(1, WRITE, [1, 0], &[0, 1]);
    builder.pair()
}
