//! Pairs of lists made for jobs of one partition that run together (document
//! 02, P7).

use super::{Builder, Pair};
use crate::shape::Shape;
use crate::state::{READ, WRITE};

const TWO_BLOCKS: Shape = Shape::new(2, 2, 2, 1, 2, 1);
const THREE_BLOCKS: Shape = Shape::new(3, 2, 2, 1, 3, 1);
/// Two jobs bring the counter from 2 to 4: level 1 is a source, level 0 is not
/// filled.
const THREE_LEVELS: Shape = Shape::new(2, 1, 3, 1, 2, 2);

/// Three jobs for partition 0, one of them apart from the others, write its two
/// levels. Blocks 0 and 1 go into the upper one, of which the one list then
/// reads the slot of item 0, the other, which asks for a block that is nowhere,
/// that of item 2. Of the lower one both read item 0.
pub fn several_levels(width: u32) -> Pair {
    let mut builder = Builder::opened(THREE_BLOCKS, width);
    builder.serve(0);
    builder.serve(1);
    builder.commands(4, WRITE, [0, 1], &[0, 1, 2, 3]);
    builder.commands(0, WRITE, [0, 0], &[0, 1]);
    builder.read([0, 2]);
    builder.any_read([0, 0], 2);
    builder.any_read([0, 1], 4);
    builder.collect();
    builder.pair()
}

/// Block 0 is asked for twice, or block 0 and then block 1, so that one block
/// waits or two. If jobs are joined only if a block waits for their partition,
/// it shows in how often the first two jobs run together.
pub fn waiting_or_not(width: u32) -> Pair {
    let mut builder = Builder::opened(TWO_BLOCKS, width);
    builder.serve(0);
    builder.read([0, 1]);
    builder.collect();
    builder.commands(4, WRITE, [0, 1], &[0, 1, 2, 3]);
    builder.turn(1);
    builder.pair()
}

/// Level 1 holds block 0 and has been read once, for block 1, which waits. Two
/// jobs hold a request for either until they begin with a read of that level.
/// This read may be that of block 0's slot, and completes last.
pub fn released_by_run(width: u32) -> Pair {
    let mut builder = Builder::opened(THREE_LEVELS, width);
    builder.serve(0);
    builder.commands(3, WRITE, [0, 1], &[0, 1, 2, 3]);
    builder.read([1, 1]);
    builder.any_read([0, 1], 4);
    builder.collect();
    builder.read([0, 1]);
    builder.turn(0);
    builder.turn(0);
    for slot in [3, 2, 1] {
        builder.complete(READ, [0, 1], slot);
    }
    builder.collect();
    builder.complete(READ, [0, 1], 0);
    builder.collect();
    builder.any_read([0, 1], 4);
    builder.turn(3);
    builder.pair()
}
