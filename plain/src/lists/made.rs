//! Pairs of lists that are made for something, each along one path of
//! commands: only these are completed, so that with other tapes little is
//! sent. The words lent suffice for the path and seldom for more.

use super::{Builder, Pair, builder};
use crate::calls::Ask;
use crate::shape::Shape;
use crate::state::{Command, READ, WRITE};

const TWO_BLOCKS: Shape = Shape::new(2, 2, 2, 1, 2, 1);
const THREE_BLOCKS: Shape = Shape::new(3, 2, 2, 1, 3, 1);

/// At the last request both levels of partition 1 are filled, block 0 in the
/// upper and block 1 in the lower one. A collect comes after the first read.
pub fn layered(width: u32) -> Pair {
    let mut builder = Builder::opened(TWO_BLOCKS, width);
    builder.serve(0);
    builder.commands(3, WRITE, [1, 1], &[0, 1, 2, 3]);
    builder.serve(1);
    builder.commands(1, WRITE, [0, 0], &[0, 1]);
    builder.commands(1, WRITE, [1, 0], &[0, 1]);
    builder.read([0, 1]);
    builder.any_read([1, 0], 2);
    builder.collect();
    builder.pair()
}

/// At the last request level 1 of partition 0 holds blocks 0 and 1. The one
/// list then reads the slot of its item 0, the other that of its item 2, a
/// dummy. The order is drawn below 4, 3 and 2 from at most four words.
pub fn two_stored(width: u32) -> Pair {
    let mut builder = Builder::opened(THREE_BLOCKS, width);
    builder.serve(0);
    builder.serve(1);
    builder.commands(4, WRITE, [0, 1], &[0, 1, 2, 3]);
    builder.read([0, 2]);
    builder.turn(0);
    builder.pair()
}

/// This tells of words that were lent to a turn answered 3 and are lent again.
/// Words have two bits: a turn that draws an order of four slots for two jobs
/// and is lent four words is answered 3 exactly if the second and the third are
/// 3. Lent again to two requests, for block 1 and then for block 0, they add a
/// job to the two and make block 0's next partition 1. One list asks for it
/// again, the other for block 1.
pub fn lent_again() -> Pair {
    let mut builder = Builder::opened(TWO_BLOCKS, 2);
    builder.serve(0);
    builder.turn(4);
    builder.serve(1);
    builder.read([0, 0]);
    builder.commands(4, WRITE, [1, 1], &[0, 1, 2, 3]);
    builder.commands(0, WRITE, [1, 0], &[0, 1]);
    builder.collect();
    builder.read([0, 1]);
    builder.turn(0);
    builder.pair()
}

/// This tells of words that were drawn from and are lent again because words
/// passed over did not count as taken. If one was passed over, then the word
/// of the order's last draw, which decides between the slots of items 0 and 1,
/// makes block 1's next partition. The slot of item 0 is shown, and then one
/// list asks for block 1 again, the other for block 0.
pub fn drawn_again() -> Pair {
    let mut builder = Builder::opened(TWO_BLOCKS, 2);
    builder.serve(0);
    builder.turn(4);
    builder.serve(1);
    builder.complete(WRITE, [1, 1], 0);
    builder.commands(0, WRITE, [1, 1], &[1, 2, 3]);
    builder.commands(1, WRITE, [0, 0], &[0, 1]);
    builder.commands(1, WRITE, [1, 0], &[0, 1]);
    builder.read([0, 0]);
    builder.any_read([1, 0], 2);
    builder.any_read([1, 1], 4);
    builder.collect();
    builder.read([1, 0]);
    builder.turn(0);
    builder.pair()
}

impl Builder {
    pub(super) fn opened(shape: Shape, width: u32) -> Builder {
        let mut builder = builder(shape, width, 0);
        builder.same(Ask::Open(shape), shape.blocks, 0);
        builder
    }

    /// A request to read, lent the words that it takes.
    pub(super) fn read(&mut self, blocks: [usize; 2]) {
        let asks = blocks.map(|block| Ask::Request {
            kind: READ,
            block,
            contents: Vec::new(),
        });
        self.put(asks, self.shape.needed(), 2, 0);
    }

    pub(super) fn collect(&mut self) {
        self.same(Ask::Collect, 0, self.shape.bytes);
    }

    /// The same request in both lists, collected at once.
    pub(super) fn serve(&mut self, block: usize) {
        self.read([block; 2]);
        self.collect();
    }

    pub(super) fn turn(&mut self, words: usize) {
        self.same(Ask::Turn, words, self.shape.bytes);
    }

    pub(super) fn complete(&mut self, kind: usize, [partition, level]: [usize; 2], slot: usize) {
        let command = Command {
            kind,
            partition,
            level,
            slot,
        };
        self.completion(command, self.shape.bytes * (2 - kind));
    }

    /// Turns, each lent so many words, with completions of these commands.
    pub(super) fn commands(
        &mut self,
        words: usize,
        kind: usize,
        level: [usize; 2],
        slots: &[usize],
    ) {
        for slot in slots {
            self.turn(words);
            self.complete(kind, level, *slot);
        }
    }

    /// A turn, and completions of a read of each of so many slots.
    pub(super) fn any_read(&mut self, level: [usize; 2], slots: usize) {
        self.turn(0);
        for slot in 0..slots {
            self.complete(READ, level, slot);
        }
    }
}
