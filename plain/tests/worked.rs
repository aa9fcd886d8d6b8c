//! Document 01's worked session and edges, some refusals, and the comparison
//! with a plain array.

#[path = "common/run.rs"]
mod run;

use plain::array;
use plain::calls::{Ask, Call, Draws, Store};
use plain::found::Found;
use plain::mistakes::Mistake;
use plain::shape::Shape;
use plain::state::{Command, READ};
use plain::turn::order;
use run::{Run, read, write};

/// One job as the host sees it, with the counter of its partition before and
/// after it.
struct Job {
    before: usize,
    after: usize,
    reads: Vec<Command>,
    writes: Vec<(Command, Vec<u8>)>,
}

impl Run {
    fn counter(&self, partition: usize) -> usize {
        self.state().counter[partition]
    }

    /// Runs the front job; its order takes words of zero.
    fn job(&mut self) -> Job {
        let (left, q) = (self.queued(), self.state().queue[0]);
        let before = self.counter(q);
        let (mut reads, mut writes) = (Vec::new(), Vec::new());
        while self.queued() == left {
            let outcome = self.t(&[0; 255]);
            assert_eq!((outcome.number, outcome.command.partition), (0, q));
            match outcome.command.kind {
                READ => reads.push(outcome.command),
                _ => writes.push((outcome.command, outcome.bytes)),
            }
        }
        Job {
            before,
            after: self.counter(q),
            reads,
            writes,
        }
    }
}

fn cmd(kind: usize, partition: usize, level: usize, slot: usize) -> Command {
    Command {
        kind,
        partition,
        level,
        slot,
    }
}

#[test]
fn worked_session() {
    let tape = [0, 0, 0, 1, 0, 0, 0];
    let mut run = Run::new(Shape::new(1, 1, 1, 1, 1, 1), &tape);
    assert_eq!(run.call(write(0, &[7]), &tape[1..]).taken, 2);
    let fresh = run.call(Ask::Collect, &tape[3..]);
    assert_eq!((fresh.bytes, fresh.found), (vec![0], Found::Nowhere));
    let mut left = 3;
    for (kind, slot) in [(2, 0), (2, 1), (1, 0), (1, 1), (2, 0), (2, 1)] {
        let outcome = run.t(&tape[left..]);
        assert_eq!(
            (outcome.number, outcome.command),
            (0, cmd(kind, 0, 0, slot))
        );
        left += outcome.taken;
    }
    assert_eq!(run.call(read(0), &tape[left..]).taken, 2);
    assert_eq!(left + 2, tape.len());
    assert_eq!(run.t(&[]).command, cmd(1, 0, 0, 1));
    let stored = run.call(Ask::Collect, &[]);
    assert_eq!((stored.bytes, stored.found), (vec![7], Found::Level(0)));
}

#[test]
fn edges_of_the_shape() {
    let cases = [
        (Shape::new(0, 1, 1, 1, 1, 1), 1),
        (Shape::new(1, 1, 1, 1, 1, 1), 0),
        (Shape::new(1, 3, 1, 1, 1, 1), 1),
        (Shape::new(1, 1, 8, 1, 1, 1), 0),
        (Shape::new(1, 1, 9, 1, 1, 1), 1),
        (Shape::new(8, 2, 3, 1, 8, 1), 0),
        (Shape::new(9, 2, 3, 1, 9, 1), 1),
        (Shape::new(4096, 64, 8, 512, 4096, 32), 0),
        (Shape::new(4096, 64, 8, 513, 4096, 32), 1),
        (Shape::new(1, 128, 1, 1, 1, 1), 1),
        (Shape::new(1, 1, 1, 1, 2, 1), 1),
        (Shape::new(1, 1, 1, 1, 1, 33), 1),
    ];
    for (shape, number) in cases {
        let mut store = Store::new(Mistake::None);
        let call = Call {
            ask: Ask::Open(shape),
            memory: 10_000_000,
            words: vec![0; shape.blocks],
            buffer: 0,
        };
        assert_eq!(store.call(&call).number, number, "{shape:?}");
        assert_eq!(store.state.is_some(), number == 0);
    }
}

#[test]
fn edges_of_the_counter() {
    // Each request queues a job for both partitions.
    let mut run = Run::new(Shape::new(1, 2, 3, 1, 1, 1), &[0]);
    for before in [0, 1, 2, 3, 4, 5, 6, 7, 4] {
        run.serve(read(0), [0, 1]);
        for q in 0..2 {
            let job = run.job();
            let target = (before as u32).trailing_ones().min(2) as usize;
            let slots: Vec<Command> = job.writes.iter().map(|(c, _)| *c).collect();
            let wanted: Vec<Command> = (0..2 << target).map(|s| cmd(2, q, target, s)).collect();
            assert_eq!(job.before, before);
            assert_eq!(slots, wanted);
            assert_eq!(job.after, if before == 7 { 4 } else { before + 1 });
            assert!(job.reads.is_sorted_by_key(|c| (c.level, c.slot)));
            let sources = (before as u32).trailing_ones() as usize;
            for level in 0..3 {
                assert_eq!(job.reads.iter().any(|c| c.level == level), level < sources);
            }
        }
    }
    let mut run = Run::new(Shape::new(1, 1, 1, 1, 1, 1), &[0]);
    run.serve(read(0), [0, 0]);
    assert_eq!(run.job().after, 1);
    assert_eq!(run.job().after, 1);
}

#[test]
fn edge_of_the_order() {
    let mut bounds = Vec::new();
    let slots = order(4, Mistake::None, &mut Draws::new(&[5, 1, 2], &mut bounds));
    assert_eq!(slots, [2, 0, 3, 1]);
    assert_eq!(bounds, [4, 3, 2]);
}

#[test]
fn edge_of_the_queue() {
    let words: Vec<u16> = (0..64).collect();
    let mut run = Run::new(Shape::new(64, 64, 1, 1, 64, 1), &words);
    for block in 0..31 {
        run.serve(read(block), [block as u16; 2]);
    }
    assert_eq!(run.queued(), 62);
    run.serve(read(31), [31, 31]);
    assert_eq!(run.queued(), 64);
    assert_eq!(run.number(read(32), &[0, 0]), 7);
    run.job();
    assert_eq!(run.number(read(32), &[0, 0]), 7);
    run.job();
    assert_eq!(run.number(read(32), &[0, 0]), 0);
}

#[test]
fn edge_of_the_cache() {
    let mut run = Run::new(Shape::new(2, 1, 2, 1, 1, 1), &[0, 0]);
    run.serve(read(0), [0, 0]);
    assert_eq!(run.number(read(1), &[0, 0]), 8);
    assert_eq!(run.number(read(0), &[0, 0]), 0);
}

#[test]
fn full_partition_takes_a_dummy() {
    let mut run = Run::new(Shape::new(2, 2, 1, 1, 2, 1), &[0, 1]);
    run.serve(write(0, &[7]), [0, 1]);
    run.job();
    run.job();
    run.serve(write(1, &[9]), [0, 0]);
    run.job();
    let job = run.job();
    let mut bytes: Vec<Vec<u8>> = job.writes.into_iter().map(|(_, bytes)| bytes).collect();
    bytes.sort();
    assert_eq!(bytes, [[0], [7]]);
    assert!(run.state().is_waiting(1));
}

#[test]
fn no_filled_level_sends_nothing() {
    let mut run = Run::new(Shape::new(1, 1, 2, 1, 1, 1), &[0]);
    assert_eq!(run.number(read(0), &[0, 0]), 0);
    assert_eq!(run.number(Ask::Turn, &[0; 3]), 10);
    assert_eq!(run.call(Ask::Collect, &[]).bytes, [0]);
}

#[test]
fn held_request_waits_for_its_partition() {
    let mut run = Run::new(Shape::new(2, 2, 2, 1, 2, 2), &[0, 1]);
    run.serve(write(0, &[5]), [0, 0]);
    assert_eq!(run.number(read(0), &[0, 0]), 0);
    assert_eq!(run.number(Ask::Collect, &[]), 14);
    let job = run.job();
    assert_eq!((job.before, job.after), (0, 2));
    // Both jobs ran together and put the block in level 1.
    assert_eq!(run.number(Ask::Collect, &[]), 14);
    assert_eq!(run.t(&[]).command.level, 1);
    assert_eq!(run.call(Ask::Collect, &[]).bytes, [5]);
}

#[test]
fn refusals() {
    let shape = Shape::new(1, 1, 2, 2, 1, 1);
    let mut run = Run::new(shape, &[0]);
    run.bytes = 1;
    let zeros = cmd(2, 0, 1, 0);
    let done = |command, length| Ask::Completion {
        command,
        bytes: vec![0; length],
    };
    let bad_kind = Ask::Request {
        kind: 0,
        block: 0,
        contents: Vec::new(),
    };
    assert_eq!(run.number(bad_kind, &[0, 0]), 2);
    assert_eq!(run.number(read(1), &[]), 5);
    assert_eq!(run.number(write(0, &[1]), &[]), 6);
    assert_eq!(run.number(read(0), &[0]), 3);
    assert_eq!(run.number(Ask::Collect, &[]), 13);
    assert_eq!(run.number(Ask::Turn, &[]), 10);
    assert_eq!(run.number(read(0), &[0, 0]), 0);
    assert_eq!(run.number(read(1), &[]), 4);
    assert_eq!(run.number(Ask::Collect, &[]), 15);
    run.bytes = 2;
    assert_eq!(run.number(Ask::Collect, &[]), 0);
    run.bytes = 1;
    assert_eq!(run.number(Ask::Turn, &[]), 15);
    run.bytes = 2;
    assert_eq!(run.number(Ask::Turn, &[0, 0]), 3);
    assert_eq!(run.number(Ask::Turn, &[0, 0, 0]), 0);
    assert_eq!(run.number(Ask::Turn, &[0]), 9);
    assert_eq!(run.number(done(cmd(0, 0, 0, 0), 0), &[]), 2);
    assert_eq!(run.number(done(cmd(1, 0, 0, 0), 9), &[]), 11);
    assert_eq!(run.number(done(zeros, 1), &[]), 12);
    assert_eq!(run.number(done(zeros, 0), &[]), 0);
    assert_eq!(run.number(done(zeros, 0), &[]), 11);
    assert_eq!(run.number(Ask::Open(shape), &[]), 3);
    assert_eq!(run.number(Ask::Collect, &[]), 2);
}

#[test]
fn plain_array() {
    let shapes = [
        Shape::new(1, 1, 1, 1, 1, 1),
        Shape::new(2, 2, 1, 1, 2, 1),
        Shape::new(4, 2, 2, 2, 4, 2),
        Shape::new(8, 4, 2, 1, 8, 3),
        Shape::new(16, 4, 3, 2, 16, 5),
        Shape::new(16, 4, 3, 2, 3, 5),
        Shape::new(5, 1, 4, 1, 2, 32),
        Shape::new(32, 8, 4, 3, 32, 8),
        Shape::new(64, 64, 8, 4, 64, 32),
    ];
    for (seed, shape) in shapes.into_iter().enumerate() {
        let (numbers, collected) = array::check(shape, Mistake::None, seed as u64, 30_000)
            .unwrap_or_else(|error| panic!("{shape:?}: {error}"));
        assert!(collected > 200, "{shape:?}: {collected} {numbers:?}");
        let contents = [Mistake::ZerosForever, Mistake::NewContentsHandedOut];
        for mistake in contents.into_iter().chain(Mistake::FOUND) {
            let told = array::check(shape, mistake, seed as u64, 200_000);
            assert!(told.is_err(), "{shape:?}: {mistake:?}");
        }
    }
}
