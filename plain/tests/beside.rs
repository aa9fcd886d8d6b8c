//! Look-ups while a partition is rebuilt (document 02, P4), sentence by
//! sentence. The jobs here run alone; tests/together.rs has those that do not.

#[path = "common/run.rs"]
mod run;

use plain::calls::Ask;
use plain::found::Found;
use plain::shape::Shape;
use plain::state::{Command, READ, Request};
use run::{Run, read, write};

impl Run {
    /// Runs the front job to its end; its orders take these words, again and
    /// again.
    fn job(&mut self, words: &[u16]) {
        let left = self.queued();
        while self.queued() == left {
            assert_eq!(self.t(words).number, 0);
        }
    }

    /// A turn whose command stays outstanding.
    fn send(&mut self) -> [usize; 4] {
        let outcome = self.call(Ask::Turn, &[0; 7]);
        assert_eq!(outcome.number, 0);
        self.host.send(outcome.command, outcome.bytes);
        fields(outcome.command)
    }

    /// Completes a read that is outstanding.
    fn complete(&mut self, [level, slot]: [usize; 2]) {
        let wanted = |c: &Command| c.kind == READ && [c.level, c.slot] == [level, slot];
        let index = self.host.pending.iter().position(|(c, _)| wanted(c));
        let (command, bytes) = self.host.answer(index.expect("is outstanding"));
        self.host.done(command);
        assert_eq!(self.number(Ask::Completion { command, bytes }, &[]), 0);
    }

    fn request(&self) -> &Request {
        let request = self.state().request.as_ref();
        request.expect("a request is in hand")
    }

    /// Makes a request and says whether it is held.
    fn is_held(&mut self, ask: Ask, words: [u16; 2]) -> bool {
        assert_eq!(self.number(ask, &words), 0);
        self.request().is_held()
    }

    /// The number of a collect and, if it is accepted, what it tells.
    fn collect(&mut self) -> (u8, Vec<u8>, Found) {
        let outcome = self.call(Ask::Collect, &[]);
        (outcome.number, outcome.bytes, outcome.found)
    }
}

fn fields(command: Command) -> [usize; 4] {
    [command.kind, command.partition, command.level, command.slot]
}

const NOT_YET: (u8, Vec<u8>, Found) = (14, Vec::new(), Found::Nowhere);

/// Block 0 is stored in level 0 of partition 0, at this slot, and the only job
/// is for this partition: level 0 is its source. Block 1 is nowhere there. The
/// look-up of block 2 in partition 1 has queued the job.
fn stored_at(slot: u16) -> Run {
    let mut run = Run::new(Shape::new(3, 2, 2, 1, 3, 3), &[0, 0, 1]);
    run.serve(write(0, &[7]), [0, 1]);
    run.job(&[1 - slot]);
    run.job(&[1]);
    run.serve(read(2), [1, 0]);
    run.job(&[3, 2, 1]);
    assert_eq!((run.queued(), run.state().begun), (1, 0));
    assert_eq!((run.state().queue[0], run.state().counter[0]), (0, 1));
    run
}

/// Level 1 of partition 0 holds block 0 at slot 2 and was read once, for block
/// 1, which waits for partition 0 now. The front job for partition 0 has no
/// source, and it is the only one.
fn level_above() -> Run {
    let mut run = Run::new(Shape::new(2, 2, 2, 1, 2, 3), &[0, 0]);
    run.serve(write(0, &[7]), [0, 0]);
    run.job(&[5, 1, 2]);
    run.serve(write(1, &[9]), [0, 1]);
    assert_eq!(run.state().queue, [0, 1]);
    run
}

/// "If the only job for p is at the front of the queue ..., the request is no
/// longer held."
#[test]
fn the_only_job_at_the_front_holds_nothing() {
    assert!(!stored_at(0).is_held(read(0), [0, 0]));
    let mut run = Run::new(Shape::new(1, 1, 2, 1, 1, 1), &[0]);
    run.serve(write(0, &[7]), [0, 0]);
    // Two jobs, which begin with their draw, so it waits for their end.
    assert!(run.is_held(read(0), [0, 0]));
    for _ in 0..3 {
        assert_eq!(run.t(&[3, 2, 1]).number, 0);
        assert!(run.request().is_held());
    }
    assert_eq!(run.t(&[]).number, 0);
    assert!(!run.request().is_held());
}

/// The only job for partition 1 is behind one for partition 0.
#[test]
fn a_job_that_is_not_at_the_front_holds() {
    let mut run = Run::new(Shape::new(2, 2, 2, 1, 2, 1), &[0, 1]);
    run.serve(write(0, &[7]), [0, 1]);
    assert_eq!(run.state().queue, [0, 1]);
    assert!(run.is_held(read(1), [0, 0]));
    run.job(&[1]);
    assert_eq!(run.request().found, Some(Found::Nowhere));
}

/// "... and hasn't drawn its order": its reads may all be done.
#[test]
fn a_job_that_has_drawn_its_order_holds() {
    let mut run = stored_at(0);
    let words = [3, 2, 1];
    for _ in 0..2 {
        assert_eq!(run.t(&words).command.kind, READ);
    }
    let mut drawn = Run {
        store: run.store.clone(),
        host: run.host.clone(),
        bytes: 1,
    };
    assert!(!run.is_held(read(0), [0, 0]));
    assert_ne!(drawn.t(&words).command.kind, READ);
    assert!(drawn.is_held(read(0), [0, 0]));
    drawn.job(&words);
    assert_eq!(drawn.request().found, Some(Found::Level(1)));
}

/// "For a source level with unread slots it reads the block's slot if the
/// block is there unread, else the lowest-numbered unread item": block 0's
/// item, which is before the dummy's, also for block 1, which is nowhere.
#[test]
fn a_source_is_read_at_the_blocks_slot_or_the_lowest_item() {
    for slot in [0, 1] {
        for block in [0, 1] {
            let mut run = stored_at(slot);
            assert!(!run.is_held(read(block), [0, 0]));
            assert_eq!(run.send(), [1, 0, 0, usize::from(slot)]);
        }
    }
}

/// The job has read slot 0, so slot 1 is read, be it the block's or not.
#[test]
fn a_slot_that_the_job_has_read_is_not_read_again() {
    for slot in [0, 1] {
        for block in [0, 1] {
            let mut run = stored_at(slot);
            assert_eq!(fields(run.t(&[]).command), [1, 0, 0, 0]);
            assert!(!run.is_held(read(block), [0, 0]));
            assert_eq!(run.send(), [1, 0, 0, 1]);
            run.complete([0, 1]);
            let found = [Found::Level(0), Found::Nowhere][block];
            let contents = [vec![7], vec![0]][block].clone();
            assert_eq!(run.collect(), (0, contents, found));
        }
    }
}

/// "that slot counts as read for the job too, and begins it."
#[test]
fn the_read_is_the_jobs_first_command() {
    let mut run = stored_at(1);
    assert!(!run.is_held(read(0), [0, 0]));
    assert_eq!(run.state().begun, 0);
    assert_eq!(run.send(), [1, 0, 0, 1]);
    assert_eq!(run.state().begun, 1);
    // The job goes on with the other slot, and has nothing more to read.
    assert_eq!(run.send(), [1, 0, 0, 0]);
    assert_eq!(run.number(Ask::Turn, &[0; 7]), 10);
}

/// A read of a level that is no source is none of the job's commands.
#[test]
fn a_read_above_the_sources_does_not_begin_the_job() {
    let mut run = level_above();
    assert!(!run.is_held(read(0), [0, 0]));
    assert_eq!(run.send(), [1, 0, 1, 2]);
    assert_eq!(run.state().begun, 0);
}

/// "A source level with none unread costs nothing."
#[test]
fn a_source_with_none_unread_costs_nothing() {
    for block in [0, 1] {
        let mut run = stored_at(0);
        run.t(&[]);
        run.t(&[]);
        assert!(!run.is_held(read(block), [0, 0]));
        assert_eq!(run.collect().0, 0);
    }
}

/// "Other levels are read as before": the block's slot, or the slot of the
/// lowest-numbered unread dummy item. Items 0 to 3 are at slots 2, 0, 3 and 1;
/// item 0 is block 0, and item 1 was read.
#[test]
fn other_levels_are_read_as_before() {
    let mut run = level_above();
    assert!(!run.is_held(read(0), [0, 0]));
    assert_eq!(run.send(), [1, 0, 1, 2]);
    let mut run = level_above();
    assert!(!run.is_held(read(1), [0, 0]));
    assert_eq!(run.send(), [1, 0, 1, 3]);
    run.complete([1, 3]);
    assert_eq!(run.collect(), (0, vec![9], Found::Cache));
}

/// "but if one of them has been read 2^l times since it was written, the
/// request is held." Calls never leave such a state, so one is made up.
#[test]
fn a_level_that_is_read_too_often_holds() {
    let mut run = level_above();
    let state = run.store.state.as_mut().expect("is open");
    state.levels[0][1].read[1] = true;
    assert!(run.is_held(read(0), [0, 0]));
    assert_eq!(run.collect(), NOT_YET);
    // It is held while the job goes on, and then it is looked up.
    run.job(&[1]);
    assert_eq!(run.request().found, Some(Found::Level(1)));
}

/// "Once it ceases to be held it isn't held again": its own read is the second
/// of level 1.
#[test]
fn its_own_read_does_not_hold_it() {
    let mut run = level_above();
    assert!(!run.is_held(read(0), [0, 0]));
    run.send();
    assert_eq!(run.state().levels[0][1].reads(), 2);
    assert!(run.state().holds(0) && !run.request().is_held());
    run.complete([1, 2]);
    assert_eq!(run.collect(), (0, vec![7], Found::Level(1)));
}

/// "and the wanted block leaves the job", which gathers no block then: the
/// level that it writes has none. The block waits for partition 1.
#[test]
fn the_wanted_block_leaves_the_job() {
    let mut run = stored_at(0);
    assert_eq!(run.serve(read(0), [1, 1]).found, Found::Level(0));
    run.job(&[3, 2, 1]);
    assert_eq!(run.state().counter[0], 2);
    assert_eq!(run.state().stored(0), []);
    assert!(run.state().is_waiting(0));
}

/// It waits as any block, so the same job may choose it from the cache.
#[test]
fn the_same_job_may_take_it_from_the_cache() {
    let mut run = stored_at(0);
    run.serve(write(0, &[8]), [0, 0]);
    run.job(&[3, 2, 1]);
    assert_eq!(run.state().look_up(0), Found::Level(1));
    run.job(&[1]);
    assert_eq!(run.serve(read(0), [0, 0]).bytes, [8]);
}

/// "Such a request is finished only when every job read sent by that moment
/// has completed too, wherever the block was": at slot 0, which the job reads,
/// at slot 1, which the request reads, or nowhere.
#[test]
fn job_reads_sent_before_are_awaited() {
    for (slot, block) in [(0, 0), (1, 0), (0, 1), (1, 1)] {
        let mut run = stored_at(slot);
        assert_eq!(run.send(), [1, 0, 0, 0]);
        assert!(!run.is_held(read(block), [0, 0]));
        assert_eq!(run.send(), [1, 0, 0, 1]);
        assert_eq!(run.collect(), NOT_YET);
        run.complete([0, 1]);
        assert_eq!(run.collect(), NOT_YET);
        run.complete([0, 0]);
        assert_eq!(run.collect().1, [[7], [0]][block]);
    }
}

/// The same for a block that waits, at a source with none unread.
#[test]
fn job_reads_are_awaited_for_a_waiting_block() {
    let mut run = Run::new(Shape::new(1, 2, 2, 1, 1, 3), &[0]);
    run.serve(write(0, &[7]), [0, 1]);
    run.job(&[1]);
    run.job(&[1]);
    run.serve(read(0), [0, 1]);
    assert_eq!(run.send(), [1, 0, 0, 1]);
    assert!(!run.is_held(read(0), [0, 0]));
    assert_eq!(run.request().found, Some(Found::Cache));
    assert_eq!(run.collect(), NOT_YET);
    run.complete([0, 1]);
    assert_eq!(run.collect(), (0, vec![7], Found::Cache));
}

/// Those that the job sends later are not.
#[test]
fn job_reads_sent_later_are_not_awaited() {
    for slot in [0, 1] {
        let (own, other) = (usize::from(slot), usize::from(1 - slot));
        let mut run = stored_at(slot);
        assert!(!run.is_held(read(0), [0, 0]));
        assert_eq!(run.send(), [1, 0, 0, own]);
        assert_eq!(run.send(), [1, 0, 0, other]);
        run.complete([0, own]);
        assert_eq!(run.collect(), (0, vec![7], Found::Level(0)));
        assert_eq!(run.state().outstanding.len(), 1);
        // The job awaits it.
        assert_eq!(run.number(Ask::Turn, &[0; 7]), 10);
        run.complete([0, other]);
        assert_eq!(run.number(Ask::Turn, &[0; 7]), 0);
    }
}

/// "and the job draws its order only after the request is collected", though
/// all reads have completed.
#[test]
fn the_order_waits_for_the_collect() {
    let mut run = stored_at(0);
    assert!(!run.is_held(read(0), [0, 0]));
    run.t(&[]);
    run.t(&[]);
    assert!(run.state().outstanding.is_empty());
    assert_eq!(run.number(Ask::Turn, &[3, 2, 1]), 10);
    assert_eq!(run.collect().0, 0);
    assert_eq!(run.call(Ask::Turn, &[3, 2, 1]).taken, 3);
}

/// A request that is held does not keep a job from drawing.
#[test]
fn the_order_does_not_wait_for_a_held_request() {
    let mut run = stored_at(0);
    run.serve(read(0), [0, 0]);
    assert!(run.is_held(read(0), [0, 0]));
    assert_eq!(run.queued(), 3);
    run.job(&[3, 2, 1]);
    run.job(&[1]);
    assert_eq!(run.request().found, Some(Found::Level(1)));
}
