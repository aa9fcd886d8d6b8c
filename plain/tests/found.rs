//! Where a block was found (document 02, P2): each case, requests that jobs
//! held and whose block they moved, refusals, and what holds of all calls.

#[path = "common/run.rs"]
mod run;

use plain::calls::{Ask, Call, Outcome, Store};
use plain::found::Found;
use plain::mistakes::Mistake;
use plain::script::{Script, replay};
use plain::shape::Shape;
use plain::state::{Request, State};
use run::{Run, read, write};

impl Run {
    /// Runs the front job; its order takes words of zero.
    fn job(&mut self) {
        let left = self.queued();
        while self.queued() == left {
            assert_eq!(self.t(&[0; 255]).number, 0);
        }
    }

    fn request(&self) -> &Request {
        let request = self.state().request.as_ref();
        request.expect("a request is in hand")
    }

    /// A request that is held, with its block there at acceptance.
    fn held(&mut self, ask: Ask, place: Found) {
        assert_eq!(self.number(ask, &[0, 0]), 0);
        assert!(self.request().is_held());
        assert_eq!(self.state().look_up(self.request().block), place);
        assert_eq!(self.refused(), 14);
    }

    /// Runs so many jobs, which hold the request in hand.
    fn wait(&mut self, jobs: usize) {
        for _ in 0..jobs {
            assert!(self.request().is_held());
            self.job();
        }
        assert!(!self.request().is_held());
    }

    /// The number of a refused collect, which tells nothing.
    fn refused(&mut self) -> u8 {
        let outcome = self.call(Ask::Collect, &[]);
        let refusal = Outcome {
            number: outcome.number,
            ..Outcome::default()
        };
        assert_ne!(outcome.number, 0);
        assert_eq!(outcome, refusal);
        outcome.number
    }

    /// Sends the request's reads, one to each of so many levels, and collects.
    fn collect(&mut self, levels: usize) -> (Vec<u8>, Found) {
        for _ in 0..levels {
            assert_eq!(self.refused(), 14);
            assert_eq!(self.t(&[]).number, 0);
        }
        let outcome = self.call(Ask::Collect, &[]);
        assert_eq!(outcome.number, 0);
        (outcome.bytes, outcome.found)
    }
}

#[test]
fn each_case_has_its_number() {
    let all = [0, 1, 6, 7].map(Found::Level);
    assert_eq!(all.map(Found::number), [2, 3, 8, 9]);
    assert_eq!([Found::Nowhere, Found::Cache].map(Found::number), [0, 1]);
    assert_eq!(Found::default(), Found::Nowhere);
}

/// No job holds these requests, so their block is looked up at acceptance.
#[test]
fn each_case_without_a_job() {
    let mut run = Run::new(Shape::new(1, 2, 2, 1, 1, 1), &[0]);
    assert_eq!(run.serve(read(0), [1, 0]).found, Found::Nowhere);
    // It waits for partition 1, and both jobs are for partition 0.
    assert_eq!(run.serve(read(0), [1, 0]).found, Found::Cache);
    // Three jobs for partition 0 together, then one for partition 1.
    run.job();
    run.job();
    assert_eq!(run.serve(read(0), [1, 1]).found, Found::Level(0));
    run.job();
    assert_eq!(run.serve(read(0), [1, 1]).found, Found::Level(1));
}

/// Level 1 is filled, so that the second of two jobs is not joined. Both hold
/// the request, and with the first one's end the second does no longer: it is
/// the only one and has drawn no order.
#[test]
fn a_job_moves_a_block_from_the_cache_to_a_level() {
    let mut run = Run::new(Shape::new(1, 1, 2, 1, 1, 1), &[0]);
    run.serve(write(0, &[5]), [0, 0]);
    run.job();
    run.serve(read(0), [0, 0]);
    run.held(read(0), Found::Cache);
    run.wait(1);
    assert_eq!(run.collect(2), (vec![5], Found::Level(0)));
}

/// The jobs are for partitions 0, 0, 1 and 0. Those for partition 0 fill both
/// levels, and block 0 goes into the higher one.
#[test]
fn jobs_move_a_block_from_the_cache_to_a_higher_level() {
    let mut run = Run::new(Shape::new(2, 2, 2, 1, 2, 1), &[0, 1]);
    run.serve(write(0, &[5]), [0, 0]);
    run.serve(read(1), [1, 0]);
    run.held(read(0), Found::Cache);
    run.wait(1);
    assert_eq!(run.collect(2), (vec![5], Found::Level(1)));
}

/// Block 0 is in level 0, and jobs for partitions 1, 0, 2, 0, 3 and 0 are
/// queued. Two of those for partition 0 fill both levels, and the last is behind
/// two others.
#[test]
fn a_job_moves_a_block_from_a_level_to_another() {
    let mut run = Run::new(Shape::new(4, 4, 2, 1, 4, 1), &[0, 1, 2, 3]);
    run.serve(write(0, &[5]), [0, 1]);
    run.job();
    run.job();
    for block in 1..4 {
        run.serve(read(block), [block as u16, 0]);
    }
    run.held(write(0, &[6]), Found::Level(0));
    run.wait(4);
    assert_eq!(run.collect(2), (vec![5], Found::Level(1)));
}

/// The job for partition 0, which is full, takes a dummy.
#[test]
fn a_block_that_no_job_takes_is_found_in_the_cache() {
    let mut run = Run::new(Shape::new(2, 2, 1, 1, 2, 1), &[0, 1]);
    run.serve(write(0, &[7]), [0, 1]);
    run.job();
    run.job();
    run.serve(write(1, &[9]), [0, 0]);
    run.held(read(1), Found::Cache);
    run.wait(1);
    assert_eq!(run.collect(1), (vec![9], Found::Cache));
}

#[test]
fn a_held_block_may_be_nowhere() {
    let mut run = Run::new(Shape::new(2, 1, 2, 1, 2, 1), &[0, 0]);
    run.serve(write(0, &[7]), [0, 0]);
    run.held(read(1), Found::Nowhere);
    run.wait(1);
    assert_eq!(run.collect(1), (vec![0], Found::Nowhere));
}

/// Jobs of another partition, before and after the look-up, change nothing.
#[test]
fn jobs_of_other_partitions_hold_nothing() {
    let mut run = Run::new(Shape::new(2, 2, 2, 1, 2, 1), &[0, 1]);
    run.serve(write(0, &[5]), [0, 1]);
    run.job();
    run.job();
    run.serve(read(1), [1, 1]);
    assert_eq!(run.number(read(0), &[1, 1]), 0);
    assert_eq!(run.request().found, Some(Found::Level(0)));
    assert_eq!(run.t(&[]).command.partition, 0);
    run.job();
    assert_eq!(run.queued(), 0);
    assert_eq!(run.request().found, Some(Found::Level(0)));
    assert_eq!(run.collect(0), (vec![5], Found::Level(0)));
}

#[test]
fn refusals_tell_nothing() {
    let mut run = Run::new(Shape::new(1, 1, 1, 2, 1, 1), &[0]);
    assert_eq!(run.refused(), 13);
    run.serve(write(0, &[5, 6]), [0, 0]);
    run.held(read(0), Found::Cache);
    run.wait(1);
    assert_eq!(run.request().found, Some(Found::Level(0)));
    assert_eq!(run.refused(), 14);
    let command = run.call(Ask::Turn, &[]).command;
    assert_eq!(run.refused(), 14);
    let bytes = vec![5, 6];
    assert_eq!(run.number(Ask::Completion { command, bytes }, &[]), 0);
    run.bytes = 1;
    assert_eq!(run.refused(), 15);
    let short = run.store.call(&Call {
        ask: Ask::Collect,
        memory: run.state().shape.needed() - 1,
        words: Vec::new(),
        buffer: 2,
    });
    assert_eq!((short.number, short.found), (2, Found::Nowhere));
    run.bytes = 2;
    assert_eq!(run.collect(0), (vec![5, 6], Found::Level(0)));
    assert_eq!(run.refused(), 13);
    assert_eq!(run.number(Ask::Open(Shape::new(1, 3, 1, 1, 1, 1)), &[0]), 1);
    assert_eq!(run.refused(), 2);
}

const SHAPES: [Shape; 4] = [
    Shape::new(2, 1, 2, 1, 2, 2),
    Shape::new(4, 2, 2, 1, 2, 2),
    Shape::new(4, 1, 3, 1, 3, 3),
    Shape::new(8, 4, 2, 1, 8, 3),
];

fn scripts() -> impl Iterator<Item = Script> {
    let any = |shape| (0..100).map(move |seed| Script::new(shape, None, seed, 300));
    let beside = |shape| (0..100).map(move |seed| Script::beside(shape, seed, 300));
    let any = SHAPES.into_iter().flat_map(any);
    any.chain(SHAPES.into_iter().flat_map(beside))
}

/// Whether the only job for a partition, or those that run together, are at the
/// front and draw later. No level that they do not read is ever read too often.
fn is_let_pass(state: &State, p: usize) -> bool {
    let mut jobs = state.queue.iter();
    let at_front = jobs.next() == Some(&p) && state.writing.is_none();
    at_front && jobs.filter(|q| **q == p).count() < state.begun.max(1)
}

/// After every call a request that was never released is held exactly while a
/// job for its partition is queued that does not let it pass; what was found
/// is in its range and stays, and a collect tells it.
#[test]
fn what_is_found_stays_until_the_collect() {
    let (mut held, mut beside) = (0, 0);
    for script in scripts() {
        let mut store = Store::new(Mistake::None);
        let mut carried = None;
        for (call, outcome) in script.calls.iter().zip(&script.outcomes) {
            assert_eq!(store.call(call), *outcome);
            if call.ask == Ask::Collect && outcome.number == 0 {
                assert_eq!(carried.take(), Some(outcome.found));
            } else {
                assert_eq!(outcome.found, Found::Nowhere);
            }
            let request = store
                .state
                .as_ref()
                .and_then(|s| Some((s, s.request.as_ref()?)));
            let Some((state, request)) = request else {
                continue;
            };
            let p = state.partition[request.block];
            let (queued, passes) = (state.queue.contains(&p), is_let_pass(state, p));
            let holds = carried.is_none() && queued && !passes;
            assert_eq!(request.is_held(), holds);
            assert!(carried.is_none() || carried == request.found);
            carried = request.found;
            let number = carried.map_or(0, Found::number);
            assert!(number < 2 + state.shape.levels);
            held += usize::from(holds);
            beside += usize::from(queued && !holds);
        }
    }
    assert!(held > 1000 && beside > 1000, "{held} {beside}");
}

/// A wrong look-up shows in what is found, and in nothing that the host gets.
#[test]
fn nothing_else_depends_on_what_is_found() {
    let without = |outcome: &Outcome| Outcome {
        found: Found::Nowhere,
        ..outcome.clone()
    };
    let mut told = Mistake::UNPRINTED.map(|mistake| (mistake, 0));
    for script in scripts() {
        for (mistake, times) in &mut told {
            let wrong = replay(&script.calls, *mistake);
            assert!({ script.outcomes.iter().map(without) }.eq(wrong.iter().map(without)));
            *times += usize::from(script.outcomes != wrong);
        }
    }
    assert!(told.iter().all(|(_, times)| *times > 50), "{told:?}");
}
