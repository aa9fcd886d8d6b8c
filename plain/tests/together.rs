//! Jobs of one partition together (document 02, P7), sentence by sentence, with
//! counters, levels, commands and words worked out by hand.

#[path = "common/run.rs"]
mod run;

use plain::calls::{Ask, Outcome};
use plain::form::longest;
use plain::found::Found;
use plain::mistakes::Mistake;
use plain::shape::Shape;
use plain::state::{READ, State};
use run::{Run, read, write};

/// Document 01's order of four slots: items 0 to 3 at slots 2, 0, 3 and 1.
const ORDER: [u16; 3] = [5, 1, 2];

impl Run {
    /// So many turns, each completed at once: what a session prints of them.
    fn turns(&mut self, count: usize, words: &[u16]) -> Vec<String> {
        let turn = |_| told(&self.t(words));
        (0..count).map(turn).collect()
    }

    /// Runs the front job and those that it takes with it.
    fn job(&mut self) {
        let left = self.queued();
        while self.queued() == left {
            assert_eq!(self.t(&[0; 15]).number, 0);
        }
    }

    fn is_held(&self) -> bool {
        let request = self.state().request.as_ref();
        request.expect("a request is in hand").is_held()
    }

    fn queue(&self) -> Vec<usize> {
        self.state().queue.iter().copied().collect()
    }
}

/// A command as a session prints it, with the bytes of a write.
fn told(outcome: &Outcome) -> String {
    let (command, bytes) = (outcome.command, &outcome.bytes);
    let place = [command.partition, command.level, command.slot].map(|n| n.to_string());
    match (outcome.number, command.kind) {
        (0, READ) => format!("r {}", place.join(" ")),
        (0, _) => format!("w {} {}", place.join(" "), bytes[0]),
        (number, _) => number.to_string(),
    }
}

/// A store of three levels whose partition has this counter and so many jobs.
fn with_jobs(counter: usize, jobs: usize) -> State {
    let mut state = State::fresh(Shape::new(1, 1, 3, 1, 1, 1), Mistake::None, vec![0]);
    state.counter[0] = counter;
    state.queue = vec![0; jobs].into();
    state
}

/// The counter, the jobs queued, j, the sources, the levels written and the
/// counter after it.
type Row = (
    usize,
    usize,
    usize,
    &'static [usize],
    &'static [usize],
    usize,
);

/// Three levels: at most 7 less the counter are joined, and at 7 none is.
const ROWS: [Row; 35] = [
    (0, 1, 1, &[], &[0], 1),
    (0, 2, 2, &[], &[1], 2),
    (0, 3, 3, &[], &[1, 0], 3),
    (0, 4, 4, &[], &[2], 4),
    (0, 5, 5, &[], &[2, 0], 5),
    (0, 6, 6, &[], &[2, 1], 6),
    (0, 7, 7, &[], &[2, 1, 0], 7),
    (0, 8, 7, &[], &[2, 1, 0], 7),
    (0, 64, 7, &[], &[2, 1, 0], 7),
    (1, 1, 1, &[0], &[1], 2),
    (1, 2, 2, &[0], &[1, 0], 3),
    (1, 3, 3, &[0], &[2], 4),
    (1, 4, 4, &[0], &[2, 0], 5),
    (1, 6, 6, &[0], &[2, 1, 0], 7),
    (1, 7, 6, &[0], &[2, 1, 0], 7),
    (2, 1, 1, &[], &[0], 3),
    (2, 2, 2, &[1], &[2], 4),
    (2, 3, 3, &[1], &[2, 0], 5),
    (2, 4, 4, &[1], &[2, 1], 6),
    (2, 5, 5, &[1], &[2, 1, 0], 7),
    (2, 6, 5, &[1], &[2, 1, 0], 7),
    (3, 1, 1, &[0, 1], &[2], 4),
    (3, 2, 2, &[0, 1], &[2, 0], 5),
    (3, 4, 4, &[0, 1], &[2, 1, 0], 7),
    (4, 1, 1, &[], &[0], 5),
    (4, 2, 2, &[], &[1], 6),
    (4, 3, 3, &[], &[1, 0], 7),
    (4, 9, 3, &[], &[1, 0], 7),
    (5, 1, 1, &[0], &[1], 6),
    (5, 2, 2, &[0], &[1, 0], 7),
    (5, 3, 2, &[0], &[1, 0], 7),
    (6, 1, 1, &[], &[0], 7),
    (6, 2, 1, &[], &[0], 7),
    (7, 1, 1, &[0, 1, 2], &[2], 4),
    (7, 5, 1, &[0, 1, 2], &[2], 4),
];

#[test]
fn counters_sources_and_levels_written() {
    for (counter, jobs, j, sources, written, after) in ROWS {
        let state = with_jobs(counter, jobs);
        let row = format!("counter {counter}, {jobs} jobs");
        assert_eq!(state.run(0), j, "{row}");
        assert_eq!(state.source_levels(0), sources, "{row}");
        assert_eq!(state.written_levels(0), written, "{row}");
        assert_eq!(state.counter_after(0), after, "{row}");
    }
}

/// Counter 0 and two jobs: t is 1, nothing is read, and level 1 is written.
#[test]
fn two_jobs_write_one_level() {
    let mut run = Run::new(Shape::new(1, 1, 2, 1, 1, 1), &[0]);
    run.serve(write(0, &[7]), [0, 0]);
    let first = run.t(&ORDER);
    assert_eq!((told(&first), first.taken), ("w 0 1 0 0".into(), 3));
    assert_eq!(run.turns(3, &[]), ["w 0 1 1 0", "w 0 1 2 7", "w 0 1 3 0"]);
    assert_eq!((run.state().counter[0], run.queued()), (2, 0));
    assert_eq!(run.turns(1, &[]), ["10"]);
}

/// Jobs for partitions 0, 0, 1 and 0, and blocks 0 and 1 wait for partition 0.
/// Counter 0 and three jobs: levels 1 and 0 are written.
fn three_jobs() -> Run {
    let mut run = Run::new(Shape::new(2, 2, 2, 1, 2, 1), &[0, 1]);
    run.serve(write(0, &[7]), [0, 0]);
    run.serve(write(1, &[9]), [0, 0]);
    assert_eq!(run.queue(), [0, 0, 1, 0]);
    run
}

/// "each with its own order, all drawn, highest first, in the turn of the first
/// write": 5, 1, 2 for level 1 and then 0 for level 0. Both blocks fit into the
/// higher level. The jobs leave the queue and the other one stays.
#[test]
fn three_jobs_write_two_levels() {
    let mut run = three_jobs();
    let first = run.t(&[5, 1, 2, 0, 9]);
    assert_eq!((told(&first), first.taken), ("w 0 1 0 9".into(), 4));
    assert_eq!(run.state().levels[0][1].slot_of, [2, 0, 3, 1]);
    assert_eq!(run.state().levels[0][0].slot_of, [1, 0]);
    let rest = ["w 0 1 1 0", "w 0 1 2 7", "w 0 1 3 0", "w 0 0 0 0"];
    assert_eq!(run.turns(4, &[]), rest);
    assert_eq!((run.state().counter[0], run.queued()), (0, 4));
    assert_eq!(run.turns(1, &[]), ["w 0 0 1 0"]);
    assert_eq!((run.state().counter[0], run.queue()), (3, vec![1]));
}

/// The turn draws all four numbers or none.
#[test]
fn words_for_one_of_two_levels_are_too_few() {
    let mut run = three_jobs();
    let before = run.state().clone();
    for words in [&[][..], &ORDER, &[5, 65_535, 1, 2]] {
        assert_eq!(run.turns(1, words), ["3"]);
        assert_eq!(*run.state(), before);
    }
    assert_eq!(run.t(&[5, 65_535, 1, 2, 0]).taken, 5);
}

/// Four partitions of three levels, with jobs for partitions 3, 0, 2, 0, 1 and
/// then this one. Blocks 2, 1 and 0 wait for partition 0, 2 the longest.
fn three_waiting(last: u16) -> Run {
    let mut run = Run::new(Shape::new(4, 4, 3, 1, 4, 1), &[1, 2, 3, 0]);
    run.serve(write(2, &[22]), [0, 0]);
    run.serve(write(1, &[11]), [0, 0]);
    run.serve(write(0, &[10]), [0, last]);
    run.job();
    run
}

/// "Blocks go by ascending number into the highest of these levels until it has
/// 2^ℓ, then the next": 0 and 1 into level 1, 2 into level 0.
#[test]
fn blocks_go_into_the_highest_level_and_then_the_next() {
    let mut run = three_waiting(0);
    assert_eq!(run.queue(), [0, 2, 0, 1, 0]);
    let written = ["w 0 1 0 11", "w 0 1 1 0", "w 0 1 2 10", "w 0 1 3 0"];
    assert_eq!(run.turns(4, &[5, 1, 2, 1]), written);
    assert_eq!(run.turns(2, &[]), ["w 0 0 0 22", "w 0 0 1 0"]);
    assert_eq!((run.state().counter[0], run.queue()), (3, vec![2, 1]));
    let found = [0, 1, 2].map(|block| run.state().look_up(block));
    assert_eq!(found, [Found::Level(1), Found::Level(1), Found::Level(0)]);
}

/// "up to j waiting blocks are taken, longest first": two of three. Two jobs
/// for partition 3 ran together before.
#[test]
fn as_many_blocks_are_taken_as_jobs_run() {
    let mut run = three_waiting(3);
    assert_eq!(run.queue(), [0, 2, 0, 1]);
    assert_eq!(run.state().counter, [0, 0, 0, 2]);
    let written = ["w 0 1 0 22", "w 0 1 1 0", "w 0 1 2 11", "w 0 1 3 0"];
    assert_eq!(run.turns(4, &ORDER), written);
    assert_eq!((run.state().counter[0], run.queue()), (2, vec![2, 1]));
    assert_eq!(run.state().look_up(0), Found::Cache);
}

/// "while the partition stores fewer than 2^(L−1)", here 2: level 0 has block
/// 0, and of the two blocks that wait for two jobs one is taken.
#[test]
fn a_run_takes_no_more_than_there_is_room_for() {
    let mut run = Run::new(Shape::new(4, 4, 2, 1, 4, 1), &[1, 2, 3, 0]);
    run.serve(write(0, &[10]), [0, 0]);
    run.job();
    run.job();
    run.serve(write(2, &[22]), [0, 0]);
    run.serve(write(1, &[11]), [0, 0]);
    run.job();
    assert_eq!((run.queue(), run.state().counter[0]), (vec![0, 2, 0], 1));
    assert_eq!(run.turns(2, &[]), ["r 0 0 0", "r 0 0 1"]);
    let written = ["w 0 1 0 22", "w 0 1 1 0", "w 0 1 2 10", "w 0 1 3 0"];
    assert_eq!(run.turns(4, &[5, 1, 2, 0]), written);
    assert_eq!(run.turns(2, &[]), ["w 0 0 0 0", "w 0 0 1 0"]);
    assert_eq!((run.state().counter[0], run.queue()), (3, vec![2]));
    assert_eq!(run.state().look_up(1), Found::Cache);
}

/// One partition of three levels; level 1 holds block 0 at slot 2, and slot 0
/// was read for block 1. Counter 2 and two jobs: t is 2, level 1 is the only
/// source, and level 0 is not filled.
fn source_above() -> Run {
    let mut run = Run::new(Shape::new(2, 1, 3, 1, 2, 3), &[0, 0]);
    run.serve(write(0, &[7]), [0, 0]);
    run.turns(4, &ORDER);
    run.serve(write(1, &[9]), [0, 0]);
    assert_eq!((run.state().counter[0], run.queued()), (2, 2));
    run
}

/// "Filled levels up to t are the sources".
#[test]
fn a_source_may_be_above_an_empty_level() {
    let mut run = source_above();
    assert_eq!(run.turns(3, &[]), ["r 0 1 1", "r 0 1 2", "r 0 1 3"]);
    // Draws of 7, 6, .. 1 leave each item at its slot.
    let first = run.t(&[7, 6, 5, 4, 3, 2, 1]);
    assert_eq!((told(&first), first.taken), ("w 0 2 0 7".into(), 7));
    assert_eq!(run.turns(2, &[]), ["w 0 2 1 9", "w 0 2 2 0"]);
    run.turns(5, &[]);
    assert_eq!((run.state().counter[0], run.queued()), (4, 0));
}

/// "The run counts as one job for look-ups during a rebuild": the two jobs hold
/// the request until they begin, and that read is awaited.
#[test]
fn a_request_is_released_as_the_run_begins() {
    let mut run = source_above();
    assert_eq!(run.number(read(0), &[0, 0]), 0);
    assert!(run.is_held());
    let first = run.call(Ask::Turn, &[]);
    assert_eq!((told(&first), run.state().begun), ("r 0 1 1".into(), 2));
    assert!(!run.is_held());
    // Its own slot, before the job goes on.
    assert_eq!(run.turns(1, &[]), ["r 0 1 2"]);
    assert_eq!(run.number(Ask::Collect, &[]), 14);
    let (command, bytes) = (first.command, vec![0]);
    assert_eq!(run.number(Ask::Completion { command, bytes }, &[]), 0);
    let answer = run.call(Ask::Collect, &[]);
    assert_eq!((answer.bytes, answer.found), (vec![7], Found::Level(1)));
}

/// j is fixed as the run begins: the two jobs that this look-up queues stay
/// when it ends, and run together after it.
#[test]
fn jobs_queued_later_are_not_joined() {
    let mut run = source_above();
    assert_eq!(run.turns(1, &[]), ["r 0 1 1"]);
    run.serve(read(0), [0, 0]);
    assert_eq!((run.queued(), run.state().begun), (4, 2));
    // Of the four jobs two have not begun, and these hold.
    assert_eq!(run.number(read(1), &[0, 0]), 0);
    assert!(run.is_held());
    run.job();
    assert_eq!((run.state().counter[0], run.queued()), (4, 2));
    assert_eq!(run.state().begun, 0);
    assert!(run.is_held());
    run.job();
    assert_eq!((run.state().counter[0], run.queued()), (6, 0));
    assert!(!run.is_held());
}

/// A run without an unread source begins with its draw, and then it holds.
#[test]
fn a_run_that_begins_with_its_draw_releases_nothing() {
    let mut run = Run::new(Shape::new(1, 1, 2, 1, 1, 1), &[0]);
    run.serve(write(0, &[7]), [0, 0]);
    assert_eq!(run.number(read(0), &[0, 0]), 0);
    assert_eq!(run.turns(1, &ORDER), ["w 0 1 0 0"]);
    assert!(run.is_held() && run.state().begun == 2);
    run.turns(3, &[]);
    assert!(!run.is_held());
    assert_eq!(run.turns(1, &[]), ["r 0 1 2"]);
}

/// The released request keeps the run from drawing, as it does a single job.
#[test]
fn a_run_draws_after_the_collect() {
    let mut run = source_above();
    assert_eq!(run.number(read(1), &[0, 0]), 0);
    // Slot 1 for the job, item 0 at slot 2 for the request, slot 3 for the job.
    assert_eq!(run.turns(3, &[]), ["r 0 1 1", "r 0 1 2", "r 0 1 3"]);
    assert_eq!(run.turns(1, &[0; 7]), ["10"]);
    assert_eq!(run.call(Ask::Collect, &[]).bytes, [9]);
    assert_eq!(run.t(&[0; 7]).taken, 7);
}

/// "at most 2^L − 1 − counter, or just itself when all levels are filled": two
/// jobs run alone at counter 2, and again at 3.
#[test]
fn a_run_is_cut_and_a_full_partition_joins_nothing() {
    let mut run = Run::new(Shape::new(1, 1, 2, 1, 1, 1), &[0]);
    run.serve(write(0, &[7]), [0, 0]);
    run.job();
    for (before, after, left) in [(2, 3, 1), (3, 2, 0)] {
        if left == 1 {
            run.serve(read(0), [0, 0]);
        }
        assert_eq!(run.state().counter[0], before);
        run.job();
        assert_eq!((run.state().counter[0], run.queued()), (after, left));
    }
    // Two jobs at a full counter: a run of one at 2, then a look-up beside.
    run.serve(read(0), [0, 0]);
    run.job();
    run.serve(read(0), [0, 0]);
    assert_eq!((run.state().counter[0], run.queued()), (3, 3));
    run.job();
    assert_eq!((run.state().counter[0], run.queued()), (2, 2));
}

/// A save is refused with 16 once the run has begun; before that its jobs are
/// saved, and they run together after the load.
#[test]
fn jobs_are_saved_and_run_together_after_the_load() {
    let mut run = source_above();
    run.bytes = longest(&run.state().shape);
    let form = run.call(Ask::Save, &[]).bytes;
    run.bytes = 1;
    assert_eq!(run.turns(1, &[]), ["r 0 1 1"]);
    run.bytes = longest(&run.state().shape);
    assert_eq!(run.number(Ask::Save, &[]), 16);
    assert_eq!(run.number(Ask::Load(form), &[]), 0);
    run.bytes = 1;
    assert_eq!((run.state().begun, run.queued()), (0, 2));
    assert_eq!(run.turns(1, &[]), ["r 0 1 1"]);
    assert_eq!(run.state().begun, 2);
}
