//! Random calls and sessions in which jobs of one partition run together
//! (document 02, P7): which wrong rules are told, and what holds of all runs.
//! How often each situation is met is in tests/beside_random.rs.

use plain::array;
use plain::calls::{Ask, Call, Store};
use plain::mistakes::Mistake;
use plain::random_session;
use plain::script::{Script, replay};
use plain::session::{self, Session};
use plain::shape::Shape;
use plain::state::{Place, State, WRITE};
use std::panic::catch_unwind;

const SHAPES: [Shape; 6] = [
    Shape::new(8, 4, 2, 1, 8, 3),
    Shape::new(4, 2, 2, 1, 4, 2),
    Shape::new(4, 1, 3, 1, 4, 3),
    Shape::new(8, 2, 3, 1, 8, 3),
    Shape::new(6, 4, 3, 1, 4, 3),
    Shape::new(8, 2, 4, 1, 8, 4),
];

fn scripts() -> impl Iterator<Item = Script> {
    let together = |shape| (0..150).map(move |seed| Script::together(shape, seed, 300));
    SHAPES.into_iter().flat_map(together)
}

/// Whether what a wrong rule answers differs. It may read a slot that was never
/// written.
fn differs<T: PartialEq>(right: &T, wrong: impl FnOnce() -> T + std::panic::UnwindSafe) -> bool {
    catch_unwind(wrong).ok().as_ref() != Some(right)
}

#[test]
fn random_calls_tell_every_mistake() {
    let mut told = Mistake::TOGETHER.map(|mistake| (mistake, 0));
    for script in scripts() {
        for (mistake, times) in &mut told {
            let (calls, wrong) = (script.calls.clone(), *mistake);
            *times += usize::from(differs(&script.outcomes, move || replay(&calls, wrong)));
        }
    }
    println!("of 900 random sessions of calls: {told:?}");
    assert!(told.iter().all(|(_, times)| *times >= 15), "{told:?}");
}

#[test]
fn random_sessions_tell_every_mistake() {
    let printed = |text: &[u8], mistake| {
        let mut output = Vec::new();
        session::run(&mut Session::new(mistake), text, &mut output).unwrap();
        output
    };
    let mut told = Mistake::TOGETHER.map(|mistake| (mistake, 0));
    for seed in 1..=60 {
        let text = random_session::text(seed, 600);
        let right = printed(&text, Mistake::None);
        for (mistake, times) in &mut told {
            let (text, wrong) = (text.clone(), *mistake);
            *times += usize::from(differs(&right, move || printed(&text, wrong)));
        }
    }
    println!("of 60 random sessions: {told:?}");
    // Blocks that are too many for their partition seldom wait.
    let fewest = |mistake| {
        if mistake == Mistake::RoomAskedOnce {
            1
        } else {
            10
        }
    };
    let enough = |(mistake, times): &(Mistake, usize)| *times >= fewest(*mistake);
    assert!(told.iter().all(enough), "{told:?}");
}

/// What is followed of a run from its beginning to its end.
#[derive(Default)]
struct Follow {
    /// The state before its first command.
    before: Option<State>,
    written: Vec<(usize, usize)>,
    runs: usize,
    several: usize,
}

impl Follow {
    fn call(&mut self, store: &mut Store, call: &Call) {
        let before = store.state.clone();
        let outcome = store.call(call);
        let (Some(before), Some(after), 0) = (before, &store.state, outcome.number) else {
            return;
        };
        match call.ask {
            Ask::Open(_) => self.before = None,
            Ask::Turn => {
                if before.begun == 0 && after.begun > 0 {
                    self.written.clear();
                    self.before = Some(before);
                }
                if outcome.command.kind == WRITE {
                    let command = outcome.command;
                    self.written.push((command.level, command.slot));
                }
            }
            Ask::Completion { .. } if before.begun > 0 && after.begun == 0 => {
                self.ended(&before, after);
            }
            _ => {}
        }
    }

    /// The counter grew by j, or fell; j jobs have left; the levels that became
    /// filled were written, the highest first, and have at most 2^l blocks.
    fn ended(&mut self, before: &State, after: &State) {
        let first = self.before.take().expect("it has begun");
        let (q, j, all) = (first.queue[0], before.begun, first.shape.levels);
        let (from, full) = (first.counter[q], (1 << all) - 1);
        assert_eq!(j, first.jobs(q).min(full - from).max(1));
        let to = if from == full {
            1 << (all - 1)
        } else {
            from + j
        };
        assert_eq!(after.counter[q], to);
        assert_eq!(after.queue.len() + j, before.queue.len());
        let others = |state: &State| state.queue.iter().filter(|p| **p != q).copied().collect();
        let [left, right]: [Vec<usize>; 2] = [others(before), others(after)];
        assert_eq!(left, right);
        let changed = |level: &usize| from == full || from >> level != to >> level;
        let levels = (0..all).rev().filter(changed);
        let filled = levels.filter(|level| to >> level & 1 == 1);
        let slots = filled.flat_map(|level| (0..2 << level).map(move |slot| (level, slot)));
        assert_eq!(self.written, slots.collect::<Vec<_>>());
        for level in 0..all {
            let here = |block: &usize| {
                let place = after.place[*block];
                let there = matches!(place, Place::Stored { level: l, .. } if l == level);
                there && after.partition[*block] == q
            };
            let blocks = (0..after.shape.blocks).filter(here).count();
            assert!(blocks <= (to >> level & 1) << level);
        }
        self.runs += 1;
        self.several += usize::from(j > 1);
    }
}

#[test]
fn every_run_writes_what_its_counter_tells() {
    let mut follow = Follow::default();
    for script in scripts() {
        let mut store = Store::new(Mistake::None);
        for call in &script.calls {
            follow.call(&mut store, call);
        }
        follow.before = None;
    }
    let Follow { runs, several, .. } = follow;
    println!("{runs} runs, {several} of several jobs");
    assert!(several > 2000, "{several}");
}

/// A run that leaves sources unread loses blocks, if it comes before the last
/// level is filled: of three levels that is early or never.
#[test]
fn the_array_goes_on_through_runs() {
    for shape in SHAPES {
        let check = |mistake, seed, calls| array::check(shape, mistake, seed, calls);
        let (_, collected) = check(Mistake::None, 1, 100_000).expect("it is like an array");
        assert!(collected > 1000, "{shape:?}: {collected}");
        let mut wrong = (0..20).map(|seed| check(Mistake::SourcesFromBelow, seed, 2000));
        assert_eq!(
            wrong.any(|told| told.is_err()),
            shape.levels > 2,
            "{shape:?}"
        );
    }
}
