//! What may occur in a session: numbers, where blocks are found, which words
//! draws pass over, look-ups while a partition is rebuilt, jobs that run
//! together, and saves and loads.

use crate::calls::{Ask, Call, Outcome, Store};
use crate::draws::{WIDTH, limit};
use crate::found::Found;
use crate::mistakes::Mistake;
use crate::saves::{self, Saved};
use crate::situations::{Situation, Watch};
use crate::state::State;

/// What may occur in a session.
#[derive(Clone, Copy, Debug, PartialEq, Eq)]
pub enum Mark {
    Number(u8),
    /// Where a collected block was found.
    Found(Found),
    /// The request was held: where its block was at acceptance, and where it
    /// was found.
    Held(Found, Found),
    /// A draw below this passed a word over.
    Passed(usize),
    /// After that, the last draw was settled by the last word lent.
    LastWord,
    /// A turn lent as many words as it makes draws, or more, was answered 3.
    Unsettled,
    /// A look-up while a partition is rebuilt, or jobs that run together.
    Met(Situation),
    /// A save or a load.
    Saved(Saved),
}

/// The marks that have to occur in what is found.
pub const FOUND_MARKS: [Mark; 9] = [
    Mark::Found(Found::Nowhere),
    Mark::Found(Found::Cache),
    Mark::Found(Found::Level(0)),
    Mark::Found(Found::Level(1)),
    Mark::Found(Found::Level(2)),
    Mark::Held(Found::Cache, Found::Cache),
    Mark::Held(Found::Cache, Found::Level(0)),
    Mark::Held(Found::Cache, Found::Level(1)),
    Mark::Held(Found::Level(0), Found::Level(1)),
];

/// The marks that have to occur in what is drawn. The bounds of orders that
/// are not here divide 2^16.
pub const DRAW_MARKS: [Mark; 6] = [
    Mark::Passed(3),
    Mark::Passed(5),
    Mark::Passed(6),
    Mark::Passed(7),
    Mark::LastWord,
    Mark::Unsettled,
];

/// The marks of a session.
pub fn marks(calls: &[Call], outcomes: &[Outcome]) -> Vec<Mark> {
    let mut marks = Vec::new();
    let mut store = Store::new(Mistake::None);
    let mut watch = Watch::default();
    let mut held = None;
    for (call, outcome) in calls.iter().zip(outcomes) {
        let draws = store.state.as_ref().map(State::turn_bounds);
        watch.call(&mut store, call);
        marks.push(Mark::Number(outcome.number));
        match call.ask {
            Ask::Turn => marks.extend(of_turn(&draws.unwrap_or_default(), call, outcome)),
            _ if outcome.number != 0 => {}
            Ask::Request { block, .. } => held = held_at(&store, block),
            Ask::Collect => {
                marks.push(Mark::Found(outcome.found));
                marks.extend(held.map(|from| Mark::Held(from, outcome.found)));
            }
            _ => {}
        }
    }
    marks.extend(watch.met.into_iter().map(Mark::Met));
    marks.extend(saves::met(calls, outcomes).into_iter().map(Mark::Saved));
    marks
}

/// What the draws of a turn, below these bounds, did with its words.
fn of_turn(bounds: &[usize], call: &Call, outcome: &Outcome) -> Vec<Mark> {
    let lent = call.words.len();
    match outcome.number {
        0 if outcome.taken > bounds.len() => {}
        3 if lent >= bounds.len() => return vec![Mark::Unsettled],
        _ => return Vec::new(),
    }
    let mut words = call.words.iter();
    let mut passed = Vec::new();
    for m in bounds {
        let below = |word: &u16| usize::from(*word) < limit(*m, WIDTH);
        if words.position(below) > Some(0) {
            passed.push(Mark::Passed(*m));
        }
    }
    if outcome.taken == lent {
        passed.push(Mark::LastWord);
    }
    passed
}

/// Where the block of a request that is held was at acceptance.
fn held_at(store: &Store, block: usize) -> Option<Found> {
    let state = store.state.as_ref()?;
    let held = state.request.as_ref()?.is_held();
    held.then(|| state.look_up(block))
}
