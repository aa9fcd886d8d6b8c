//! Every tape of words of the lists of a pair: the words taken, all words lent
//! to a turn answered 3, and no more. Of an open or a request answered 3 there
//! are none on it, as what the words are is not asked there.
//!
//! The words lent to a call are gone over one by one (words.rs). Tapes with
//! which the same was told and the store is in the same state go on alike, so
//! they are counted together.

use crate::calls::{Ask, Call, Store};
use crate::lists::Pair;
use crate::mistakes::Mistake;
use crate::mixer::Mixer;
use crate::situations::{Before, is_released};
use crate::state::{READ, State};
use crate::transcripts::Transcripts;
use crate::words::{Caller, Way, Words};
use std::collections::HashMap;
use std::hash::BuildHasherDefault;

/// With more bits that matter, tapes might be too many to be counted.
const MOST_BITS: usize = 120;

/// What tapes that are counted together have in common.
#[derive(Clone, PartialEq, Eq, Hash)]
struct Run {
    store: Store,
    node: usize,
    /// The words of the tape so far, and those among them that were gone over.
    /// The others are counted once, whatever they are.
    length: usize,
    asked: usize,
    /// The last ones gone over, if they are lent again, first of all.
    again: Vec<u16>,
    /// Whether the client was loaded from a form that it saved.
    reloaded: bool,
}

/// Runs with the number of their tapes.
type Counted = (Run, u128);
type Runs = HashMap<Run, u128, BuildHasherDefault<Mixer>>;

struct Walk<'a> {
    words: &'a mut Words,
    most: usize,
    found: Transcripts,
    /// Whether the call that is tried passes words over, and whether it is
    /// answered 3 though it is lent as many as it makes draws.
    passed: bool,
    unsettled: bool,
}

/// The transcripts of both lists with all their tapes. The lists end early, at
/// the same place, before a call after which one of them may have more than so
/// many different runs or too many tapes.
pub fn transcripts(pair: &Pair, words: &mut Words, most: usize) -> Transcripts {
    let mut walk = Walk {
        most,
        found: Transcripts::new(words.width()),
        words,
        passed: false,
        unsettled: false,
    };
    let mut sides = [vec![walk.fresh()], vec![walk.fresh()]];
    let [left, right] = &pair.sides;
    for calls in left.iter().zip(right) {
        let Some(drawn) = walk.draw(&sides, calls) else {
            break;
        };
        let places = sides.iter_mut().zip([calls.0, calls.1]);
        for ((runs, call), drawn) in places.zip(drawn) {
            walk.make_undrawn(runs, call);
            runs.extend(drawn);
        }
        walk.found.place(walk.passed, walk.unsettled);
    }
    for (side, runs) in sides.iter().enumerate() {
        for (run, tapes) in runs {
            walk.found
                .end(side, run.node, run.length, run.asked, *tapes);
        }
    }
    walk.found
}

impl Walk<'_> {
    fn fresh(&self) -> Counted {
        let run = Run {
            store: Store::of_width(self.words.width(), self.words.mistake()),
            node: 0,
            length: 0,
            asked: 0,
            again: Vec::new(),
            reloaded: false,
        };
        (run, 1)
    }

    /// What the runs that a call may draw in become by it, in both lists.
    fn draw(&mut self, sides: &[Vec<Counted>; 2], calls: (&Call, &Call)) -> Option<[Runs; 2]> {
        (self.passed, self.unsettled) = (false, false);
        let left = self.drawn(&sides[0], calls.0)?;
        let right = self.drawn(&sides[1], calls.1)?;
        Some([left, right])
    }

    fn drawn(&mut self, runs: &[Counted], call: &Call) -> Option<Runs> {
        let mut all = Vec::new();
        let mut count = 0;
        let drawing = runs.iter().filter(|(run, _)| run.store.may_draw(call));
        for (run, tapes) in drawing {
            let bounds = bounds(&run.store, call);
            let ways = self.words.ways(&bounds, &run.again, call.words.len());
            let bits = (run.asked + call.words.len()) * self.words.width() as usize;
            count += ways.len();
            if bits > MOST_BITS || count > self.most {
                return None;
            }
            all.push((run, *tapes, bounds.len(), ways));
        }
        let mut drawn = Runs::default();
        for (run, tapes, draws, ways) in all {
            for way in ways.iter() {
                let next = self.go_on(run, call, way, draws);
                count_in(&mut drawn, next, tapes * way.tapes);
            }
        }
        Some(drawn)
    }

    /// The other runs go on in one way only. What the words of a turn answered
    /// 3 are is not asked here, as no words so few settle its draws; who lends
    /// them again might as well not have lent them.
    fn make_undrawn(&mut self, runs: &mut Vec<Counted>, call: &Call) {
        runs.retain(|(run, _)| !run.store.may_draw(call));
        for (run, _) in runs {
            let number = self.make(run, call);
            let in_vain = number == 3 && call.ask == Ask::Turn;
            if in_vain && self.words.caller() == Caller::MovesOn {
                let again = run.again.len().min(call.words.len());
                run.again.drain(..again);
                run.length += call.words.len() - again;
            }
        }
    }

    fn make(&mut self, run: &mut Run, call: &Call) -> u8 {
        let released = is_released(&run.store);
        let before = run.store.state.as_ref();
        let beside = released && before.is_some_and(State::is_beside);
        let look = before.map(|state| Before::look(state, &call.ask));
        let outcome = run.store.call(call);
        run.node = self.found.after(run.node, &outcome);
        self.found.collected |= beside && call.ask == Ask::Collect && outcome.number == 0;
        run.reloaded |= call.ask == Ask::Reload && outcome.number == 0;
        self.found.reloaded |= run.reloaded;
        self.found.read_after |= run.reloaded && outcome.command.kind == READ;
        if let Some(state) = run.store.state.as_ref().filter(|_| outcome.number == 0) {
            if !released && is_released(&run.store) {
                self.found.met.extend(state.met_at_release());
            }
            let together = look.map(|before| before.met(&call.ask, state));
            self.found.met.extend(together.into_iter().flatten());
        }
        outcome.number
    }

    fn go_on(&mut self, run: &Run, call: &Call, way: &Way, draws: usize) -> Run {
        let call = Call {
            words: way.words.clone(),
            ..call.clone()
        };
        let mut next = run.clone();
        let number = self.make(&mut next, &call);
        let wanted = if way.settles { 0 } else { 3 };
        assert!(draws == 0 || number == wanted, "{number}: {call:?}");
        self.passed |= way.settles && way.seen > draws;
        self.unsettled |= !way.settles;
        let new = way.seen - run.again.len().min(way.seen);
        next.length += new;
        next.asked += new;
        next.again = way.again.clone();
        next
    }
}

/// The bounds of the draws that a call makes, none if it is refused. Zeros are
/// never passed over, so with them it draws if it can.
fn bounds(store: &Store, call: &Call) -> Vec<usize> {
    let mut trial = store.clone();
    trial.call(call);
    trial.bounds
}

/// Counts a run's tapes along with those of an equal one.
fn count_in(runs: &mut Runs, mut run: Run, tapes: u128) {
    run.store.bounds.clear();
    if let Some(state) = &mut run.store.state {
        forget(state);
    }
    *runs.entry(run).or_default() += tapes;
}

/// Makes states equal that differ in what nothing told depends on: the bytes
/// of blocks, and the orders of empty levels. Two mistakes look at the latter.
fn forget(state: &mut State) {
    for bytes in &mut state.contents {
        bytes.fill(0);
    }
    if [Mistake::OrderDrawnOnce, Mistake::OrderNotTaken].contains(&state.mistake) {
        return;
    }
    for partition in 0..state.shape.partitions {
        let writes = state.writing.is_some() && state.queue.front() == Some(&partition);
        let written = writes.then(|| state.written_levels(partition));
        let written = written.unwrap_or_default();
        for level in 0..state.shape.levels {
            if !state.filled(partition, level) && !written.contains(&level) {
                state.levels[partition][level].forget_order();
            }
        }
    }
}
