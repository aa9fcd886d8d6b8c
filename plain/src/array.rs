//! The plain array: a store behaves, request by request, like an array of
//! blocks. Random calls are made against an honest host that completes the
//! outstanding commands in random order. Where a block was found is compared
//! with what the tables of the levels have. The client may be saved and loaded
//! now and then.

use crate::calls::{Ask, Call, Outcome, Store};
use crate::form::longest;
use crate::found::Found;
use crate::host::Host;
use crate::mistakes::Mistake;
use crate::rng::Rng;
use crate::shape::Shape;
use crate::state::{READ, State, WRITE};

struct Check {
    shape: Shape,
    rng: Rng,
    store: Store,
    host: Host,
    array: Vec<Vec<u8>>,
    /// The kind, block and contents of the request in hand.
    request: Option<(usize, usize, Vec<u8>)>,
    /// Where its block was when nothing held it any longer.
    found: Option<Found>,
    /// How often each number was answered.
    numbers: Numbers,
    collected: usize,
    /// In how many of a hundred cases a call is a save, which a load follows if
    /// it is not refused.
    saves: usize,
}

/// By number, how often it was answered.
pub type Numbers = [usize; 19];

/// Makes so many calls. Hands back how often each number was answered and
/// how many requests were collected, or says what departs from the array.
pub fn check(
    shape: Shape,
    mistake: Mistake,
    seed: u64,
    calls: usize,
) -> Result<(Numbers, usize), String> {
    check_saving(shape, mistake, seed, calls, 0)
}

/// The same with saves and loads, in so many of a hundred cases.
pub fn check_saving(
    shape: Shape,
    mistake: Mistake,
    seed: u64,
    calls: usize,
    saves: usize,
) -> Result<(Numbers, usize), String> {
    let mut check = Check {
        shape,
        rng: Rng::new(seed),
        store: Store::new(mistake),
        host: Host::default(),
        array: vec![vec![0; shape.bytes]; shape.blocks],
        request: None,
        found: None,
        numbers: [0; 19],
        collected: 0,
        saves,
    };
    check.make(Ask::Open(shape), shape.blocks)?;
    for place in 0..calls {
        check.random_call().map_err(|e| format!("{e} at {place}"))?;
    }
    Ok((check.numbers, check.collected))
}

/// Whether a request for this partition may be looked up: there is no job for
/// it, or only one, or those that run together, at the front and not writing
/// yet, and above the levels that they change each filled one has fewer than
/// 2^l slots read.
fn looks_up(state: &State, p: usize) -> bool {
    let jobs: Vec<usize> = (0..state.queue.len())
        .filter(|at| state.queue[*at] == p)
        .collect();
    let Some(first) = jobs.first() else {
        return true;
    };
    let together = state.begun.max(1);
    if *first > 0 || state.writing.is_some() || jobs.len() > together {
        return false;
    }
    let (before, after) = (state.counter[p], state.counter[p] + together);
    let kept = |level: &usize| before >> level == after >> level && before & 1 << level != 0;
    let marks = |level: usize| state.levels[p][level].read.iter();
    { (0..state.shape.levels).filter(kept) }
        .all(|level| marks(level).filter(|read| **read).count() < 1 << level)
}

/// Where a block is by the tables of its partition's levels.
fn found(state: &State, block: usize) -> Found {
    let levels = &state.levels[state.partition[block]];
    let level = levels
        .iter()
        .position(|l| l.block_at.contains(&Some(block)));
    match level {
        Some(level) => Found::Level(level),
        None if state.is_waiting(block) => Found::Cache,
        None => Found::Nowhere,
    }
}

impl Check {
    /// Only an accepted collect tells where a block was found.
    fn make(&mut self, ask: Ask, words: usize) -> Result<Outcome, String> {
        let buffer = match ask {
            Ask::Save => longest(&self.shape),
            _ => self.shape.bytes,
        };
        let call = Call {
            ask,
            memory: self.shape.needed(),
            words: self.rng.tape(words),
            buffer,
        };
        let outcome = self.store.call(&call);
        self.numbers[usize::from(outcome.number)] += 1;
        let tells = outcome.number == 0 && call.ask == Ask::Collect;
        if !tells && outcome.found != Found::Nowhere {
            return Err(format!("{:?} is told", outcome.found));
        }
        Ok(outcome)
    }

    fn random_call(&mut self) -> Result<(), String> {
        if self.saves > 0 && self.rng.chance(self.saves) {
            return self.save_and_load();
        }
        let number = match self.rng.below(9) {
            0 => self.request()?,
            1 => self.collect()?,
            2..=4 if !self.host.pending.is_empty() => self.complete()?,
            _ => self.turn()?,
        };
        self.watch();
        match number {
            2 | 3 | 11 | 12 => Err(format!("answered {number}")),
            8 if self.shape.places == self.shape.blocks => Err("answered 8 with E = N".into()),
            _ => Ok(()),
        }
    }

    /// What is at rest can be saved, and what is saved can be loaded.
    fn save_and_load(&mut self) -> Result<(), String> {
        let at_rest = self.store.state.as_ref().is_some_and(State::is_at_rest);
        match (self.make(Ask::Save, 0)?.number, at_rest) {
            (16, false) => Ok(()),
            (0, true) => match self.make(Ask::Reload, 0)?.number {
                0 => Ok(()),
                number => Err(format!("a load answered {number}")),
            },
            (number, _) => Err(format!("a save answered {number}")),
        }
    }

    /// Notes where the block in hand is, once nothing holds it.
    fn watch(&mut self) {
        let (Some(state), Some((_, block, _))) = (&self.store.state, &self.request) else {
            return;
        };
        if self.found.is_none() && looks_up(state, state.partition[*block]) {
            self.found = Some(found(state, *block));
        }
    }

    fn request(&mut self) -> Result<u8, String> {
        let block = self.rng.below(self.shape.blocks);
        let writes = self.rng.chance(50);
        let (kind, length) = if writes {
            (WRITE, self.shape.bytes)
        } else {
            (READ, 0)
        };
        let contents = self.rng.bytes(length);
        let ask = Ask::Request {
            kind,
            block,
            contents: contents.clone(),
        };
        let outcome = self.make(ask, 2)?;
        if outcome.number == 0 {
            self.request = Some((kind, block, contents));
        }
        Ok(outcome.number)
    }

    fn turn(&mut self) -> Result<u8, String> {
        // About twice the draws of all orders of a run: 3 never comes.
        let outcome = self.make(Ask::Turn, 4 << self.shape.levels)?;
        if outcome.number == 0 {
            self.host.send(outcome.command, outcome.bytes);
        }
        Ok(outcome.number)
    }

    fn complete(&mut self) -> Result<u8, String> {
        let index = self.rng.below(self.host.pending.len());
        let (command, bytes) = self.host.answer(index);
        let number = self.make(Ask::Completion { command, bytes }, 0)?.number;
        if number == 0 {
            self.host.done(command);
        }
        Ok(number)
    }

    fn collect(&mut self) -> Result<u8, String> {
        let outcome = self.make(Ask::Collect, 0)?;
        if outcome.number != 0 {
            return Ok(outcome.number);
        }
        let (kind, block, contents) = self.request.take().ok_or("collected nothing")?;
        if outcome.bytes != self.array[block] {
            return Err(format!("block {block} differs from the array"));
        }
        if Some(outcome.found) != self.found.take() {
            return Err(format!("block {block} was not {:?}", outcome.found));
        }
        if kind == WRITE {
            self.array[block] = contents;
        }
        self.collected += 1;
        Ok(0)
    }
}
