//! Saves and loads among random calls: saves of a store at rest and refused ones,
//! loads of what was just saved, of older forms, and of forms that are wrong or
//! that no save made.

use super::Random;
use plain::calls::{Ask, Call, Outcome, Store};
use plain::form::broken::Broken;
use plain::form::{BODY, Form, bad, longest, sums};
use plain::mistakes::Mistake;
use plain::saves::{Saved, Watch};
use plain::shape::Shape;
use plain::state::State;

/// The memory of stores whose situations are noted, which takes as long as the
/// state is large, and of every store whose form is made here.
const WATCHED: usize = 8192;
const SMALL: usize = 1300;

/// Stores with more slots than these are not loaded from forms that no save made,
/// which would take long to make.
const SLOTS: usize = 256;

/// What is saved and loaded.
pub struct Saving {
    /// The last form that was saved of a state that calls left, and the one that
    /// the last call saved.
    last: Option<Vec<u8>>,
    just: Option<Vec<u8>>,
    /// Whether the state is of a form that no save made, or comes from one.
    away: bool,
    watch: Option<Watch>,
}

impl Saving {
    /// The state before a call, if the call is watched.
    pub fn before(&self, model: &Store) -> Option<Option<State>> {
        self.watch.as_ref().map(|_| model.state.clone())
    }

    pub fn note(&mut self, before: Option<Option<State>>, call: &Call, outcome: &Outcome) {
        if let (Some(watch), Some(before)) = (&mut self.watch, before) {
            watch.call(before.as_ref(), call, outcome);
        }
        let just = self.just.take();
        match (&call.ask, outcome.number) {
            (Ask::Open(_), 0) => self.away = false,
            (Ask::Save, 0) => {
                self.just = Some(outcome.bytes.clone());
                if !self.away {
                    self.last.clone_from(&self.just);
                }
            }
            (Ask::Load(form), 0) if self.last.as_ref() == Some(form) => self.away = false,
            (Ask::Load(form), 0) => self.away |= just.as_ref() != Some(form),
            _ => {}
        }
    }

    /// The situations that were met, each as often as it was.
    pub fn met(&self) -> &[Saved] {
        self.watch.as_ref().map_or(&[], |watch| &watch.met)
    }
}

impl Random {
    /// One that saves and loads, too.
    pub fn saving(shape: Shape, mistake: Mistake, seed: u64) -> Random {
        let mut random = Random::new(shape, mistake, seed);
        random.saving = Some(Saving {
            last: None,
            just: None,
            away: false,
            watch: (shape.needed() <= WATCHED).then(Watch::default),
        });
        random
    }

    /// The bytes of memory that its calls may be lent.
    pub fn most_memory(&self) -> usize {
        self.home.needed().max(SMALL) + super::SLACK
    }

    /// Whether the state is none that calls left.
    pub fn is_away(&self) -> bool {
        self.saving.as_ref().is_some_and(|saving| saving.away)
    }

    /// A save or a load now and then.
    pub(super) fn saving_call(&mut self) -> Option<Call> {
        let saving = self.saving.as_ref()?;
        if saving.away && self.rng.chance(2) {
            return Some(self.open());
        }
        if let Some(form) = saving.just.as_ref().filter(|_| self.rng.chance(75)) {
            let form = form.clone();
            return Some(self.lend_load(form));
        }
        let Some(state) = &self.model.state else {
            return self.closed_call();
        };
        let at_rest = state.is_at_rest();
        // a job that has begun is often all that keeps it from rest
        let begun = state.begun > 0 && state.request.is_none() && state.outstanding.is_empty();
        match self.rng.below(1000) {
            0..10 => Some(self.save(0)),
            10..13 => Some(self.short_save()),
            13..18 => self.other_load(),
            18 => {
                let form = self.saving.as_ref()?.last.clone()?;
                Some(self.lend_load(form))
            }
            19..150 if at_rest || begun => Some(self.save(9)),
            _ => None,
        }
    }

    /// A closed store is opened, if nothing else is done to it.
    fn closed_call(&mut self) -> Option<Call> {
        match self.rng.below(10) {
            0 => Some(self.save(9)),
            1..4 => {
                let form = self.saving.as_ref()?.last.clone()?;
                Some(self.lend_load(form))
            }
            4 => self.other_load(),
            _ => None,
        }
    }

    /// A save with so many bytes to spare at most.
    fn save(&mut self, spare: usize) -> Call {
        let spare = self.rng.below(spare + 1);
        self.lend(Ask::Save, 0, longest(&self.shape) + spare)
    }

    /// A byte of the buffer or of the memory is missing.
    fn short_save(&mut self) -> Call {
        let mut call = self.save(0);
        match self.rng.chance(50) {
            true => call.buffer -= 1,
            false => call.memory = self.shape.needed() - 1,
        }
        call
    }

    /// A load with as much memory as the form's shape needs, or a byte less.
    fn lend_load(&mut self, form: Vec<u8>) -> Call {
        let whole = sums::is_length(form.len()).then(|| sums::out_of_blocks(&form));
        let fields = whole.and_then(|payload| Form::read(&payload));
        let shape = fields.map_or(self.shape, |(form, _)| form.shape);
        let mut call = self.lend(Ask::Load(form), 0, 0);
        let needed = shape.needed().min(self.most_memory());
        call.memory = match self.rng.below(40) {
            0 => needed - 1,
            _ => needed,
        };
        call
    }

    /// A form that no save made, of this shape or another, broken or not.
    fn other_load(&mut self) -> Option<Call> {
        let own = self.model.state.as_ref().filter(|state| state.is_at_rest());
        let own = own.map(State::form).filter(|_| self.rng.chance(70));
        let slots = self.home.partitions << self.home.levels;
        let shape = match slots <= SLOTS && self.rng.chance(60) {
            true => self.home,
            false => bad::small_shape(&mut self.rng),
        };
        let mut form = own.unwrap_or_else(|| bad::passable(&mut self.rng, shape));
        let broken = Broken::ALL[self.rng.below(Broken::ALL.len())];
        let breaks = self.rng.chance(50);
        let mut bytes = match self.rng.below(5) {
            _ if breaks => broken.bytes(&form)?,
            0 => {
                form.records.reverse();
                form.bytes()
            }
            _ => form.bytes(),
        };
        let bit = match self.rng.chance(50) {
            true => self.rng.below(8 * bytes.len()),
            false => 8 * BODY + self.rng.below(32),
        };
        match self.rng.below(8) {
            0 => bytes.truncate(bytes.len() - 1 - self.rng.below(bytes.len())),
            1 => bytes[bit / 8] ^= 1 << (bit % 8),
            _ => {}
        }
        let mut call = self.lend_load(bytes);
        call.memory -= usize::from(breaks && self.rng.chance(50));
        Some(call)
    }
}
