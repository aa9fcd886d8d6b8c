//! Random sessions in which the store is saved and loaded. Many loads follow
//! their save at once, and some are of other forms, which may be refused.

use super::Script;
use crate::calls::{Ask, Call};
use crate::form::broken::Broken;
use crate::form::{BLOCK, BODY, Form, bad, longest, sums};
use crate::shape::Shape;
use crate::state::State;

/// Which forms a session has beside those that it saves.
#[derive(Clone, Copy, Debug, PartialEq, Eq)]
pub enum Forms {
    /// None: each load is of the form that the call before it saved.
    Own,
    /// Forms of this shape, wrong ones, and its own ones later.
    Any(Shape),
}

impl Script {
    /// A session of so many calls in which the store is saved and loaded, and
    /// requests are made while their partition is rebuilt.
    pub fn saving(shape: Shape, forms: Forms, seed: u64, length: usize) -> Script {
        let mut script = Script::fresh(shape, seed);
        script.saves = true;
        script.beside = Some(1);
        script.open(false);
        while script.calls.len() < length {
            script.saving_step(forms);
        }
        script
    }

    /// A session of so many calls that begins with the load of this form.
    pub fn loading(form: &Form, seed: u64, length: usize) -> Script {
        let mut script = Script::fresh(form.shape, seed);
        script.saves = true;
        script.load(form.bytes());
        while script.calls.len() < length {
            script.good();
        }
        script
    }

    fn saving_step(&mut self, forms: Forms) {
        let Some(state) = &self.store.state else {
            return self.after_refusal();
        };
        let (at_rest, begun) = (
            state.is_at_rest(),
            state.begun > 0 && state.request.is_none(),
        );
        match (self.rng.below(100), forms) {
            (0..3, _) => self.bad(),
            (3..6, _) => self.refused_save(),
            (6..12, Forms::Any(shape)) => self.other_load(shape),
            (12..42, _) if at_rest => self.save_and_load(forms),
            (12..30, _) if begun => self.save(),
            _ => self.good(),
        }
    }

    /// A save with a buffer that suffices, and now and then one that is longer.
    pub fn save(&mut self) {
        let more = match self.rng.chance(30) {
            true => 1 + self.rng.below(9),
            false => 0,
        };
        self.lend(Ask::Save, Vec::new(), longest(&self.shape) + more);
        if let Some(outcome) = self.outcomes.last()
            && outcome.number == 0
        {
            self.last = Some(outcome.bytes.clone());
        }
    }

    /// Mostly the load comes at once.
    fn save_and_load(&mut self, forms: Forms) {
        self.save();
        let at_once = forms == Forms::Own || self.rng.chance(70);
        let saved = self.outcomes.last().map(|outcome| outcome.bytes.clone());
        if let Some(form) = saved.filter(|form| at_once && !form.is_empty()) {
            self.load(form);
        }
    }

    /// Too little memory, too short a buffer, or just a save, which is refused
    /// unless the store is at rest.
    fn refused_save(&mut self) {
        match self.rng.below(3) {
            0 => self.short_of(Ask::Save, longest(&self.shape)),
            1 => self.lend(Ask::Save, Vec::new(), longest(&self.shape) - 1),
            _ => self.save(),
        }
    }

    fn short_of(&mut self, ask: Ask, buffer: usize) {
        let call = Call {
            ask,
            memory: self.shape.needed() - 1,
            words: Vec::new(),
            buffer,
        };
        self.record(call);
    }

    /// Loads a form with as much memory as it needs. The store has then the
    /// form's shape.
    pub(super) fn load(&mut self, form: Vec<u8>) {
        let before = self.shape;
        if let Some((fields, _)) = Form::read(&payload(&form)) {
            self.shape = fields.shape;
        }
        self.lend(Ask::Load(form), Vec::new(), 0);
        if self.store.state.is_none() {
            self.shape = before;
        }
    }

    fn other_load(&mut self, shape: Shape) {
        let own = self.store.state.as_ref().filter(|state| state.is_at_rest());
        let own = own.map(State::form).filter(|_| self.rng.chance(60));
        let form = own.unwrap_or_else(|| self.short_form(shape));
        match self.rng.below(8) {
            0 => self.load_other_length(form.bytes()),
            1 => self.load_wrong_sum(form.bytes()),
            2 => self.load_short(form.bytes()),
            3..6 => self.load_broken(&form),
            6 => self.load_turned(form),
            _ => self.load(form.bytes()),
        }
    }

    /// A form that the rules let pass, with few jobs so that it is soon read.
    fn short_form(&mut self, shape: Shape) -> Form {
        let mut form = bad::passable(&mut self.rng, shape);
        form.queue.truncate(4);
        form
    }

    fn load_other_length(&mut self, mut form: Vec<u8>) {
        let length = [0, 1, BLOCK - 1, BLOCK + 1][self.rng.below(4)];
        form.resize(length, 0);
        self.load(form);
    }

    fn load_wrong_sum(&mut self, mut form: Vec<u8>) {
        let at = match self.rng.chance(50) {
            true => BODY + self.rng.below(4),
            false => self.rng.below(40),
        };
        form[at] ^= 1 << self.rng.below(8);
        self.load(form);
    }

    pub(super) fn load_short(&mut self, form: Vec<u8>) {
        let before = self.shape;
        if let Some((fields, _)) = Form::read(&payload(&form)) {
            self.shape = fields.shape;
        }
        self.short_of(Ask::Load(form), 0);
        self.shape = before;
    }

    /// A broken form, at times with a wrong sum or too little memory, too.
    fn load_broken(&mut self, form: &Form) {
        let broken = Broken::ALL[self.rng.below(Broken::ALL.len())];
        let Some(mut bytes) = broken.bytes(form) else {
            return;
        };
        match self.rng.below(4) {
            0 => {
                bytes[BODY] ^= 1;
                self.load(bytes);
            }
            1 => self.load_short(bytes),
            _ => self.load(bytes),
        }
    }

    /// The form with its records in the other order.
    fn load_turned(&mut self, mut form: Form) {
        form.records.reverse();
        self.load(form.bytes());
    }

    /// After a refused load some calls are refused, and then a form is loaded
    /// or the store opened anew.
    fn after_refusal(&mut self) {
        match (self.rng.below(5), self.last.clone()) {
            (0, _) => self.save(),
            (1, _) => self.make(Ask::Turn, 3, self.shape.bytes),
            (_, Some(form)) => self.load(form),
            _ => self.open(false),
        }
    }
}

fn payload(form: &[u8]) -> Vec<u8> {
    match sums::is_length(form.len()) {
        true => sums::out_of_blocks(form),
        false => Vec::new(),
    }
}
