//! The two calls of document 02, P5: save puts the form of a state at rest
//! into a lent buffer, load brings the state of a form.

use crate::calls::{Call, Outcome, Store, ask};
use crate::form::{Form, longest, sums};
use crate::mistakes::Mistake;
use crate::shape::Shape;
use crate::state::State;

impl Store {
    /// The state is left as it is.
    pub(crate) fn save(&mut self, call: &Call) -> Outcome {
        let state = self.state.as_ref();
        let ready = state.filter(|state| call.memory >= state.shape.needed());
        let saved = ready.ok_or(2).and_then(|state| state.save(call.buffer));
        let mut outcome = Outcome::default();
        match saved {
            Ok(form) => {
                outcome.length = form.len();
                outcome.bytes = form.clone();
                self.saved = form;
            }
            Err(number) => outcome.number = number,
        }
        match (self.mistake, ready) {
            (Mistake::TailCleared, _) if outcome.number == 0 => {
                outcome.bytes.resize(call.buffer, 0);
            }
            (Mistake::LengthWhenRefused, Some(state)) if outcome.number == 16 => {
                outcome.length = state.bytes().len();
            }
            _ => {}
        }
        outcome
    }

    /// A refused load leaves the store closed.
    pub(crate) fn load(&mut self, form: &[u8], memory: usize) -> Outcome {
        let loaded = load(form, memory, self.mistake);
        let number = loaded.as_ref().err().copied().unwrap_or(0);
        if number == 0 || self.mistake != Mistake::RefusedLoadKeeps {
            self.state = loaded.ok();
        }
        Outcome {
            number,
            ..Outcome::default()
        }
    }
}

impl State {
    /// Whether no request is in hand, no command outstanding and no job begun.
    pub fn is_at_rest(&self) -> bool {
        self.request.is_none() && self.outstanding.is_empty() && self.begun == 0
    }

    fn may_be_saved(&self) -> bool {
        let idle = self.outstanding.is_empty();
        match self.mistake {
            Mistake::SavesInHand if self.request.is_some() => idle && self.begun == 0,
            Mistake::SavesBegun if self.begun > 0 => idle && self.request.is_none(),
            Mistake::SavesOutstanding if !idle => true,
            _ => self.is_at_rest(),
        }
    }

    /// The form in its blocks.
    pub fn bytes(&self) -> Vec<u8> {
        sums::in_blocks(&self.form().payload(), self.mistake)
    }

    /// Whatever the state and E, the buffer has to be as long as the longest
    /// form of the shape. So the last question is never answered no.
    fn save(&self, buffer: usize) -> Result<Vec<u8>, u8> {
        let enough = buffer >= longest(&self.shape);
        ask(enough || self.mistake == Mistake::BufferByForm, 2)?;
        ask(self.may_be_saved(), 16)?;
        let form = self.bytes();
        ask(form.len() <= buffer, 2)?;
        Ok(form)
    }
}

fn load(form: &[u8], memory: usize, mistake: Mistake) -> Result<State, u8> {
    if mistake == Mistake::FormBeforeSums && sums::is_length(form.len()) {
        fields(form, mistake)?;
    }
    ask(sums::are_blocks(form, mistake), 17)?;
    if mistake == Mistake::MemoryBeforeForm {
        let (read, _) = Form::read(&sums::out_of_blocks(form)).ok_or(18)?;
        ask(is_enough(memory, &read.shape), 2)?;
    }
    let form = fields(form, mistake)?;
    ask(is_enough(memory, &form.shape), 2)?;
    Ok(form.state(mistake))
}

fn fields(form: &[u8], mistake: Mistake) -> Result<Form, u8> {
    Form::of_payload(&sums::out_of_blocks(form), mistake).ok_or(18)
}

fn is_enough(memory: usize, shape: &Shape) -> bool {
    memory >= shape.needed()
}
