//! What may be met in saves and loads (document 02, P5), so that sessions and
//! tests can say that they have it.

use crate::calls::{Ask, Call, Outcome, Store};
use crate::form::{Form, Spot, longest, sums};
use crate::joined::joined;
use crate::mistakes::Mistake;
use crate::state::{Place, State, Step};

#[derive(Clone, Copy, Debug, PartialEq, Eq, Hash, PartialOrd, Ord)]
pub enum Saved {
    /// A state that calls left is saved with a block nowhere, with two waiting,
    /// with one stored, with a slot read, with a job queued.
    Nowhere,
    TwoWaiting,
    Stored,
    ReadMark,
    Queued,
    /// The buffer is longer than it has to be.
    Tail,
    /// The form has two blocks.
    TwoBlocks,
    /// Such a state is loaded right after its save. After such a load a read is
    /// sent for a request and one for a job, an order is drawn, a read completes,
    /// and a stored block is collected.
    AtOnce,
    RequestRead,
    JobRead,
    Drawn,
    Completed,
    Collected,
    /// A form is loaded into a store of another shape, or a closed one.
    OtherShape,
    IntoClosed,
    /// Its records are not in the order of their ages.
    OtherOrder,
    /// A save is refused with 2: the store is closed, its memory or the buffer
    /// too short.
    SaveClosed,
    SaveMemory,
    SaveBuffer,
    /// With 16: a request is in hand and nothing else is the matter; a command
    /// is outstanding, which is never alone; a job has begun and nothing else is
    /// the matter; it has so by a request's read.
    InHand,
    Outstanding,
    Begun,
    BegunByRequest,
    /// A load is refused with 17: for its length, for a sum, for a sum though
    /// other fields are wrong, too.
    Length,
    Sum,
    SumFirst,
    /// With 18, and the memory is too short, too.
    FormFirst,
    /// With 2.
    LoadMemory,
    /// A call is answered 2 as the load before it was refused.
    Closed,
    /// After the load of a form that no save made a turn is answered 2: no
    /// unread dummy is left, or too many blocks would be gathered.
    NoDummy,
    TooMany,
}

impl Saved {
    pub const ALL: [Saved; 31] = joined(&[&Saved::BY_SAVE, &Saved::BY_LOAD, &Saved::BY_REFUSAL]);

    /// In saves.
    pub const BY_SAVE: [Saved; 7] = [
        Saved::Nowhere,
        Saved::TwoWaiting,
        Saved::Stored,
        Saved::ReadMark,
        Saved::Queued,
        Saved::Tail,
        Saved::TwoBlocks,
    ];

    /// In loads and after them.
    pub const BY_LOAD: [Saved; 9] = [
        Saved::AtOnce,
        Saved::RequestRead,
        Saved::JobRead,
        Saved::Drawn,
        Saved::Completed,
        Saved::Collected,
        Saved::OtherShape,
        Saved::IntoClosed,
        Saved::OtherOrder,
    ];

    pub const BY_REFUSAL: [Saved; 15] = [
        Saved::SaveClosed,
        Saved::SaveMemory,
        Saved::SaveBuffer,
        Saved::InHand,
        Saved::Outstanding,
        Saved::Begun,
        Saved::BegunByRequest,
        Saved::Length,
        Saved::Sum,
        Saved::SumFirst,
        Saved::FormFirst,
        Saved::LoadMemory,
        Saved::Closed,
        Saved::NoDummy,
        Saved::TooMany,
    ];
}

/// What is met by these calls.
pub fn met(calls: &[Call], outcomes: &[Outcome]) -> Vec<Saved> {
    let mut store = Store::new(Mistake::None);
    let mut watch = Watch::default();
    for (call, outcome) in calls.iter().zip(outcomes) {
        let before = store.state.clone();
        store.call(call);
        watch.call(before.as_ref(), call, outcome);
    }
    watch.met
}

/// Notes what calls meet, one after the other.
#[derive(Default)]
pub struct Watch {
    pub met: Vec<Saved>,
    /// The form that the last call saved.
    form: Vec<u8>,
    /// Whether the state is one that calls left: from an open, and through loads
    /// that came right after their save.
    left: bool,
    /// Whether there was such a load.
    at_once: bool,
    /// Whether it is closed by a refused load.
    refused: bool,
    /// Whether the front job was begun by a request's read.
    by_request: bool,
}

impl Watch {
    /// A call to the store with this state, and what came of it.
    pub fn call(&mut self, before: Option<&State>, call: &Call, outcome: &Outcome) {
        let form = std::mem::take(&mut self.form);
        match &call.ask {
            Ask::Save => self.save(before, call, outcome),
            Ask::Load(bytes) => self.load(before, call, bytes, outcome, &form),
            Ask::Open(_) => (self.left, self.at_once) = (outcome.number == 0, false),
            _ => self.other(before, call, outcome),
        }
        let closed = before.is_none() && !matches!(call.ask, Ask::Open(_) | Ask::Load(_));
        if closed && self.refused {
            self.met.push(Saved::Closed);
        }
        self.refused = match call.ask {
            Ask::Load(_) => outcome.number != 0,
            _ => self.refused && outcome.number != 0,
        };
        self.begin(before, call, outcome);
    }

    /// Notes by what the front job begins.
    fn begin(&mut self, before: Option<&State>, call: &Call, outcome: &Outcome) {
        let step = before.and_then(State::step);
        let begins = before.is_some_and(|state| state.begun == 0);
        if begins && call.ask == Ask::Turn && outcome.number == 0 {
            self.by_request = matches!(step, Some(Step::RequestRead(_)));
        }
    }

    fn save(&mut self, before: Option<&State>, call: &Call, outcome: &Outcome) {
        self.form = outcome.bytes.clone();
        let refusal = match (before, outcome.number) {
            (None, _) => Some(Saved::SaveClosed),
            (Some(state), 2) if call.memory < state.shape.needed() => Some(Saved::SaveMemory),
            (Some(_), 2) => Some(Saved::SaveBuffer),
            (Some(state), 16) => self.reason(state),
            _ => None,
        };
        self.met.extend(refusal);
        if let (Some(state), 0) = (before, outcome.number) {
            self.saved(state, call, outcome);
        }
    }

    /// The reason of a 16.
    fn reason(&self, state: &State) -> Option<Saved> {
        let outstanding = !state.outstanding.is_empty();
        match (state.request.is_some(), outstanding, state.begun > 0) {
            (true, false, false) => Some(Saved::InHand),
            (_, true, _) => Some(Saved::Outstanding),
            (false, false, true) if self.by_request => Some(Saved::BegunByRequest),
            (false, false, true) => Some(Saved::Begun),
            _ => None,
        }
    }

    fn saved(&mut self, state: &State, call: &Call, outcome: &Outcome) {
        let form = state.form();
        let nowhere = |(_, spot): &(usize, Spot)| *spot == Spot::Nowhere;
        let stored = |(_, spot): &(usize, Spot)| matches!(spot, Spot::Slot { .. });
        let all = [
            (Saved::Nowhere, form.blocks.iter().any(nowhere)),
            (Saved::TwoWaiting, form.records.len() > 1),
            (Saved::Stored, form.blocks.iter().any(stored)),
            (
                Saved::ReadMark,
                form.levels.iter().any(|w| w.marks.contains(&1)),
            ),
            (Saved::Queued, !form.queue.is_empty()),
            (Saved::Tail, call.buffer > longest(&state.shape)),
            (Saved::TwoBlocks, outcome.length > crate::form::BLOCK),
        ];
        let other = [Saved::Tail, Saved::TwoBlocks];
        let all = all.into_iter();
        let all = all.map(|(met, holds)| (met, holds && (self.left || other.contains(&met))));
        self.met.extend(those(all));
    }

    fn load(
        &mut self,
        before: Option<&State>,
        call: &Call,
        bytes: &[u8],
        outcome: &Outcome,
        saved: &[u8],
    ) {
        let fields = sums::is_length(bytes.len())
            .then(|| Form::read(&sums::out_of_blocks(bytes)))
            .flatten();
        let at_once = !saved.is_empty() && saved == bytes;
        match (outcome.number, fields) {
            (0, Some((form, _))) => {
                let ages = form.records.iter().map(|record| record.age);
                let other = |state: &State| state.shape != form.shape;
                self.met.extend(those([
                    (Saved::AtOnce, self.left && at_once),
                    (Saved::OtherShape, before.is_some_and(other)),
                    (Saved::IntoClosed, before.is_none()),
                    (Saved::OtherOrder, !ages.is_sorted()),
                ]));
                self.left &= at_once;
                self.at_once = at_once;
            }
            (number, fields) => {
                let needed = fields.map(|(form, _)| form.shape.needed());
                let short = needed.is_some_and(|needed| call.memory < needed);
                self.refused_load(number, bytes, short);
            }
        }
    }

    fn refused_load(&mut self, number: u8, bytes: &[u8], short: bool) {
        let length = sums::is_length(bytes.len());
        let right = |payload: Vec<u8>| Form::of_payload(&payload, Mistake::None).is_some();
        let kept = length && right(sums::out_of_blocks(bytes));
        self.met.extend(those([
            (Saved::Length, number == 17 && !length),
            (Saved::Sum, number == 17 && kept),
            (Saved::SumFirst, number == 17 && length && !kept),
            (Saved::FormFirst, number == 18 && short),
            (Saved::LoadMemory, number == 2),
        ]));
        (self.left, self.at_once) = (false, false);
    }

    fn other(&mut self, before: Option<&State>, call: &Call, outcome: &Outcome) {
        let Some(state) = before else { return };
        let step = state.step();
        let met = match (&call.ask, outcome.number) {
            (Ask::Turn, 2) if call.memory < state.shape.needed() => None,
            (Ask::Turn, 2) => Some(match step {
                Some(Step::FirstWrite) => Saved::TooMany,
                _ => Saved::NoDummy,
            }),
            (_, 0) if !self.left || !self.at_once => None,
            (Ask::Turn, 0) => match step {
                Some(Step::RequestRead(_)) => Some(Saved::RequestRead),
                Some(Step::JobRead(..)) => Some(Saved::JobRead),
                Some(Step::FirstWrite) => Some(Saved::Drawn),
                _ => None,
            },
            (Ask::Completion { .. }, 0) => Some(Saved::Completed),
            (Ask::Collect, 0) => state
                .request
                .as_ref()
                .filter(|request| matches!(state.place[request.block], Place::Stored { .. }))
                .map(|_| Saved::Collected),
            _ => None,
        };
        self.met.extend(met);
    }
}

/// Those that are the case.
fn those(all: impl IntoIterator<Item = (Saved, bool)>) -> impl Iterator<Item = Saved> {
    let holds = all.into_iter().filter(|(_, holds)| *holds);
    holds.map(|(met, _)| met)
}
