//! The five calls, their questions and their outcomes. Save and load are in
//! saving.rs.

use crate::draws::WIDTH;
use crate::found::Found;
use crate::mistakes::Mistake;
use crate::shape::Shape;
use crate::state::{Command, Place, READ, Request, State, WRITE};
use std::iter::repeat_n;

pub use crate::draws::Draws;

#[derive(Clone, Debug, PartialEq, Eq)]
pub enum Ask {
    Open(Shape),
    Request {
        kind: usize,
        block: usize,
        contents: Vec<u8>,
    },
    Turn,
    Completion {
        command: Command,
        bytes: Vec<u8>,
    },
    Collect,
    Save,
    /// The bytes of a form.
    Load(Vec<u8>),
    /// The load of the form that the call just before saved, or of no bytes if
    /// it saved none. As that depends on the words drawn, lists need a name for
    /// it.
    Reload,
}

/// A call with what it is lent: bytes of memory, words of the tape, and the
/// length of a turn's write buffer, a collect's answer buffer or a save's
/// buffer.
#[derive(Clone, Debug, PartialEq, Eq)]
pub struct Call {
    pub ask: Ask,
    pub memory: usize,
    pub words: Vec<u16>,
    pub buffer: usize,
}

/// The number answered, the words taken, a turn's command, the bytes put in
/// the lent buffer from its start, where a collected block was found, and the
/// length of a saved form. The default is that of an accepted completion.
#[derive(Clone, Debug, Default, PartialEq, Eq)]
pub struct Outcome {
    pub number: u8,
    pub taken: usize,
    pub command: Command,
    pub bytes: Vec<u8>,
    pub found: Found,
    pub length: usize,
}

impl Outcome {
    fn refused(number: u8) -> Outcome {
        Outcome {
            number,
            ..Outcome::default()
        }
    }

    fn taking(taken: usize) -> Outcome {
        Outcome {
            taken,
            ..Outcome::default()
        }
    }
}

/// A question: a no answers the number.
pub fn ask(yes: bool, no: u8) -> Result<(), u8> {
    if yes { Ok(()) } else { Err(no) }
}

/// A store as the calls see it: closed, or with a state.
#[derive(Clone, Debug, PartialEq, Eq, Hash)]
pub struct Store {
    pub mistake: Mistake,
    pub state: Option<State>,
    /// The bits of a word.
    pub width: u32,
    /// The bounds of the last call's draws, in turn.
    pub bounds: Vec<usize>,
    /// The form that the last call saved, or no bytes.
    pub saved: Vec<u8>,
}

impl Store {
    pub fn new(mistake: Mistake) -> Store {
        Store::of_width(WIDTH, mistake)
    }

    pub fn of_width(width: u32, mistake: Mistake) -> Store {
        Store {
            mistake,
            state: None,
            width,
            bounds: Vec::new(),
            saved: Vec::new(),
        }
    }

    pub fn call(&mut self, call: &Call) -> Outcome {
        self.bounds.clear();
        let saved = std::mem::take(&mut self.saved);
        match &call.ask {
            Ask::Save => self.save(call),
            Ask::Load(form) => self.load(form, call.memory),
            Ask::Reload => self.load(&saved, call.memory),
            _ => self.draw(call),
        }
    }

    /// One of the five calls of document 01, which may draw.
    fn draw(&mut self, call: &Call) -> Outcome {
        let bounds = &mut self.bounds;
        let mut draws = Draws::of_width(self.width, self.mistake, &call.words, bounds);
        let answer = match (&call.ask, &mut self.state) {
            (Ask::Open(shape), state) => {
                let opened = open(*shape, self.mistake, call.memory, &mut draws);
                let number = opened.as_ref().err().copied();
                // A refused open leaves the store closed.
                *state = opened.ok();
                number.map_or(Ok(Outcome::taking(draws.taken())), Err)
            }
            (_, Some(state)) if call.memory >= state.shape.needed() => state.call(call, &mut draws),
            _ => Err(2),
        };
        answer.unwrap_or_else(|number| self.refuse(&call.ask, number))
    }

    fn refuse(&self, ask: &Ask, number: u8) -> Outcome {
        let mut outcome = Outcome::refused(number);
        if let (Ask::Collect, Some(state)) = (ask, &self.state) {
            outcome.found = state.found_at_refusal();
        }
        outcome
    }

    /// Whether this call may draw; if not, it has only one way to go on.
    pub fn may_draw(&self, call: &Call) -> bool {
        match (&call.ask, &self.state) {
            (Ask::Open(_), _) => true,
            (Ask::Request { .. }, Some(state)) => state.request.is_none(),
            (Ask::Turn, Some(state)) => {
                let draws = state.turn_bounds().len();
                draws > 0 && draws <= call.words.len()
            }
            _ => false,
        }
    }
}

fn open(shape: Shape, mistake: Mistake, memory: usize, draws: &mut Draws) -> Result<State, u8> {
    ask(shape.in_bounds(), 1)?;
    ask(memory >= shape.needed(), 2)?;
    ask(draws.settle(repeat_n(shape.partitions, shape.blocks)), 3)?;
    let partition = (0..shape.blocks)
        .map(|_| draws.below(shape.partitions))
        .collect();
    Ok(State::fresh(shape, mistake, partition))
}

impl State {
    fn call(&mut self, call: &Call, draws: &mut Draws) -> Result<Outcome, u8> {
        let mut outcome = Outcome::default();
        match &call.ask {
            Ask::Open(_) | Ask::Save | Ask::Load(_) | Ask::Reload => return Err(2),
            Ask::Request {
                kind,
                block,
                contents,
            } => self.ask_for(*kind, *block, contents, draws)?,
            Ask::Turn => (outcome.command, outcome.bytes) = self.turn(call.buffer, draws)?,
            Ask::Completion { command, bytes } => self.complete(*command, bytes)?,
            Ask::Collect => (outcome.bytes, outcome.found) = self.collect(call.buffer)?,
        }
        self.release();
        outcome.taken = draws.taken();
        if self.mistake == Mistake::WordsInvented && matches!(call.ask, Ask::Request { .. }) {
            outcome.taken = 3;
        }
        Ok(outcome)
    }

    fn ask_for(
        &mut self,
        kind: usize,
        block: usize,
        contents: &[u8],
        draws: &mut Draws,
    ) -> Result<(), u8> {
        ask(kind == READ || kind == WRITE, 2)?;
        ask(self.request.is_none(), 4)?;
        ask(block < self.shape.blocks, 5)?;
        let length = if kind == WRITE { self.shape.bytes } else { 0 };
        ask(contents.len() == length, 6)?;
        ask(self.queue.len() <= 62, 7)?;
        let moves = self.is_waiting(block) && self.mistake != Mistake::EightForWaiting;
        ask(self.waiting() < self.shape.places || moves, 8)?;
        let evictions = self.evictions();
        ask(draws.settle([self.shape.partitions, evictions.len()]), 3)?;
        self.request = Some(Request {
            kind,
            block,
            contents: contents.to_vec(),
            next: draws.below(self.shape.partitions),
            evict: evictions[draws.below(evictions.len())],
            level: 0,
            awaits: Vec::new(),
            found: None,
            at_acceptance: self.look_up(block),
        });
        Ok(())
    }

    /// The partitions among which the eviction partition is drawn.
    fn evictions(&self) -> Vec<usize> {
        let all = 0..self.shape.partitions;
        if self.mistake == Mistake::EvictionAmongWaiting {
            let waits = |q: &usize| {
                (0..self.shape.blocks).any(|b| self.is_waiting(b) && self.partition[b] == *q)
            };
            let some: Vec<usize> = all.clone().filter(waits).collect();
            if !some.is_empty() {
                return some;
            }
        }
        all.collect()
    }

    fn complete(&mut self, command: Command, bytes: &[u8]) -> Result<(), u8> {
        ask(command.kind == READ || command.kind == WRITE, 2)?;
        let found = self.outstanding.iter().position(|c| *c == command);
        let index = found.ok_or(11)?;
        let reads = command.kind == READ;
        let length = if reads { self.shape.bytes } else { 0 };
        ask(bytes.len() == length, 12)?;
        self.outstanding.remove(index);
        if let Some(request) = &mut self.request {
            request.awaits.retain(|awaited| *awaited != command);
        }
        let q = command.partition;
        if reads {
            let level = &self.levels[q][command.level];
            if let Some(block) = level.block_at[command.slot] {
                self.contents[block] = bytes.to_vec();
            }
        } else if self.writing == Some(self.writes(q).count()) && !self.busy(q) {
            self.end_job();
        }
        Ok(())
    }

    /// The contents before the request, and where its block was found.
    fn collect(&mut self, buffer: usize) -> Result<(Vec<u8>, Found), u8> {
        let request = self.request.as_ref().ok_or(13)?;
        ask(self.finished(request), 14)?;
        let found = request.found.ok_or(14)?;
        ask(buffer == self.shape.bytes, 15)?;
        let request = self.request.take().ok_or(13)?;
        let before = self.contents[request.block].clone();
        if request.kind == WRITE {
            self.contents[request.block] = request.contents.clone();
        }
        let after = self.contents[request.block].clone();
        self.enter_cache(&request);
        let bytes = match self.mistake {
            Mistake::ZerosForever => vec![0; self.shape.bytes],
            Mistake::NewContentsHandedOut => after,
            _ => before,
        };
        Ok((bytes, self.found_at_collect(request.block, found)))
    }

    /// Moves the block to the young end of the cache under its next partition
    /// and queues the two jobs.
    fn enter_cache(&mut self, request: &Request) {
        let p = self.partition[request.block];
        if let Place::Stored { level, item } = self.place[request.block]
            && self.mistake != Mistake::SlotKept
        {
            let level = &mut self.levels[p][level];
            level.block_at[level.slot_of[item]] = None;
        }
        self.place[request.block] = Place::Waiting(self.age);
        self.age += 1;
        if self.mistake != Mistake::KeepsPartition {
            self.partition[request.block] = request.next;
        }
        self.queue.extend(match self.mistake {
            Mistake::QueueOtherOrder => [request.evict, p],
            _ => [p, request.evict],
        });
    }
}
