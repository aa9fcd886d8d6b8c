//! Random sessions: calls chosen one by one from what the honest store would
//! do next, with an honest host, and some calls that are to be refused.

mod made;
mod saves;

pub use saves::Forms;

use crate::calls::{Ask, Call, Outcome, Store};
use crate::host::Host;
use crate::mistakes::Mistake;
use crate::rng::Rng;
use crate::shape::Shape;
use crate::state::{Command, READ, State, WRITE};

pub struct Script {
    shape: Shape,
    rng: Rng,
    store: Store,
    host: Host,
    /// The block asked for last: asking again soon finds it waiting.
    recent: usize,
    /// If requests are mostly made while their partition is rebuilt, how much
    /// one counts that comes before the rebuild is under way.
    beside: Option<usize>,
    /// How many jobs are mostly left alone, so that some of them run together.
    hoards: usize,
    /// Whether the store is saved and loaded, too.
    saves: bool,
    /// The last form that was saved.
    last: Option<Vec<u8>>,
    pub calls: Vec<Call>,
    pub outcomes: Vec<Outcome>,
}

/// The outcomes of these calls under a mistake.
pub fn replay(calls: &[Call], mistake: Mistake) -> Vec<Outcome> {
    let mut store = Store::new(mistake);
    calls.iter().map(|call| store.call(call)).collect()
}

impl Script {
    /// A session of so many calls. With a second shape the store is opened
    /// anew in the middle.
    pub fn new(shape: Shape, second: Option<Shape>, seed: u64, length: usize) -> Script {
        let mut script = Script::fresh(shape, seed);
        script.open(seed.is_multiple_of(3));
        while script.calls.len() < length {
            match second {
                Some(next) if script.calls.len() >= length / 2 && script.shape != next => {
                    script.shape = next;
                    script.open(true);
                }
                _ => script.step(),
            }
        }
        script
    }

    /// A session of so many calls with many look-ups while a partition is
    /// rebuilt.
    pub fn beside(shape: Shape, seed: u64, length: usize) -> Script {
        Script::steered(shape, seed, length, 1)
    }

    /// The same, but hardly a request comes while it would be held.
    pub fn amid(shape: Shape, seed: u64, length: usize) -> Script {
        Script::steered(shape, seed, length, 0)
    }

    /// A session of so many calls in which jobs of one partition run together,
    /// with look-ups beside them.
    pub fn together(shape: Shape, seed: u64, length: usize) -> Script {
        let mut script = Script::fresh(shape, seed);
        script.hoards = 3 + seed as usize % 8;
        script.open(false);
        while script.calls.len() < length {
            script.step();
        }
        script
    }

    fn steered(shape: Shape, seed: u64, length: usize, early: usize) -> Script {
        let mut script = Script::fresh(shape, seed);
        script.beside = Some(early);
        script.open(false);
        while script.calls.len() < length {
            script.step();
        }
        script
    }

    fn fresh(shape: Shape, seed: u64) -> Script {
        Script {
            shape,
            rng: Rng::new(seed),
            store: Store::new(Mistake::None),
            host: Host::default(),
            recent: 0,
            beside: None,
            hoards: 0,
            saves: false,
            last: None,
            calls: Vec::new(),
            outcomes: Vec::new(),
        }
    }

    /// The shape of the store that was opened or loaded last.
    pub fn shape(&self) -> Shape {
        self.shape
    }

    fn make(&mut self, ask: Ask, words: usize, buffer: usize) {
        let words = self.rng.tape(words);
        self.lend(ask, words, buffer);
    }

    fn lend(&mut self, ask: Ask, words: Vec<u16>, buffer: usize) {
        let slack = if self.rng.chance(25) {
            self.rng.below(9)
        } else {
            0
        };
        let call = Call {
            ask,
            memory: self.shape.needed() + slack,
            words,
            buffer,
        };
        self.record(call);
    }

    fn record(&mut self, call: Call) {
        let outcome = self.store.call(&call);
        if outcome.number == 0 {
            match &call.ask {
                Ask::Open(_) => self.host.pending.clear(),
                Ask::Request { block, .. } => self.recent = *block,
                Ask::Turn => self.host.send(outcome.command, outcome.bytes.clone()),
                Ask::Completion { command, .. } => self.host.done(*command),
                Ask::Collect | Ask::Save => {}
                Ask::Load(_) | Ask::Reload => self.host.pending.clear(),
            }
        }
        self.calls.push(call);
        self.outcomes.push(outcome);
    }

    /// Opens the store, after refused opens and calls to the closed store if
    /// wanted.
    fn open(&mut self, refused: bool) {
        let words = self.shape.blocks;
        if refused {
            let mut shape = self.shape;
            match self.rng.below(5) {
                0 => shape.partitions = 3,
                1 => shape.blocks = shape.partitions * shape.capacity() + 1,
                2 => shape.levels = 9,
                3 => shape.places = shape.blocks + 1,
                _ => shape.window = 0,
            }
            self.make(Ask::Open(shape), words, 0);
            self.good();
            self.make(Ask::Open(self.shape), words - 1, 0);
            self.short(Ask::Open(self.shape), words);
            self.make(Ask::Collect, 0, self.shape.bytes);
        }
        let more = self.rng.below(2);
        self.make(Ask::Open(self.shape), words + more, 0);
    }

    /// A call with one byte of memory too few.
    fn short(&mut self, ask: Ask, words: usize) {
        let call = Call {
            ask,
            memory: self.shape.needed() - 1,
            words: self.rng.tape(words),
            buffer: self.shape.bytes,
        };
        self.record(call);
    }

    fn step(&mut self) {
        match self.rng.below(100) {
            0..12 => self.bad(),
            _ => self.good(),
        }
    }

    /// A call that mostly brings the store on.
    fn good(&mut self) {
        let Some(state) = &self.store.state else {
            return self.request();
        };
        let pending = self.host.pending.len();
        let sends = state.step().is_some() && pending < self.shape.window;
        let collects = match &state.request {
            None => 0,
            Some(request) if state.finished(request) => 4,
            Some(request) if request.level > 0 || self.beside.is_some() => 1,
            Some(_) => 0,
        };
        let asks = match (&state.request, self.beside) {
            (Some(_), _) => 0,
            (None, Some(_)) if state.is_ripe() => 15,
            (None, Some(early)) if !state.queue.is_empty() => early,
            _ => 5,
        };
        let turns = match sends {
            true if self.leaves_alone(state) => 1,
            true => 5,
            false if self.beside.is_some() && state.is_beside() => 1,
            false => 0,
        };
        let completes = 4 * pending.min(1);
        // With nothing else to do, a turn is refused with 10.
        let choice = self.rng.below((collects + asks + turns + completes).max(1));
        if choice < asks {
            self.request();
        } else if choice < asks + collects {
            self.make(Ask::Collect, 0, self.shape.bytes);
        } else if choice < asks + collects + completes {
            self.completion();
        } else {
            self.turn();
        }
    }

    /// Whether the front job is left alone for more to be queued, unless a
    /// request waits for it.
    fn leaves_alone(&self, state: &State) -> bool {
        let held = state.request.as_ref().is_some_and(|r| r.is_held());
        state.begun == 0 && !held && state.queue.len() < self.hoards
    }

    fn request(&mut self) {
        let liked = self.liked();
        let again = if self.hoards > 0 { 5 } else { 35 };
        let block = match self.rng.chance(again) {
            true => self.recent.min(self.shape.blocks - 1),
            false if !liked.is_empty() => liked[self.rng.below(liked.len())],
            false => self.rng.below(self.shape.blocks),
        };
        let more = self.rng.below(2);
        let ask = self.ask_for(block);
        self.make(ask, 2 + more, 0);
    }

    /// The blocks for which requests are to be made, if it matters: those of
    /// the partition that is rebuilt, or those that no job would hold.
    fn liked(&self) -> Vec<usize> {
        match &self.store.state {
            Some(state) if self.beside.is_some() => state.rebuilt(),
            Some(state) if self.hoards > 0 => state.unheld(),
            _ => Vec::new(),
        }
    }

    fn ask_for(&mut self, block: usize) -> Ask {
        let (kind, length) = match self.rng.chance(60) {
            true => (WRITE, self.shape.bytes),
            false => (READ, 0),
        };
        Ask::Request {
            kind,
            block,
            contents: self.rng.contents(length),
        }
    }

    /// A turn whose draws are settled by the last word lent or one before it,
    /// or are one word short.
    fn turn(&mut self) {
        let state = self.store.state.as_ref();
        let mut words = self
            .rng
            .settling(state.map_or(Vec::new(), State::turn_bounds));
        match self.rng.below(10) {
            0..2 => drop(words.pop()),
            2..5 => words.extend(self.rng.tape(1)),
            _ => {}
        }
        self.lend(Ask::Turn, words, self.shape.bytes);
    }

    /// Completes a random pending command, now and then with false bytes.
    fn completion(&mut self) {
        let index = self.rng.below(self.host.pending.len());
        let (command, mut bytes) = self.host.answer(index);
        if self.rng.chance(3) {
            bytes = self.rng.bytes(bytes.len());
        }
        if self.saves && command.kind == READ {
            // A form may be of another store.
            bytes.resize(self.shape.bytes, 0);
        }
        self.make(Ask::Completion { command, bytes }, 0, 0);
    }

    /// A call that is mostly refused.
    fn bad(&mut self) {
        let bytes = self.shape.bytes;
        match self.rng.below(12) {
            0 => self.short(Ask::Turn, 8),
            1 => self.bad_request(),
            2 => self.bad_request(),
            3 => self.request(),
            4 => {
                let words = self.rng.below(2);
                let ask = self.ask_for(0);
                self.make(ask, words, 0);
            }
            5 => self.make(Ask::Turn, (1 << self.shape.levels) - 1, bytes + 1),
            6 => self.make(Ask::Turn, 0, bytes),
            7 => self.make(Ask::Turn, (2 << self.shape.levels) - 1, bytes),
            8 => self.bad_completion(),
            9 => self.bad_completion(),
            10 => self.make(Ask::Collect, 0, bytes),
            _ => self.make(Ask::Collect, 0, bytes - 1),
        }
    }

    fn bad_request(&mut self) {
        let block = self.rng.below(self.shape.blocks);
        let (kind, block, length) = match self.rng.below(4) {
            0 => (READ, self.shape.blocks + self.rng.below(2), 0),
            1 => (READ, block, 1),
            2 => (WRITE, block, self.shape.bytes - 1),
            _ => (3 * self.rng.below(2), block, self.shape.bytes),
        };
        let contents = self.rng.contents(length);
        let ask = Ask::Request {
            kind,
            block,
            contents,
        };
        self.make(ask, 2, 0);
    }

    fn bad_completion(&mut self) {
        let random = Command {
            kind: 1 + self.rng.below(2),
            partition: self.rng.below(self.shape.partitions + 1),
            level: self.rng.below(self.shape.levels + 1),
            slot: self.rng.below(5),
        };
        let pending = self.host.pending.first().map(|(command, _)| *command);
        let (command, length) = match (self.rng.below(4), pending) {
            (0, Some(c)) => (c, self.shape.bytes * (c.kind - 1) + self.rng.below(2) * 3),
            (1, Some(c)) => (
                Command {
                    kind: 3 - c.kind,
                    ..c
                },
                0,
            ),
            (2, Some(c)) => (Command { kind: 0, ..c }, 0),
            _ => (random, self.shape.bytes),
        };
        let bytes = self.rng.bytes(length);
        self.make(Ask::Completion { command, bytes }, 0, 0);
    }
}
