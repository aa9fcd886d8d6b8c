//! Random calls to the independent model, with an honest host that completes
//! in random order: calls that get on, and refused ones of every number. If
//! asked for, the store is saved and loaded in between.

#[path = "saving.rs"]
#[allow(dead_code)] // not every test saves
mod saving;

use plain::calls::{Ask, Call, Outcome, Store};
use plain::host::Host;
use plain::mistakes::Mistake;
use plain::rng::Rng;
use plain::shape::Shape;
use plain::state::{Command, READ, State, Step, WRITE};
use saving::Saving;

pub struct Random {
    /// The shape with which stores are opened, and that of the store, which may
    /// have been loaded.
    pub home: Shape,
    shape: Shape,
    pub rng: Rng,
    pub model: Store,
    host: Host,
    /// Whether jobs are left alone, so that they fill the queue.
    hoards: bool,
    /// Whether the host waits until no command can be sent, so that they fill
    /// the window.
    waits: bool,
    /// Whether requests are made while their block's partition is rebuilt.
    beside: bool,
    /// The most jobs queued; the rebuilds of a partition that stores all it
    /// may, and those of one with all levels filled.
    pub most_jobs: usize,
    pub full: usize,
    pub wraps: usize,
    /// What is saved and loaded, if anything is.
    pub saving: Option<Saving>,
}

/// The bytes of memory that may be lent beyond those needed.
pub const SLACK: usize = 8;

/// How many calls to make: RINWOLFEDD_CALLS, or few enough for every day.
pub fn calls(few: usize) -> usize {
    let asked = std::env::var("RINWOLFEDD_CALLS");
    asked.map_or(few, |text| {
        text.parse().expect("RINWOLFEDD_CALLS is a number")
    })
}

/// Whether the front job, for q, has read the slot of a block, and that has
/// completed.
fn gathers(state: &State, q: usize) -> bool {
    (0..state.shape.blocks).any(|block| {
        let own = state.own_slot(block);
        let reads = |c: &Command| (c.partition, Some((c.level, c.slot))) == (q, own);
        let read = state.partition[block] == q && state.was_read(block);
        read && !state.outstanding.iter().any(reads)
    })
}

impl Random {
    pub fn new(shape: Shape, mistake: Mistake, seed: u64) -> Random {
        Random {
            home: shape,
            shape,
            rng: Rng::new(seed),
            model: Store::new(mistake),
            host: Host::default(),
            hoards: false,
            waits: false,
            beside: false,
            most_jobs: 0,
            full: 0,
            wraps: 0,
            saving: None,
        }
    }

    /// The next call, and what the model answers to it.
    pub fn next(&mut self) -> (Call, Outcome) {
        if self.rng.below(400) == 0 {
            self.hoards = self.rng.chance(40);
            self.waits = self.rng.chance(40);
            self.beside = !self.hoards && self.rng.chance(70);
        }
        let call = self.call();
        let (full, wraps) = self.rebuilds(&call);
        let before = self
            .saving
            .as_ref()
            .and_then(|saving| saving.before(&self.model));
        let outcome = self.model.call(&call);
        if let Some(saving) = &mut self.saving {
            saving.note(before, &call, &outcome);
        }
        self.shape = self
            .model
            .state
            .as_ref()
            .map_or(self.home, |state| state.shape);
        if outcome.number == 0 {
            self.full += usize::from(full);
            self.wraps += usize::from(wraps);
            match &call.ask {
                Ask::Open(_) | Ask::Load(_) | Ask::Reload => self.host.pending.clear(),
                Ask::Turn => self.host.send(outcome.command, outcome.bytes.clone()),
                Ask::Completion { command, .. } => self.host.done(*command),
                _ => {}
            }
        }
        let jobs = self.model.state.as_ref().map_or(0, |s| s.queue.len());
        self.most_jobs = self.most_jobs.max(jobs);
        (call, outcome)
    }

    /// Whether the call rebuilds a partition that stores all it may, and one
    /// with all levels filled.
    fn rebuilds(&self, call: &Call) -> (bool, bool) {
        match &self.model.state {
            Some(state) if call.ask == Ask::Turn && state.step() == Some(Step::FirstWrite) => {
                let q = state.queue[0];
                let stored = state.stored(q).len();
                (stored == self.shape.capacity(), state.is_full(q))
            }
            _ => (false, false),
        }
    }

    /// A random call, which is not made. Opens are so rare that the counters
    /// of small and middling shapes wrap in between.
    pub fn call(&mut self) -> Call {
        if let Some(call) = self.saving_call() {
            return call;
        }
        let jobs = self.shape.partitions << self.shape.levels;
        match self.rng.below(100 * jobs) {
            0 => return self.open(),
            1 | 2 => return self.odd_open(),
            _ => {}
        }
        match self.rng.below(1000) {
            0..10 => self.short(),
            10..50 => self.odd_request(),
            50..90 => self.odd_turn(),
            90..130 => self.odd_completion(),
            130..150 => self.odd_collect(),
            150..170 => self.request(),
            170..190 => self.collect(),
            190..210 => self.turn(),
            _ => self.good(),
        }
    }

    /// A call that mostly brings the store on.
    fn good(&mut self) -> Call {
        let Some(state) = &self.model.state else {
            return self.open();
        };
        let [asks, collects, completes, sends] = self.weights(state);
        let choice = self.rng.below((asks + collects + completes + sends).max(1));
        if choice < asks {
            self.request()
        } else if choice < asks + collects {
            self.collect()
        } else if choice < asks + collects + completes {
            self.completion()
        } else {
            // With nothing to send, jobs are left alone no longer.
            self.hoards &= sends > 0;
            self.turn()
        }
    }

    /// How likely a request, a collect, a completion and a turn are. Beside a
    /// rebuild requests come as soon as the job lets them pass, collects are also
    /// asked for too early, and turns though the job waits for the collect.
    fn weights(&self, state: &State) -> [usize; 4] {
        let pending = self.host.pending.len();
        let left_alone = self.hoards && !matches!(state.step(), Some(Step::RequestRead(_)));
        let sends = state.step().is_some() && pending < self.shape.window && !left_alone;
        let collects = state.request.as_ref().is_some_and(|r| state.finished(r));
        let asks = state.request.is_none();
        let completes = pending > 0 && !(self.waits && sends);
        let front = state.queue.front().filter(|_| self.beside);
        let Some(front) = front else {
            return [asks, collects, completes, sends].map(usize::from);
        };
        let passes = asks && !state.holds(*front);
        let asks = usize::from(passes) * if gathers(state, *front) { 8 } else { 1 };
        let collects = 3 * usize::from(collects) + usize::from(state.request.is_some());
        let sends = 4 * usize::from(sends) + usize::from(state.beside().is_some());
        [asks, collects, 3 * usize::from(completes), sends]
    }

    fn lend(&mut self, ask: Ask, words: usize, buffer: usize) -> Call {
        let slack = [0, 0, 0, self.rng.below(SLACK + 1)][self.rng.below(4)];
        Call {
            memory: self.needed(&ask) + slack,
            ask,
            words: self.rng.tape(words),
            buffer,
        }
    }

    /// The memory that a call needs.
    fn needed(&self, ask: &Ask) -> usize {
        match ask {
            Ask::Open(_) => self.home.needed(),
            _ => self.shape.needed(),
        }
    }

    fn open(&mut self) -> Call {
        let words = self.home.blocks + self.rng.below(2);
        self.lend(Ask::Open(self.home), words, 0)
    }

    fn odd_open(&mut self) -> Call {
        let (mut shape, mut words) = (self.home, self.home.blocks);
        match self.rng.below(8) {
            0 => shape.partitions = 3,
            1 => shape.blocks = shape.partitions * shape.capacity() + 1,
            2 => shape.levels = 9,
            3 => shape.places = shape.blocks + 1,
            4 => shape.window = [0, 33][self.rng.below(2)],
            5 => shape.bytes = [0, 513][self.rng.below(2)],
            _ => words = self.rng.below(words),
        }
        self.lend(Ask::Open(shape), words, 0)
    }

    /// Any call with one byte of memory too few, or many.
    fn short(&mut self) -> Call {
        let mut call = match self.rng.below(5) {
            0 => self.open(),
            1 => self.request(),
            2 => self.collect(),
            3 => self.odd_completion(),
            _ => self.odd_turn(),
        };
        let needed = self.needed(&call.ask);
        call.memory = needed - [1, 1, 2, needed][self.rng.below(4)];
        call
    }

    /// A block: where jobs are left alone one that none holds back, beside a
    /// rebuild mostly one of its partition, and often one whose slot the job has
    /// read; any, if there is none such.
    fn block(&mut self) -> usize {
        let any = self.rng.below(self.shape.blocks);
        let (beside, read) = (self.beside && self.rng.chance(85), self.rng.chance(50));
        let Some(state) = &self.model.state else {
            return any;
        };
        let front = |b: &usize| state.queue.front() == Some(&state.partition[*b]);
        let free = |b: &usize| !state.queue.contains(&state.partition[*b]);
        let mut all = (any..self.shape.blocks).chain(0..any);
        let mut again = all.clone();
        let wanted = match (self.hoards, beside) {
            (true, _) => all.find(free),
            (_, true) if read => all.find(|b| front(b) && state.was_read(*b)),
            _ => None,
        };
        let rebuilt = again.find(|b| beside && front(b));
        wanted.or(rebuilt).unwrap_or(any)
    }

    fn request(&mut self) -> Call {
        let block = self.block();
        let (kind, length) = match self.rng.chance(50) {
            true => (WRITE, self.shape.bytes),
            false => (READ, 0),
        };
        let words = 2 + self.rng.below(2);
        self.ask_for(kind, block, length, words)
    }

    fn ask_for(&mut self, kind: usize, block: usize, length: usize, words: usize) -> Call {
        let contents = self.rng.bytes(length);
        let ask = Ask::Request {
            kind,
            block,
            contents,
        };
        self.lend(ask, words, 0)
    }

    fn odd_request(&mut self) -> Call {
        let block = self.rng.below(self.shape.blocks);
        let far = [self.shape.blocks, usize::MAX, 1 << 32][self.rng.below(3)];
        let (kind, block, length) = match self.rng.below(5) {
            0 => (READ, far, 0),
            1 => (READ, block, self.shape.bytes),
            2 => (WRITE, block, self.shape.bytes - 1),
            3 => ([0, 3, 257][self.rng.below(3)], block, self.shape.bytes),
            _ => (READ, block, 0),
        };
        let words = self.rng.below(2);
        self.ask_for(kind, block, length, words)
    }

    /// Words that settle an order's draws, the last one by the last word or
    /// before it; now and then one too few.
    fn turn(&mut self) -> Call {
        let state = self.model.state.as_ref();
        let bounds = state.map_or(Vec::new(), |state| state.turn_bounds());
        let mut call = self.lend(Ask::Turn, 0, self.shape.bytes);
        call.words = self.rng.settling(bounds);
        match self.rng.below(10) {
            0 => drop(call.words.pop()),
            1..4 => call.words.extend(self.rng.tape(1)),
            _ => {}
        }
        call
    }

    /// Too few words or a buffer too long or short, which a read accepts.
    fn odd_turn(&mut self) -> Call {
        let words = self.rng.below(1 << self.shape.levels);
        let buffer = self.shape.bytes + 1 - self.rng.below(3);
        self.lend(Ask::Turn, words, buffer)
    }

    /// Completes a command, now and then with false bytes.
    fn completion(&mut self) -> Call {
        let index = self.rng.below(self.host.pending.len());
        let (command, mut bytes) = self.host.answer(index);
        if self.rng.chance(2) {
            bytes = self.rng.bytes(bytes.len());
        }
        if command.kind == READ {
            // a loaded store may read what another one wrote, or nobody
            bytes.resize(self.shape.bytes, 0);
        }
        self.lend(Ask::Completion { command, bytes }, 0, 0)
    }

    /// A command that may be outstanding, often with one number changed, and
    /// bytes that may be too many or too few.
    fn odd_completion(&mut self) -> Call {
        let mut command = Command {
            kind: self.rng.below(4),
            partition: self.rng.below(self.shape.partitions + 2),
            level: self.rng.below(self.shape.levels + 1),
            slot: self.rng.below(5),
        };
        if let Some((pending, _)) = self.host.pending.last() {
            command = *pending;
        }
        match self.rng.below(6) {
            0 => command.kind = 3 * self.rng.below(2),
            1 => command.kind = 3 - command.kind,
            2 => command.slot ^= 1,
            3 => command.level = usize::MAX,
            4 => command.partition += 64 * self.rng.below(5),
            _ => {}
        }
        let length = [0, self.shape.bytes, self.shape.bytes + 1][self.rng.below(3)];
        let bytes = self.rng.bytes(length);
        self.lend(Ask::Completion { command, bytes }, 0, 0)
    }

    fn collect(&mut self) -> Call {
        self.lend(Ask::Collect, 0, self.shape.bytes)
    }

    fn odd_collect(&mut self) -> Call {
        let buffer = self.shape.bytes + 1 - self.rng.below(3);
        self.lend(Ask::Collect, 0, buffer)
    }
}
