//! A plain client that makes a reader's calls, from the same words.

use plain::calls::{Ask, Call, Outcome, Store};
use plain::host::Host;
use plain::mistakes::Mistake;
use plain::shape::Shape;
use plain::state::State;
use rinwolfedd::{Command, Kind};

/// A plain client at a host that completes the oldest command first, by the
/// reader's order of calls.
pub struct Model<'a> {
    shape: Shape,
    store: Store,
    host: Host,
    words: &'a [u16],
    /// With more jobs than these a look-up runs some, until so many are left.
    most_left: usize,
    runs_to: usize,
    pub commands: Vec<Command>,
}

impl Model<'_> {
    pub fn open(shape: Shape, words: &[u16]) -> Model<'_> {
        let mut model = Model {
            shape,
            store: Store::new(Mistake::None),
            host: Host::default(),
            words,
            most_left: 0,
            runs_to: 0,
            commands: Vec::new(),
        };
        assert_eq!(model.call(Ask::Open(shape)).number, 0);
        model
    }

    /// So many jobs may be left, at most 62.
    pub fn leave_jobs(&mut self, most: usize) {
        (self.most_left, self.runs_to) = (most.min(62), most.min(62));
    }

    /// Jobs gather until they are so many, at most 63.
    pub fn gather_jobs(&mut self, jobs: usize) {
        (self.most_left, self.runs_to) = (jobs.saturating_sub(1).min(62), 0);
    }

    pub fn jobs_left(&self) -> usize {
        self.state().queue.len()
    }

    /// A call that is lent more words than any may take.
    fn call(&mut self, ask: Ask) -> Outcome {
        let lent = self.words.len().min(600);
        let outcome = self.store.call(&Call {
            ask,
            memory: self.shape.needed(),
            words: self.words[..lent].to_vec(),
            buffer: self.shape.bytes,
        });
        self.words = &self.words[outcome.taken..];
        outcome
    }

    fn state(&self) -> &State {
        self.store.state.as_ref().expect("the store is open")
    }

    /// The number of a turn, whose command is sent.
    fn send(&mut self) -> u8 {
        let outcome = self.call(Ask::Turn);
        if outcome.number == 0 {
            let sent = outcome.command;
            self.host.send(sent, outcome.bytes);
            self.commands.push(Command {
                kind: Kind::try_from(sent.kind as u8).unwrap(),
                partition: sent.partition as u8,
                level: sent.level as u8,
                slot: sent.slot as u16,
            });
        }
        outcome.number
    }

    fn complete(&mut self) {
        let (command, bytes) = self.host.answer(0);
        assert_eq!(self.call(Ask::Completion { command, bytes }).number, 0);
        self.host.done(command);
    }

    fn step(&mut self) {
        match self.send() {
            0 => {}
            number => {
                assert!(number == 9 || number == 10);
                self.complete();
            }
        }
    }

    /// The contents before it, and the number of where the block was found.
    pub fn look_up(&mut self, kind: usize, block: usize, contents: Vec<u8>) -> (Vec<u8>, usize) {
        let asked = self.call(Ask::Request {
            kind,
            block,
            contents,
        });
        assert_eq!(asked.number, 0);
        let collected = self.fetch();
        if self.jobs_left() > self.most_left {
            while self.jobs_left() > self.runs_to {
                self.step();
            }
        }
        (collected.bytes, collected.found.number())
    }

    /// At first as many commands as there are levels, then as the window lets.
    fn fetch(&mut self) -> Outcome {
        let mut ahead = self.state().shape.levels;
        loop {
            let number = if ahead > 0 { self.send() } else { 9 };
            if number == 0 {
                ahead -= 1;
                continue;
            }
            let alone = number == 10 && self.state().queue.is_empty();
            while alone && !self.state().outstanding.is_empty() {
                self.complete();
            }
            let collected = self.call(Ask::Collect);
            match collected.number {
                0 => return collected,
                number => assert_eq!(number, 14),
            }
            match (ahead, self.state().outstanding.len()) {
                (0, 0) => ahead = usize::MAX,
                _ => self.complete(),
            }
        }
    }

    pub fn advance(&mut self, commands: usize) {
        let end = self.commands.len() + commands;
        while !self.state().queue.is_empty() && self.commands.len() < end {
            self.step();
        }
    }
}
