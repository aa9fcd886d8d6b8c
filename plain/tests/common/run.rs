//! A store with an honest host, and calls to it one by one.

use plain::calls::{Ask, Call, Outcome, Store};
use plain::host::Host;
use plain::mistakes::Mistake;
use plain::shape::Shape;
use plain::state::{READ, State, WRITE};

pub struct Run {
    pub store: Store,
    pub host: Host,
    /// The length of the buffer that each call is lent.
    pub bytes: usize,
}

impl Run {
    /// An opened store.
    pub fn new(shape: Shape, words: &[u16]) -> Run {
        let mut run = Run {
            store: Store::new(Mistake::None),
            host: Host::default(),
            bytes: shape.bytes,
        };
        assert_eq!(run.call(Ask::Open(shape), words).taken, shape.blocks);
        run
    }

    pub fn call(&mut self, ask: Ask, words: &[u16]) -> Outcome {
        self.store.call(&Call {
            ask,
            memory: 1_000_000,
            words: words.to_vec(),
            buffer: self.bytes,
        })
    }

    pub fn number(&mut self, ask: Ask, words: &[u16]) -> u8 {
        self.call(ask, words).number
    }

    /// A turn, then completion of its command.
    pub fn t(&mut self, words: &[u16]) -> Outcome {
        let outcome = self.call(Ask::Turn, words);
        if outcome.number == 0 {
            self.host.send(outcome.command, outcome.bytes.clone());
            let (command, bytes) = self.host.answer(0);
            self.host.done(command);
            assert_eq!(self.number(Ask::Completion { command, bytes }, &[]), 0);
        }
        outcome
    }

    /// Makes a request, its reads and its collect.
    pub fn serve(&mut self, ask: Ask, words: [u16; 2]) -> Outcome {
        assert_eq!(self.number(ask, &words), 0);
        loop {
            let answer = self.call(Ask::Collect, &[]);
            if answer.number == 0 {
                return answer;
            }
            assert_eq!((answer.number, self.t(&[]).number), (14, 0));
        }
    }

    pub fn state(&self) -> &State {
        self.store.state.as_ref().expect("the store is open")
    }

    pub fn queued(&self) -> usize {
        self.state().queue.len()
    }
}

pub fn read(block: usize) -> Ask {
    Ask::Request {
        kind: READ,
        block,
        contents: Vec::new(),
    }
}

pub fn write(block: usize, contents: &[u8]) -> Ask {
    Ask::Request {
        kind: WRITE,
        block,
        contents: contents.to_vec(),
    }
}
