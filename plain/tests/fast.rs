//! The fast store and the model make the same random calls: the numbers, the
//! words taken, the commands, the bytes in the lent buffers and where blocks
//! were found are equal.

#[path = "fast/counts.rs"]
mod counts;

use counts::{ALL_MET, Before, Counts, Met};
use plain::calls::{Ask, Call, Outcome, Store as Model};
use plain::fast::{self, Answer, Store};
use plain::host::Host;
use plain::mistakes::Mistake;
use plain::rng::Rng;
use plain::shape::Shape;
use plain::situations::Situation;
use plain::state::{Command, READ, State, Step, WRITE};

/// When requests are made.
#[derive(Clone, Copy, PartialEq, Eq)]
enum Mode {
    Always,
    /// Jobs are left alone, so that they fill the queue.
    Hoards,
    /// Once the front job, if there is one, has begun to read and is its
    /// partition's only one.
    Beside,
}

struct Pair {
    shape: Shape,
    rng: Rng,
    model: Model,
    fast: Store,
    host: Host,
    mode: Mode,
    counts: Counts,
}

fn narrow(command: Command) -> fast::Command {
    fast::Command {
        kind: command.kind as u8,
        partition: command.partition as u8,
        level: command.level as u8,
        slot: command.slot as u8,
    }
}

/// Whether no job is queued, or the front one has begun, has not drawn and runs
/// with all others of its partition.
fn reads_alone(state: &State) -> bool {
    let Some(q) = state.queue.front() else {
        return true;
    };
    let jobs = state.queue.iter().filter(|p| *p == q).count();
    state.begun > 0 && jobs <= state.begun && state.is_undrawn(*q)
}

impl Pair {
    fn open(shape: Shape, seed: u64, counts: Counts) -> Pair {
        let mut rng = Rng::new(seed);
        let words = rng.tape(shape.blocks + seed as usize % 2);
        let mut model = Model::new(Mistake::None);
        let call = Call {
            ask: Ask::Open(shape),
            memory: shape.needed(),
            words: words.clone(),
            buffer: 0,
        };
        assert_eq!(model.call(&call).number, 0);
        let fast = Store::open(shape, &words).unwrap_or_else(|number| panic!("answers {number}"));
        Pair {
            shape,
            rng,
            model,
            fast,
            host: Host::default(),
            mode: Mode::Always,
            counts,
        }
    }

    fn state(&self) -> &State {
        self.model.state.as_ref().expect("the store is open")
    }

    fn make(&mut self, ask: Ask, words: usize, buffer: usize) -> Outcome {
        let words = self.rng.tape(words);
        self.lend(ask, words, buffer)
    }

    /// Makes the call to both. The buffer's bytes before it are random.
    fn lend(&mut self, ask: Ask, words: Vec<u16>, buffer: usize) -> Outcome {
        let mut bytes = self.rng.bytes(buffer);
        let mut after = bytes.clone();
        let answer = self.call_fast(&ask, &words, &mut bytes);
        let call = Call {
            ask,
            memory: self.shape.needed(),
            words,
            buffer,
        };
        let before = Before::look(self.state(), &call.ask);
        let outcome = self.model.call(&call);
        if !outcome.bytes.is_empty() {
            after.copy_from_slice(&outcome.bytes);
        }
        assert_eq!(bytes, after);
        assert_eq!(answer.number, outcome.number);
        assert_eq!(usize::from(answer.taken), outcome.taken);
        assert_eq!(answer.command, narrow(outcome.command));
        assert_eq!(usize::from(answer.found), outcome.found.number());
        let state = self.model.state.as_ref().expect("the store is open");
        self.counts.call(before, &call.ask, &outcome, state);
        outcome
    }

    fn call_fast(&mut self, ask: &Ask, words: &[u16], buffer: &mut [u8]) -> Answer {
        let number = match ask {
            // The fast store has no saves.
            Ask::Open(_) | Ask::Save | Ask::Load(_) | Ask::Reload => 2,
            Ask::Request {
                kind,
                block,
                contents,
            } => return self.fast.request(*kind as u8, *block, contents, words),
            Ask::Turn => return self.fast.turn(words, buffer),
            Ask::Completion { command, bytes } => self.fast.completion(narrow(*command), bytes),
            Ask::Collect => return self.fast.collect(buffer),
        };
        Answer {
            number,
            ..Answer::default()
        }
    }

    /// A random call; refused ones are among them.
    fn step(&mut self) {
        if self.rng.below(500) == 0 {
            self.mode = [Mode::Always, Mode::Hoards, Mode::Beside][self.rng.below(3)];
        }
        match self.rng.below(100) {
            0..4 => self.odd_request(),
            4..8 => self.odd_turn(),
            8..12 => self.odd_completion(),
            12..14 => self.odd_collect(),
            14..24 => self.request(),
            24..34 => self.collect(),
            34..64 if !self.host.pending.is_empty() => self.complete(),
            _ => self.turn(),
        }
    }

    fn request(&mut self) {
        let (n, any) = (self.shape.blocks, self.rng.chance(50));
        let block = self.rng.below(n);
        let state = self.state();
        if self.mode == Mode::Beside && !reads_alone(state) {
            return;
        }
        let fits = |b: &usize| match self.mode {
            Mode::Always => true,
            // No job of its partition is queued.
            Mode::Hoards => !state.queue.contains(&state.partition[*b]),
            // The front job is of its partition, and may have to read it.
            Mode::Beside => {
                let own = state.own_slot(*b);
                let q = state.partition[*b];
                let stored = own.is_some_and(|(level, _)| state.is_source(q, level));
                state.queue.front() == Some(&q) && (any || stored)
            }
        };
        let block = (block..n).chain(0..block).find(fits).unwrap_or(block);
        let ask = self.ask_for(block);
        let words = 2 + self.rng.below(2);
        self.make(ask, words, 0);
    }

    fn ask_for(&mut self, block: usize) -> Ask {
        let (kind, length) = match self.rng.chance(50) {
            true => (WRITE, self.shape.bytes),
            false => (READ, 0),
        };
        let contents = self.rng.bytes(length);
        Ask::Request {
            kind,
            block,
            contents,
        }
    }

    fn turn(&mut self) {
        let state = self.state();
        let step = state.step();
        if self.mode == Mode::Hoards && !matches!(step, None | Some(Step::RequestRead(_))) {
            return;
        }
        if step == Some(Step::FirstWrite) && self.host.pending.len() < self.shape.window {
            let q = state.queue[0];
            let (stored, wraps) = (state.stored(q).len(), state.is_full(q));
            self.counts.full += usize::from(stored == self.shape.capacity());
            self.counts.wraps += usize::from(wraps);
        }
        let bounds = self.state().turn_bounds();
        let mut words = self.rng.settling(bounds);
        match self.rng.below(10) {
            0 => drop(words.pop()),
            1..4 => words.extend(self.rng.tape(2)),
            _ => {}
        }
        self.send(words, self.shape.bytes);
    }

    fn send(&mut self, words: Vec<u16>, buffer: usize) {
        let (draws, lent) = (self.state().turn_bounds().len(), words.len());
        let outcome = self.lend(Ask::Turn, words, buffer);
        if outcome.number == 0 {
            self.host.send(outcome.command, outcome.bytes);
        }
        self.counts.passed += usize::from(outcome.taken > draws);
        self.counts.unsettled += usize::from(outcome.number == 3 && lent >= draws);
    }

    /// Completes a command, now and then with false bytes.
    fn complete(&mut self) {
        let index = self.rng.below(self.host.pending.len());
        let (command, mut bytes) = self.host.answer(index);
        if self.rng.chance(2) {
            bytes = self.rng.bytes(bytes.len());
        }
        let outcome = self.make(Ask::Completion { command, bytes }, 0, 0);
        assert_eq!(outcome.number, 0);
        self.host.done(command);
    }

    fn collect(&mut self) {
        self.make(Ask::Collect, 0, self.shape.bytes);
    }

    fn odd_request(&mut self) {
        let block = self.rng.below(self.shape.blocks);
        let (kind, block, length) = match self.rng.below(5) {
            0 => (READ, self.shape.blocks + self.rng.below(2), 0),
            1 => (READ, block, self.shape.bytes),
            2 => (WRITE, block, self.shape.bytes - 1),
            3 => (3 * self.rng.below(2), block, self.shape.bytes),
            _ => (READ, block, 0),
        };
        let contents = self.rng.bytes(length);
        let words = self.rng.below(2);
        let ask = Ask::Request {
            kind,
            block,
            contents,
        };
        self.make(ask, words, 0);
    }

    /// Too few words or a buffer too long or short, which a read accepts.
    fn odd_turn(&mut self) {
        if self.mode == Mode::Hoards {
            return;
        }
        let words = self.rng.below(1 << self.shape.levels);
        let words = self.rng.tape(words);
        let buffer = self.shape.bytes + 1 - self.rng.below(3);
        self.send(words, buffer);
    }

    fn odd_completion(&mut self) {
        let random = Command {
            kind: self.rng.below(4),
            partition: self.rng.below(self.shape.partitions + 2),
            level: self.rng.below(self.shape.levels + 1),
            slot: self.rng.below(5),
        };
        let pending = self.host.pending.last().map(|(command, _)| *command);
        let command = match (pending, self.rng.below(5)) {
            (Some(c), 0) => Command { kind: 0, ..c },
            (Some(c), 1) => Command {
                kind: 3 - c.kind,
                ..c
            },
            (Some(c), 2) => Command {
                slot: c.slot ^ 1,
                ..c
            },
            (Some(c), 3) => c,
            _ => random,
        };
        let length = [0, self.shape.bytes, self.shape.bytes + 1][self.rng.below(3)];
        let bytes = self.rng.bytes(length);
        if self.make(Ask::Completion { command, bytes }, 0, 0).number == 0 {
            self.host.done(command);
        }
    }

    fn odd_collect(&mut self) {
        let buffer = self.shape.bytes + 1 - self.rng.below(3);
        self.make(Ask::Collect, 0, buffer);
    }
}

const PLANS: [(Shape, usize); 14] = [
    (Shape::new(1, 1, 1, 1, 1, 1), 10_000),
    (Shape::new(1, 64, 1, 2, 1, 3), 10_000),
    (Shape::new(2, 2, 1, 2, 1, 2), 10_000),
    (Shape::new(4, 1, 3, 1, 3, 3), 40_000),
    (Shape::new(8, 2, 3, 3, 8, 4), 80_000),
    (Shape::new(8, 2, 3, 3, 2, 4), 40_000),
    (Shape::new(64, 4, 5, 64, 64, 32), 120_000),
    (Shape::new(64, 4, 5, 17, 10, 7), 80_000),
    (Shape::new(64, 1, 7, 5, 64, 32), 80_000),
    (Shape::new(128, 1, 8, 4, 128, 32), 200_000),
    (Shape::new(256, 2, 8, 9, 100, 31), 200_000),
    (Shape::new(64, 64, 8, 16, 64, 32), 40_000),
    (Shape::new(1024, 16, 7, 32, 1024, 32), 200_000),
    (Shape::new(4096, 64, 8, 512, 4096, 32), 100_000),
];

#[test]
fn random_calls_answer_as_the_model_does() {
    let mut counts = Counts::default();
    for (seed, (shape, steps)) in PLANS.iter().enumerate() {
        let mut pair = Pair::open(*shape, seed as u64, counts.go_on());
        for _ in 0..*steps {
            pair.step();
        }
        counts = pair.counts;
    }
    counts.print();
    assert!(counts.numbers.iter().sum::<usize>() > 200_000);
    for number in (0..16).filter(|n| *n != 1) {
        assert!(
            counts.numbers[number] > 100,
            "{number} is answered too rarely"
        );
    }
    assert!(counts.most_jobs == 64 && counts.full > 100 && counts.wraps > 100);
    assert!(counts.passed > 1000 && counts.unsettled > 100);
    assert!(counts.found.iter().all(|times| *times > 50) && counts.moved > 100);
    let together = Situation::TOGETHER.map(Met::Told);
    for met in ALL_MET.into_iter().chain(together) {
        assert!(counts.met[&met] > 50, "{met:?} is met too rarely");
    }
}

#[test]
fn open_answers_1_and_3() {
    let good = Shape::new(8, 2, 3, 1, 8, 1);
    let number = |shape, words: usize| Store::open(shape, &vec![0; words]).err();
    assert_eq!(number(good, 8), None);
    assert_eq!(number(good, 9), None);
    assert_eq!(number(good, 7), Some(3));
    assert_eq!(number(Shape { blocks: 9, ..good }, 7), Some(1));
    assert_eq!(number(Shape { levels: 9, ..good }, 8), Some(1));
    let three = Shape {
        partitions: 3,
        ..good
    };
    assert_eq!(number(three, 8), Some(1));
}
