//! Pairs of compared lists: the same calls at each place, lent the same, but
//! for the blocks, kinds and contents of well-formed requests and for the
//! bytes of completions. A list is fixed before it runs. So that it gets on
//! with most tapes, it is chosen along a sample of runs of both lists, and a
//! completion is put for every command that is outstanding in one of them.

mod made;
mod rebuilt;
mod reloaded;
mod together;

pub use made::{drawn_again, layered, lent_again, two_stored};
pub use rebuilt::{above_sources, source_read, source_spent, source_unread};
pub use reloaded::{reloaded_marks, reloaded_queue, reloading};
pub use together::{released_by_run, several_levels, waiting_or_not};

use crate::calls::{Ask, Call, Store};
use crate::mistakes::Mistake;
use crate::rng::Rng;
use crate::shape::Shape;
use crate::state::{Command, READ, State, WRITE};
use std::collections::BTreeSet;

/// The two lists. The words in their calls are zeros: only how many a call is
/// lent belongs to a list.
pub struct Pair {
    pub shape: Shape,
    /// The bits of a word.
    pub width: u32,
    pub sides: [Vec<Call>; 2],
}

impl Pair {
    /// Whether the two lists are compared lists, as document 01 defines them.
    pub fn is_compared(&self) -> bool {
        let [left, right] = &self.sides;
        let lent = |c: &Call| (c.memory, c.words.len(), c.buffer);
        self.shape.places == self.shape.blocks
            && left.len() == right.len()
            && left
                .iter()
                .zip(right)
                .all(|(l, r)| lent(l) == lent(r) && self.same_call(l, r))
    }

    fn same_call(&self, left: &Call, right: &Call) -> bool {
        use Ask::{Completion, Request};
        let forms = self.well_formed(&left.ask) && self.well_formed(&right.ask);
        match (&left.ask, &right.ask) {
            (Request { .. }, Request { .. }) if forms => true,
            (
                Request {
                    kind: a,
                    block: b,
                    contents: c,
                },
                Request {
                    kind: d,
                    block: e,
                    contents: f,
                },
            ) => (a, b, c.len()) == (d, e, f.len()),
            (
                Completion {
                    command: a,
                    bytes: b,
                },
                Completion {
                    command: c,
                    bytes: d,
                },
            ) => (a, b.len()) == (c, d.len()),
            (left, right) => left == right,
        }
    }

    fn well_formed(&self, ask: &Ask) -> bool {
        let Ask::Request {
            kind,
            block,
            contents,
        } = ask
        else {
            return false;
        };
        let length = match *kind {
            READ => 0,
            WRITE => self.shape.bytes,
            _ => return false,
        };
        *block < self.shape.blocks && contents.len() == length
    }
}

/// One random run of a list so far, and the product of the bounds it drew
/// below.
struct Sample {
    store: Store,
    tapes: f64,
}

const SAMPLES: usize = 24;
/// Calls after which a list ends, and sequences of drawn numbers.
const LONGEST: usize = 120;
const MOST_NUMBERS: f64 = 8_000.0;

struct Builder {
    shape: Shape,
    width: u32,
    rng: Rng,
    samples: [Vec<Sample>; 2],
    sides: [Vec<Call>; 2],
    /// The words lent to turns until the next request.
    turn_words: usize,
    /// In how many of a hundred cases an outstanding command is completed.
    completes: usize,
}

fn builder(shape: Shape, width: u32, seed: u64) -> Builder {
    let fresh = || Sample {
        store: Store::of_width(width, Mistake::None),
        tapes: 1.0,
    };
    let runs = || (0..SAMPLES).map(|_| fresh()).collect();
    Builder {
        shape,
        width,
        rng: Rng::new(seed),
        samples: [runs(), runs()],
        sides: [Vec::new(), Vec::new()],
        turn_words: 0,
        completes: [90, 90, 50][seed as usize % 3],
    }
}

/// A random pair.
pub fn pair(shape: Shape, width: u32, seed: u64) -> Pair {
    let mut builder = builder(shape, width, seed);
    builder.open();
    while builder.estimate() < MOST_NUMBERS && builder.sides[0].len() < LONGEST {
        builder.step();
        if builder.samples[0].iter().all(|s| s.store.state.is_none()) {
            builder.closed();
            break;
        }
    }
    builder.pair()
}

impl Builder {
    fn pair(self) -> Pair {
        Pair {
            shape: self.shape,
            width: self.width,
            sides: self.sides,
        }
    }

    /// The number of sequences of drawn numbers is the expected product of a
    /// random run's bounds.
    fn estimate(&self) -> f64 {
        let mean = |side: &Vec<Sample>| side.iter().map(|s| s.tapes).sum::<f64>() / SAMPLES as f64;
        mean(&self.samples[0]).max(mean(&self.samples[1]))
    }

    /// In how many of a hundred sampled runs this holds.
    fn share(&self, holds: impl Fn(&State) -> bool) -> usize {
        let all = self.samples.iter().flatten();
        let states = all.filter_map(|s| s.store.state.as_ref());
        states.filter(|state| holds(state)).count() * 100 / (2 * SAMPLES)
    }

    fn put(&mut self, asks: [Ask; 2], memory: usize, words: usize, buffer: usize) {
        for (side, ask) in asks.into_iter().enumerate() {
            let mut call = Call {
                ask,
                memory,
                words: vec![0; words],
                buffer,
            };
            self.sides[side].push(call.clone());
            for sample in &mut self.samples[side] {
                let word = |_| self.rng.below(1 << self.width) as u16;
                call.words = (0..words).map(word).collect();
                sample.store.call(&call);
                sample.tapes *= sample.store.bounds.iter().product::<usize>() as f64;
            }
        }
    }

    fn same(&mut self, ask: Ask, words: usize, buffer: usize) {
        self.put([ask.clone(), ask], self.shape.needed(), words, buffer);
    }

    /// The open, seldom a refused one.
    fn open(&mut self) {
        let mut shape = self.shape;
        let (mut memory, mut words) = (shape.needed(), shape.blocks + self.rng.below(2));
        match self.rng.below(60) {
            0 => shape.partitions = 3,
            1 => memory -= 1,
            2 => words = shape.blocks - 1,
            _ => {}
        }
        self.put([Ask::Open(shape), Ask::Open(shape)], memory, words, 0);
    }

    /// Some calls to a closed store.
    fn closed(&mut self) {
        self.request();
        self.turns();
        self.odd();
        self.same(Ask::Collect, 0, self.shape.bytes);
    }

    fn step(&mut self) {
        let idle = self.share(|state| state.request.is_none());
        let finished =
            self.share(|state| state.request.as_ref().is_some_and(|r| state.finished(r)));
        match self.rng.below(100) {
            0..6 => self.odd(),
            6..70 if idle > 50 => self.request(),
            6..60 if finished > 50 => self.same(Ask::Collect, 0, self.shape.bytes),
            6..20 => self.same(Ask::Collect, 0, self.shape.bytes),
            _ => self.turns(),
        }
    }

    /// A well-formed request, chosen for each list by itself.
    fn request(&mut self) {
        // Few words hold the rebuilds of large levels back, which keeps deep
        // lists within the budget.
        self.turn_words = match self.rng.below(8) {
            0 => 0,
            1 => 1,
            _ => (1 << self.shape.levels) - 1,
        };
        let asks = [self.well_formed(), self.well_formed()];
        let words = if self.rng.chance(4) {
            1
        } else {
            2 + self.rng.below(2)
        };
        self.put(asks, self.shape.needed(), words, 0);
    }

    fn well_formed(&mut self) -> Ask {
        let block = self.rng.below(self.shape.blocks);
        let (kind, length) = match self.rng.chance(50) {
            true => (WRITE, self.shape.bytes),
            false => (READ, 0),
        };
        Ask::Request {
            kind,
            block,
            contents: self.rng.bytes(length),
        }
    }

    /// One turn or more, then completions of what may be outstanding.
    fn turns(&mut self) {
        for _ in 0..1 + self.rng.below(self.shape.window) {
            let words = self.turn_words + self.rng.below(2);
            self.same(Ask::Turn, words, self.shape.bytes);
        }
        for command in self.outstanding() {
            let length = self.shape.bytes * (2 - command.kind);
            if self.rng.chance(3) {
                self.completion(command, length + 1);
            }
            if self.rng.chance(self.completes) {
                self.completion(command, length);
            }
        }
    }

    /// The commands outstanding in a sampled run.
    fn outstanding(&self) -> BTreeSet<Command> {
        let all = self.samples.iter().flatten();
        let states = all.filter_map(|s| s.store.state.as_ref());
        states.flat_map(|s| s.outstanding.iter().copied()).collect()
    }

    /// The bytes may differ: they are no part of a list.
    fn completion(&mut self, command: Command, length: usize) {
        let mut ask = || Ask::Completion {
            command,
            bytes: self.rng.bytes(length),
        };
        let asks = [ask(), ask()];
        self.put(asks, self.shape.needed(), 0, 0);
    }

    /// A call that is refused with most tapes. A request that isn't
    /// well-formed has the same kind, block and length in both lists.
    fn odd(&mut self) {
        let bytes = self.shape.bytes;
        let block = self.rng.below(self.shape.blocks);
        let command = Command {
            kind: self.rng.below(4),
            partition: self.rng.below(self.shape.partitions),
            level: self.rng.below(self.shape.levels),
            slot: self.rng.below(3),
        };
        match self.rng.below(10) {
            0 => self.ill_formed(READ, block, 1),
            1 => self.ill_formed(WRITE, block, bytes + 1),
            2 => self.ill_formed(READ, self.shape.blocks, 0),
            3 => self.ill_formed(0, block, bytes),
            4 => self.completion(command, bytes),
            5 => self.same(Ask::Collect, 0, bytes + 1),
            6 => self.same(Ask::Turn, self.turn_words, bytes + 1),
            7 => self.same(Ask::Turn, 0, bytes),
            8 => {
                let asks = [self.well_formed(), self.well_formed()];
                self.put(asks, self.shape.needed() - 1, 2, 0);
            }
            _ => self.put([Ask::Turn, Ask::Turn], self.shape.needed() - 1, 3, bytes),
        }
    }

    fn ill_formed(&mut self, kind: usize, block: usize, length: usize) {
        let mut ask = || Ask::Request {
            kind,
            block,
            contents: self.rng.bytes(length),
        };
        let asks = [ask(), ask()];
        self.put(asks, self.shape.needed(), 2, 0);
    }
}
