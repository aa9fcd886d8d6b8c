//! Whole look-ups through a client, for benchmarks: the request, its turns
//! and completions, the collect, and both jobs run to the end. The loop is
//! the same for every client.

use crate::fast::{Answer, Command, READ, Store, WRITE};
use crate::rng::Rng;
use crate::shape::Shape;
use std::time::{Duration, Instant};

/// The shapes at which look-ups are timed.
pub const SHAPES: [Shape; 3] = [
    Shape::new(64, 4, 5, 64, 64, 32),
    Shape::new(1024, 16, 7, 256, 1024, 32),
    Shape::new(4096, 64, 8, 512, 4096, 32),
];

/// The five calls, over borrowed slices. A client keeps its state, or takes
/// it along with its memory, as it likes.
pub trait Client: Sized {
    fn open(shape: Shape, words: &[u16]) -> Result<Self, u8>;
    fn request(&mut self, kind: u8, block: usize, contents: &[u8], words: &[u16]) -> Answer;
    fn turn(&mut self, words: &[u16], buffer: &mut [u8]) -> Answer;
    fn completion(&mut self, command: Command, bytes: &[u8]) -> u8;
    fn collect(&mut self, answer: &mut [u8]) -> Answer;
}

impl Client for Store {
    #[inline]
    fn open(shape: Shape, words: &[u16]) -> Result<Store, u8> {
        Store::open(shape, words)
    }

    #[inline]
    fn request(&mut self, kind: u8, block: usize, contents: &[u8], words: &[u16]) -> Answer {
        self.request(kind, block, contents, words)
    }

    #[inline]
    fn turn(&mut self, words: &[u16], buffer: &mut [u8]) -> Answer {
        self.turn(words, buffer)
    }

    #[inline]
    fn completion(&mut self, command: Command, bytes: &[u8]) -> u8 {
        self.completion(command, bytes)
    }

    #[inline]
    fn collect(&mut self, answer: &mut [u8]) -> Answer {
        self.collect(answer)
    }
}

/// B bytes at a time in one flat Vec, from a cache line's border on.
struct Bytes {
    all: Vec<u8>,
    start: usize,
    length: usize,
}

impl Bytes {
    fn new(count: usize, length: usize) -> Bytes {
        let all = vec![0; count * length + 64];
        let start = all.as_ptr().align_offset(64).min(64);
        Bytes { all, start, length }
    }

    #[inline]
    fn at(&mut self, index: usize) -> &mut [u8] {
        let at = self.start + index * self.length;
        &mut self.all[at..at + self.length]
    }
}

/// A host completes each command at once.
pub trait Host {
    /// Whether reads bring what was written.
    const KEEPS: bool;
    fn new(shape: Shape) -> Self;
    /// What is in a slot. The bytes may be put in the buffer.
    fn read<'a>(&'a mut self, command: Command, buffer: &'a mut [u8]) -> &'a [u8];
    fn write(&mut self, command: Command, bytes: &[u8]);
}

/// A host in memory, which stores the slots in one flat Vec.
pub struct Memory {
    slots: Bytes,
    /// The slots of a partition.
    stride: usize,
}

impl Memory {
    #[inline]
    fn slot(&mut self, command: Command) -> &mut [u8] {
        let levels = usize::from(command.partition) * self.stride;
        let level = levels + (2 << command.level) - 2;
        self.slots.at(level + usize::from(command.slot))
    }
}

impl Host for Memory {
    const KEEPS: bool = true;

    fn new(shape: Shape) -> Memory {
        let stride = (2 << shape.levels) - 2;
        Memory {
            slots: Bytes::new(shape.partitions * stride, shape.bytes),
            stride,
        }
    }

    #[inline]
    fn read<'a>(&'a mut self, command: Command, _: &'a mut [u8]) -> &'a [u8] {
        self.slot(command)
    }

    #[inline]
    fn write(&mut self, command: Command, bytes: &[u8]) {
        self.slot(command).copy_from_slice(bytes);
    }
}

/// A host that does nothing: each read brings what is in the buffer. The
/// commands don't depend on the bytes, so they are those of the other host,
/// and the time is the client's alone but for the loop itself.
pub struct Nothing;

impl Host for Nothing {
    const KEEPS: bool = false;

    fn new(_: Shape) -> Nothing {
        Nothing
    }

    #[inline]
    fn read<'a>(&'a mut self, _: Command, buffer: &'a mut [u8]) -> &'a [u8] {
        buffer
    }

    #[inline]
    fn write(&mut self, _: Command, _: &[u8]) {}
}

/// Words of a deterministic generator, made many at a time.
pub struct Tape {
    state: u64,
    words: Vec<u16>,
    at: usize,
}

/// The words made at a time, and those that each call is lent: the 502 draws
/// of the orders of all levels, and more to be passed over than ever are. So
/// many zeros stand behind the words that are made, so that as many of these
/// are drawn from as if none were passed over.
const TAPE: usize = 1 << 12;
const DRAWS: usize = 502;
const SPARE: usize = 65;
/// The places that an answer tells: nowhere, the cache and eight levels.
const PLACES: usize = 10;

impl Tape {
    pub fn new(seed: u64) -> Tape {
        let mut tape = Tape {
            state: seed | 1,
            words: vec![0; TAPE + SPARE],
            at: 0,
        };
        tape.refill();
        tape
    }

    /// A multiplicative generator; its upper half has the good bits.
    fn refill(&mut self) {
        for pair in self.words[..TAPE].chunks_exact_mut(2) {
            self.state = self.state.wrapping_mul(0xDA94_2042_E4DD_58B5);
            pair[0] = (self.state >> 48) as u16;
            pair[1] = (self.state >> 32) as u16;
        }
        self.at = 0;
    }

    /// What the next call is lent.
    #[inline]
    pub fn lend(&mut self) -> &[u16] {
        if self.at + DRAWS > TAPE {
            self.refill();
        }
        &self.words[self.at..self.at + DRAWS + SPARE]
    }

    #[inline]
    pub fn take(&mut self, taken: u16) {
        self.at += usize::from(taken);
    }
}

/// A client with a host, a tape and the buffers it is lent.
pub struct LookUps<C, H> {
    pub client: C,
    shape: Shape,
    host: H,
    tape: Tape,
    rng: Rng,
    /// The buffer of writes, the contents of requests and the answer.
    buffer: Bytes,
    contents: Bytes,
    answer: Bytes,
    pub commands: u64,
    /// How often a block was found nowhere, in the cache, and in each level.
    pub found: [u64; PLACES],
}

/// Look-ups with the time that each so many of them took.
#[derive(Clone, Debug)]
pub struct Measure {
    pub look_ups: usize,
    pub commands: u64,
    pub parts: Vec<Duration>,
}

/// The look-ups of a part, short enough that most parts run undisturbed.
const PART: usize = 256;

impl Measure {
    /// Of two measures of the same look-ups, the better time of each part.
    pub fn best(mut self, other: &Measure) -> Measure {
        assert_eq!(self.commands, other.commands);
        for (time, again) in self.parts.iter_mut().zip(&other.parts) {
            *time = *again.min(time);
        }
        self
    }

    pub fn nanoseconds(&self) -> f64 {
        self.parts.iter().sum::<Duration>().as_nanos() as f64
    }
}

impl<C: Client, H: Host> LookUps<C, H> {
    /// Opens the client on words of the seed's generator.
    pub fn open(shape: Shape, seed: u64) -> Result<LookUps<C, H>, u8> {
        let words = Rng::new(seed).words(shape.blocks);
        Ok(LookUps {
            client: C::open(shape, &words)?,
            shape,
            host: H::new(shape),
            tape: Tape::new(seed),
            rng: Rng::new(!seed),
            buffer: Bytes::new(1, shape.bytes),
            contents: Bytes::new(1, shape.bytes),
            answer: Bytes::new(1, shape.bytes),
            commands: 0,
            found: [0; PLACES],
        })
    }

    /// One whole look-up. The answer is in the answer's buffer; an error is
    /// the number of a refusal.
    pub fn look_up(&mut self, kind: u8, block: usize) -> Result<(), u8> {
        let contents: &[u8] = match kind {
            WRITE => self.contents.at(0),
            _ => &[],
        };
        let answer = self.client.request(kind, block, contents, self.tape.lend());
        self.tape.take(answer.taken);
        accepted(answer.number)?;
        self.run()?;
        let answer = self.client.collect(self.answer.at(0));
        accepted(answer.number)?;
        self.found[usize::from(answer.found)] += 1;
        self.run()
    }

    /// Turns until there is no command to send; each command is completed at
    /// once.
    fn run(&mut self) -> Result<(), u8> {
        let buffer = self.buffer.at(0);
        loop {
            let answer = self.client.turn(self.tape.lend(), buffer);
            match answer.number {
                0 => self.tape.take(answer.taken),
                10 => return Ok(()),
                number => return Err(number),
            }
            self.commands += 1;
            let command = answer.command;
            let number = if command.kind == READ {
                let bytes = self.host.read(command, buffer);
                self.client.completion(command, bytes)
            } else {
                self.host.write(command, buffer);
                self.client.completion(command, &[])
            };
            accepted(number)?;
        }
    }

    /// Look-ups until all blocks have been stored and the counters have
    /// wrapped: twice as many as bring each counter on by 2^L on average.
    /// The answers are compared with a plain array.
    pub fn warm_up(&mut self) -> Result<(), String> {
        let n = self.shape.blocks;
        let mut array = vec![0; n];
        for index in 0..n + (self.shape.partitions << self.shape.levels) {
            let block = if index < n { index } else { self.rng.below(n) };
            let kind = if index % 2 == 0 || index < n {
                WRITE
            } else {
                READ
            };
            let tag = self.rng.step() as u8;
            self.contents.at(0).fill(tag);
            let refused = |number| format!("refused with {number}");
            self.look_up(kind, block).map_err(refused)?;
            if H::KEEPS && self.answer.at(0).iter().any(|byte| *byte != array[block]) {
                return Err(format!("block {block} differs from the array"));
            }
            if kind == WRITE {
                array[block] = tag;
            }
        }
        Ok(())
    }

    /// Times so many look-ups of random blocks, reads and writes by turns.
    pub fn measure(&mut self, look_ups: usize) -> Result<Measure, u8> {
        let mut measure = Measure {
            look_ups,
            commands: 0,
            parts: Vec::with_capacity(look_ups.div_ceil(PART)),
        };
        let before = self.commands;
        for part in (0..look_ups).step_by(PART) {
            let start = Instant::now();
            for index in part..look_ups.min(part + PART) {
                let block = self.rng.below(self.shape.blocks);
                self.look_up([READ, WRITE][index % 2], block)?;
            }
            measure.parts.push(start.elapsed());
        }
        measure.commands = self.commands - before;
        Ok(measure)
    }
}

fn accepted(number: u8) -> Result<(), u8> {
    if number == 0 { Ok(()) } else { Err(number) }
}
