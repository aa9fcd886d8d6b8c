//! The proved calls behind the trait by which look-ups are timed.

use crate::convert::{self, tape};
use plain::fast;
use plain::lookups::Client;
use plain::shape::Shape;
use rinwolfedd::calls::{self, Answer, STATE};

pub struct Proved {
    state: [u8; STATE],
    memory: Vec<u8>,
}

impl Proved {
    /// How many blocks wait in the cache: the last number of the state but one
    /// (docs/MEMORY.md).
    pub fn waiting(&self) -> u16 {
        u16::from_le_bytes([self.state[STATE - 8], self.state[STATE - 7]])
    }

    /// A number of the tables in the memory.
    pub fn table(&self, index: usize) -> usize {
        usize::from(u16::from_le_bytes([
            self.memory[2 * index],
            self.memory[2 * index + 1],
        ]))
    }

    /// The saved form, at the start of the buffer.
    #[inline]
    pub fn save(&self, buffer: &mut [u8]) -> Answer {
        calls::save(&self.state, &self.memory, buffer)
    }

    #[inline]
    pub fn load(&mut self, form: &[u8]) -> Answer {
        calls::load(&mut self.state, &mut self.memory, form)
    }

    /// The page, at the start of the buffer.
    #[inline]
    pub fn page(&self, buffer: &mut [u8]) -> Answer {
        calls::page(&self.state, &self.memory, buffer)
    }
}

/// Taken apart by its bits, so that next to nothing is timed but the calls.
#[inline]
fn answer(from: Answer) -> fast::Answer {
    let bits = from.bits();
    fast::Answer {
        number: (bits & 31) as u8,
        found: (bits >> 28 & 15) as u8,
        taken: (bits >> 32) as u16,
        command: fast::Command {
            kind: (bits >> 5 & 3) as u8,
            partition: (bits >> 7 & 63) as u8,
            level: (bits >> 13 & 15) as u8,
            slot: (bits >> 17) as u8,
        },
    }
}

impl Client for Proved {
    fn open(shape: Shape, words: &[u16]) -> Result<Proved, u8> {
        let mut proved = Proved {
            state: [0; STATE],
            memory: vec![0; shape.needed()],
        };
        let (state, memory) = (&mut proved.state, &mut proved.memory);
        let answer = calls::open(state, memory, convert::numbers(shape), tape(words));
        match answer.number() {
            0 => Ok(proved),
            number => Err(number),
        }
    }

    #[inline]
    fn request(&mut self, kind: u8, block: usize, contents: &[u8], words: &[u16]) -> fast::Answer {
        let (state, memory) = (&mut self.state, &mut self.memory);
        let words = tape(words);
        answer(calls::request(
            state,
            memory,
            kind.into(),
            block,
            contents,
            words,
        ))
    }

    #[inline]
    fn turn(&mut self, words: &[u16], buffer: &mut [u8]) -> fast::Answer {
        let (state, memory) = (&mut self.state, &mut self.memory);
        answer(calls::turn(state, memory, tape(words), buffer))
    }

    #[inline]
    fn completion(&mut self, command: fast::Command, bytes: &[u8]) -> u8 {
        let (state, memory) = (&mut self.state, &mut self.memory);
        let slot = [command.partition, command.level, command.slot].map(usize::from);
        calls::completion(state, memory, command.kind.into(), slot, bytes).number()
    }

    #[inline]
    fn collect(&mut self, buffer: &mut [u8]) -> fast::Answer {
        answer(calls::collect(&mut self.state, &mut self.memory, buffer))
    }
}
