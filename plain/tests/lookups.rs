//! The loop of look-ups: the model goes through it as the fast store does,
//! and the fast store allocates nothing after it was opened.

use plain::calls::{Ask, Call, Outcome, Store as Model};
use plain::fast::{Answer, Command, READ, Store, WRITE};
use plain::lookups::{Client, LookUps, Memory, Nothing};
use plain::mistakes::Mistake;
use plain::shape::Shape;
use plain::state;
use std::alloc::{GlobalAlloc, Layout, System};
use std::cell::Cell;

thread_local! {
    static ALLOCATIONS: Cell<usize> = const { Cell::new(0) };
}

struct Counting;

// SAFETY: all is left to the system's allocator.
unsafe impl GlobalAlloc for Counting {
    unsafe fn alloc(&self, layout: Layout) -> *mut u8 {
        ALLOCATIONS.with(|count| count.set(count.get() + 1));
        unsafe { System.alloc(layout) }
    }

    unsafe fn dealloc(&self, pointer: *mut u8, layout: Layout) {
        unsafe { System.dealloc(pointer, layout) }
    }
}

#[global_allocator]
static COUNTING: Counting = Counting;

/// The model, behind the calls over slices.
struct Slow {
    model: Model,
    memory: usize,
}

impl Slow {
    fn call(&mut self, ask: Ask, words: &[u16], buffer: &mut [u8]) -> Answer {
        let outcome: Outcome = self.model.call(&Call {
            ask,
            memory: self.memory,
            words: words.to_vec(),
            buffer: buffer.len(),
        });
        if !outcome.bytes.is_empty() {
            buffer.copy_from_slice(&outcome.bytes);
        }
        Answer {
            number: outcome.number,
            found: outcome.found.number() as u8,
            taken: outcome.taken as u16,
            command: Command {
                kind: outcome.command.kind as u8,
                partition: outcome.command.partition as u8,
                level: outcome.command.level as u8,
                slot: outcome.command.slot as u8,
            },
        }
    }
}

impl Client for Slow {
    fn open(shape: Shape, words: &[u16]) -> Result<Slow, u8> {
        let mut slow = Slow {
            model: Model::new(Mistake::None),
            memory: shape.needed(),
        };
        match slow.call(Ask::Open(shape), words, &mut []).number {
            0 => Ok(slow),
            number => Err(number),
        }
    }

    fn request(&mut self, kind: u8, block: usize, contents: &[u8], words: &[u16]) -> Answer {
        let ask = Ask::Request {
            kind: kind.into(),
            block,
            contents: contents.to_vec(),
        };
        self.call(ask, words, &mut [])
    }

    fn turn(&mut self, words: &[u16], buffer: &mut [u8]) -> Answer {
        self.call(Ask::Turn, words, buffer)
    }

    fn completion(&mut self, command: Command, bytes: &[u8]) -> u8 {
        let command = state::Command {
            kind: command.kind.into(),
            partition: command.partition.into(),
            level: command.level.into(),
            slot: command.slot.into(),
        };
        let bytes = bytes.to_vec();
        let ask = Ask::Completion { command, bytes };
        self.call(ask, &[], &mut []).number
    }

    fn collect(&mut self, answer: &mut [u8]) -> Answer {
        self.call(Ask::Collect, &[], answer)
    }
}

const SHAPE: Shape = Shape::new(64, 4, 5, 64, 64, 32);

#[test]
fn the_model_goes_through_the_same_loop() {
    let mut slow = LookUps::<Slow, Memory>::open(SHAPE, 7).expect("opens");
    let mut fast = LookUps::<Store, Memory>::open(SHAPE, 7).expect("opens");
    let mut blank = LookUps::<Store, Nothing>::open(SHAPE, 7).expect("opens");
    slow.warm_up().expect("answers as the array does");
    fast.warm_up().expect("answers as the array does");
    blank.warm_up().expect("refuses nothing");
    for look_ups in [1, 300, 513] {
        let commands = slow.measure(look_ups).expect("accepts").commands;
        assert_eq!(commands, fast.measure(look_ups).expect("accepts").commands);
        assert_eq!(commands, blank.measure(look_ups).expect("accepts").commands);
    }
    assert!(slow.commands > 5000);
    assert_eq!((slow.found, slow.found), (fast.found, blank.found));
    assert!(
        slow.found[..2 + SHAPE.levels]
            .iter()
            .all(|times| *times > 0)
    );
}

#[test]
fn nothing_is_allocated_after_open() {
    let mut look_ups = LookUps::<Store, Memory>::open(SHAPE, 3).expect("opens");
    let before = ALLOCATIONS.with(Cell::get);
    assert!(before > 0);
    for block in (0..64).cycle().take(2000) {
        look_ups.look_up(WRITE, block).expect("accepts");
        look_ups.look_up(READ, 63 - block).expect("accepts");
    }
    assert_eq!(ALLOCATIONS.with(Cell::get), before);
}
