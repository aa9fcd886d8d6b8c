//! Every length and random contents: each call answers one of its numbers, and
//! nothing outside what is lent changes. A refusal changes no lent byte, but for a
//! closed state. The page is asked for as a sixth call.

#[path = "common/lent.rs"]
mod lent;

use lent::Lent;
use plain::form::broken::Broken;
use plain::form::{bad, sums};
use plain::rng::Rng;
use rinwolfedd::calls::{self, Answer, STATE};
use rinwolfedd::{Found, Shape};

const SHAPE: Shape = Shape::new(3, 2, 2, 4).with_window(2);
const PLAIN: plain::shape::Shape = plain::shape::Shape::new(3, 2, 2, 4, 3, 2);

/// The longest form of the shape.
const LONGEST: usize = 512;

/// The state of an open store with numbers put in at random, so that each
/// question comes to a no now and then; or bytes that say nothing.
fn state(rng: &mut Rng, len: usize) -> Vec<u8> {
    if len != STATE || rng.chance(20) {
        return rng.bytes(len);
    }
    let mut words = [0; STATE / 4];
    words[..6].copy_from_slice(&[3, 2, 2, 4, 3, 2u16]);
    for word in &mut words[6..] {
        *word = rng.below(4) as u16;
    }
    words[11] = rng.below(6) as u16; // where a block was found; in range below 5
    words[14] = rng.below(5) as u16; // for how many jobs the front one runs; up to 3
    words[14] *= u16::from(words[13] > 0 || rng.chance(10)); // 0 without a job
    if rng.chance(30) {
        words[rng.below(words.len())] = rng.step() as u16;
    }
    // The two bytes behind each number are not used.
    let mut bytes = rng.bytes(STATE);
    for (number, word) in bytes.chunks_exact_mut(4).zip(words) {
        number[..2].copy_from_slice(&word.to_le_bytes());
    }
    bytes
}

struct Lending {
    state: Lent,
    memory: Lent,
    buffer: Lent,
}

/// A form of the shape, or of something like it, or random bytes.
fn form(rng: &mut Rng) -> Vec<u8> {
    let form = bad::passable(rng, PLAIN);
    let mut bytes = form.bytes();
    match rng.below(6) {
        0 => bytes[rng.below(LONGEST)] ^= 1 << rng.below(8),
        1 => {
            let broken = Broken::ALL[rng.below(Broken::ALL.len())];
            bytes = broken.bytes(&form).unwrap_or(bytes);
        }
        2 => bytes = rng.bytes(LONGEST),
        3 => {
            bytes[rng.below(LONGEST)] = rng.step() as u8;
            sums::make_right(&mut bytes);
        }
        _ => {}
    }
    let length = [0, 511, 513, rng.below(1600)][rng.below(4)];
    if rng.chance(10) {
        bytes.resize(length, 0);
    }
    bytes
}

/// About as many bytes as the buffer of a call needs: those of a block, of the
/// page of two partitions or of a form, though the state may have others.
fn buffer_length(rng: &mut Rng, which: usize) -> usize {
    match which {
        PAGE => [87, 87, 83 + rng.below(9), rng.below(200)][rng.below(4)],
        SAVE => [LONGEST, LONGEST, 508 + rng.below(9), rng.below(1600)][rng.below(4)],
        _ if rng.chance(60) => 4,
        _ => rng.below(9),
    }
}

impl Lending {
    /// What is lent to a call; a load's form is in place of a buffer.
    fn new(rng: &mut Rng, state_len: usize, memory: usize, which: usize) -> Lending {
        let len = buffer_length(rng, which);
        let buffer = match which {
            LOAD => form(rng),
            _ => rng.bytes(len),
        };
        Lending {
            state: Lent::new(&state(rng, state_len)),
            memory: Lent::new(&rng.bytes(memory)),
            buffer: Lent::new(&buffer),
        }
    }

    fn bytes(&self) -> [Vec<u8>; 3] {
        [&self.state, &self.memory, &self.buffer].map(|lent| lent.bytes().to_vec())
    }

    /// One of the calls with random arguments.
    fn call(&mut self, rng: &mut Rng, which: usize) -> Answer {
        let state = self.state.lend();
        let memory = self.memory.lend();
        let length = rng.below(80);
        let tape = rng.bytes(length);
        let length = [0, 4, 4, rng.below(9)][rng.below(4)];
        let contents = rng.bytes(length);
        let number = |rng: &mut Rng| match rng.below(10) {
            0 => rng.step() as usize,
            _ => rng.below(4),
        };
        match which {
            OPEN => {
                let numbers = match rng.chance(30) {
                    true => [3, number(rng), 2, 4, number(rng), 2],
                    false => SHAPE.numbers(),
                };
                calls::open(state, memory, numbers, &tape)
            }
            1 => calls::request(state, memory, number(rng), number(rng), &contents, &tape),
            2 => calls::turn(state, memory, &tape, self.buffer.lend()),
            3 => {
                let slot = [number(rng), number(rng), number(rng)];
                calls::completion(state, memory, number(rng), slot, &contents)
            }
            COLLECT => calls::collect(state, memory, self.buffer.lend()),
            SAVE => calls::save(state, memory, self.buffer.lend()),
            LOAD => calls::load(state, memory, self.buffer.bytes()),
            _ => calls::page(state, memory, self.buffer.lend()),
        }
    }
}

/// The bytes between the numbers of a state, which no accepted call changes.
fn between(state: &[u8]) -> Vec<&[u8]> {
    state.chunks_exact(4).map(|number| &number[2..]).collect()
}

/// The numbers of a request in a state: kind, block, next partition, eviction
/// partition, level, where its block was found, and for how many of the
/// outstanding commands it waits.
fn request_numbers(state: &[u8]) -> [u16; 7] {
    std::array::from_fn(|k| u16::from_le_bytes([state[24 + 4 * k], state[25 + 4 * k]]))
}

/// 0 while no request is in hand.
fn kind_of_request(state: &[u8]) -> u16 {
    request_numbers(state)[0]
}

/// The calls by number, and how many there are.
const OPEN: usize = 0;
const COLLECT: usize = 4;
const PAGE: usize = 5;
const SAVE: usize = 6;
const LOAD: usize = 7;
const CALLS: usize = 8;

/// The numbers that each call may answer.
const NUMBERS: [&[u8]; CALLS] = [
    &[0, 1, 2, 3],
    &[0, 2, 3, 4, 5, 6, 7, 8],
    &[0, 2, 3, 9, 10, 15],
    &[0, 2, 11, 12],
    &[0, 2, 13, 14, 15],
    &[0, 2, 15],
    &[0, 2, 16],
    &[0, 2, 17, 18],
];

/// A page leaves all but the first bytes of its buffer, which are as many as it
/// says.
fn check_page(before: &[Vec<u8>; 3], answer: Answer, after: &[Vec<u8>; 3]) {
    assert_eq!(after[..2], before[..2], "it only reads");
    let length = answer.length();
    assert_eq!(answer.bits(), (length as u64) << 32, "and nothing else");
    let (page, tail) = after[2].split_at(length);
    assert_eq!(tail, &before[2][length..]);
    assert!((2 * calls::LINE..=calls::PAGE).contains(&length));
    for line in page.chunks(calls::LINE) {
        assert!(line.len() == calls::LINE && line.is_ascii() && line.ends_with(b"\n"));
    }
}

/// A save leaves all but the first bytes of its buffer, which are a form.
fn check_save(before: &[Vec<u8>; 3], answer: Answer, after: &[Vec<u8>; 3]) {
    assert_eq!(after[..2], before[..2], "it only reads");
    let length = answer.length();
    assert_eq!(answer.bits(), (length as u64) << 32, "and nothing else");
    let (form, tail) = after[2].split_at(length);
    assert_eq!(tail, &before[2][length..]);
    assert!(length > 0 && sums::are_blocks(form, plain::mistakes::Mistake::None));
}

/// What an accepted call leaves of the state, and what it answers: only a
/// collect tells where a block was found, as the state had it.
fn check_accepted(which: usize, before: &[Vec<u8>; 3], answer: Answer, after: &[Vec<u8>; 3]) {
    assert_eq!(between(&after[0]), between(&before[0]));
    let [asked, left] = [before, after].map(|lent| request_numbers(&lent[0]));
    if kind_of_request(&after[0]) == 0 {
        let wanted = match which {
            OPEN | COLLECT | LOAD => [0; 7],
            _ => asked,
        };
        assert_eq!(left, wanted, "call {which}");
    }
    if which == COLLECT {
        let told = u64::from(asked[5]) - 1;
        assert_eq!(answer.bits(), told << 28, "and nothing else");
    } else {
        assert_eq!(answer.found(), Found::Nowhere, "call {which}");
    }
    match which {
        PAGE => check_page(before, answer, after),
        SAVE => check_save(before, answer, after),
        LOAD => assert_eq!((answer.bits(), &after[2]), (0, &before[2])),
        _ => {}
    }
}

/// How often each call answered each number.
type Seen = [[usize; 19]; CALLS];

fn check(rng: &mut Rng, state_len: usize, memory: usize, seen: &mut Seen) {
    for which in 0..CALLS {
        let mut lending = Lending::new(rng, state_len, memory, which);
        let before = lending.bytes();
        let answer = lending.call(rng, which);
        let sound = lending.state.is_sound() && lending.memory.is_sound();
        assert!(sound && lending.buffer.is_sound());
        assert!(
            NUMBERS[which].contains(&answer.number()),
            "{which}: {answer:?}"
        );
        let mut after = lending.bytes();
        if answer.number() == 0 {
            check_accepted(which, &before, answer, &after);
        } else {
            if which == OPEN || which == LOAD {
                assert_eq!(after[0], vec![0; state_len]);
                after[0].clone_from(&before[0]);
            }
            assert_eq!(after, before, "call {which} answers {answer:?}");
            assert_eq!(answer.bits(), answer.number().into(), "and nothing else");
        }
        seen[which][usize::from(answer.number())] += 1;
    }
}

#[test]
fn every_length_of_memory() {
    let mut rng = Rng::new(1);
    let mut seen = Seen::default();
    let needed = SHAPE.needed().unwrap();
    for memory in 0..needed + 9 {
        check(&mut rng, STATE, memory, &mut seen);
    }
    for memory in needed..needed + 9 {
        for _ in 0..20_000 {
            check(&mut rng, STATE, memory, &mut seen);
        }
    }
    for (which, numbers) in NUMBERS.iter().enumerate() {
        for number in numbers.iter().filter(|number| **number != 7) {
            let count = seen[which][usize::from(*number)];
            assert!(count > 0, "call {which} never answers {number}");
        }
    }
}

#[test]
fn every_length_of_state() {
    let mut rng = Rng::new(2);
    let mut seen = Seen::default();
    let needed = SHAPE.needed().unwrap();
    for state_len in (0..100).filter(|len| *len != STATE) {
        check(&mut rng, state_len, needed, &mut seen);
    }
    // a state of another length is answered 2, an open of no shape 1, and a load of
    // no form 17 or 18
    assert!(seen[1..LOAD].iter().all(|numbers| numbers[2] == 99));
    for (which, numbers) in [(OPEN, &[1, 2][..]), (LOAD, &[2, 17, 18])] {
        let seen = numbers.iter().map(|number| seen[which][*number]);
        assert!(seen.clone().all(|count| count > 0) && seen.sum::<usize>() == 99);
    }
}
