//! Numbers as wide as a host can pass, at the five calls themselves: each value
//! is answered, and a refusal changes nothing. A page is passed none, but reads
//! those of the state.

use rinwolfedd::Shape;
use rinwolfedd::calls::{self, READ, STATE, WRITE};

/// N, P, L, B, E and W of the store.
const SHAPE: Shape = Shape::new(8, 2, 3, 4).with_window(4);
const NUMBERS: [usize; 6] = SHAPE.numbers();

/// Numbers that agree with a small one in their low 8, 16 or 32 bits.
fn wide(small: usize) -> [usize; 5] {
    [9, 16, 32, 40, 60].map(|bit| small + (1 << bit))
}

fn opened() -> ([u8; STATE], Vec<u8>) {
    let mut state = [0; STATE];
    let mut memory = vec![0; SHAPE.needed().expect("a shape within bounds")];
    let answer = calls::open(&mut state, &mut memory, NUMBERS, &[0; 16]);
    assert_eq!(answer.number(), 0);
    (state, memory)
}

#[test]
fn requests() {
    let (mut state, mut memory) = opened();
    let before = (state, memory.clone());
    let mut number =
        |kind, block| calls::request(&mut state, &mut memory, kind, block, &[], &[0; 4]).number();
    for block in wide(3) {
        assert_eq!(number(READ, block), 5, "block {block}");
    }
    for kind in [0, 3, 9].into_iter().chain(wide(READ)).chain(wide(WRITE)) {
        assert_eq!(number(kind, 3), 2, "kind {kind}");
    }
    assert_eq!((state, memory), before);
}

#[test]
fn completions() {
    let (mut state, mut memory) = opened();
    // a request, collected at once, queues a job for either partition; the first
    // writes two slots of level 0
    let asked = calls::request(&mut state, &mut memory, READ, 3, &[], &[0, 0, 1, 0]);
    let collected = calls::collect(&mut state, &mut memory, &mut [0; 4]);
    let sent = calls::turn(&mut state, &mut memory, &[0; 2], &mut [0; 4]);
    assert_eq!([asked.number(), collected.number(), sent.number()], [0; 3]);
    let before = (state, memory.clone());
    let mut number =
        |kind, slot| calls::completion(&mut state, &mut memory, kind, slot, &[]).number();
    for place in 0..3 {
        for value in wide(0) {
            let mut slot = [0; 3];
            slot[place] = value;
            assert_eq!(number(WRITE, slot), 11, "slot {slot:?}");
        }
    }
    for kind in wide(WRITE) {
        assert_eq!(number(kind, [0; 3]), 2, "kind {kind}");
    }
    assert_eq!((state, memory), before);
}

/// Of each number of the state two bytes are read: a wide one is out of its
/// range, unless it is that of a request and none is in hand; the two bytes
/// behind it are not looked at.
#[test]
fn pages() {
    let (state, memory) = opened();
    let page = |state: &[u8; STATE]| {
        let mut buffer = vec![1; 87];
        let answer = calls::page(state, &memory, &mut buffer);
        (answer.number(), buffer)
    };
    let shown = page(&state);
    assert_eq!(shown.0, 0);
    for number in 0..STATE / 4 {
        let mut wide = state;
        wide[4 * number + 1] += 2; // 2^9 more
        let wanted = match number {
            7..13 => shown.clone(),
            _ => (2, vec![1; 87]),
        };
        assert_eq!(page(&wide), wanted, "number {number}");
        let mut wide = state;
        wide[4 * number + 2..4 * number + 4].fill(255);
        assert_eq!(page(&wide), shown, "number {number}");
    }
}

/// Where the block of a request in hand was found is in its range below L + 3: 0
/// while it is held, and else 1 more than what a collect tells.
#[test]
fn places_of_blocks() {
    const FOUND: usize = 4 * 11;
    let (mut state, mut memory) = opened();
    let asked = calls::request(&mut state, &mut memory, READ, 3, &[], &[0; 4]);
    assert_eq!((asked.number(), state[FOUND]), (0, 1)); // nowhere
    let collected = |number: usize| {
        let (mut state, mut memory, mut buffer) = (state, memory.clone(), [1; 4]);
        state[FOUND..FOUND + 2].copy_from_slice(&(number as u16).to_le_bytes());
        let answer = calls::collect(&mut state, &mut memory, &mut buffer);
        assert_eq!(buffer == [0; 4], answer.number() == 0);
        answer.bits()
    };
    assert_eq!(collected(0), 14, "it is held");
    for number in 1..6 {
        assert_eq!(collected(number), (number as u64 - 1) << 28);
        let [wide, wider] = [8, 15].map(|bit| collected(number + (1 << bit)));
        assert_eq!([wide, wider], [2; 2], "{number}");
    }
    assert_eq!([6, 7, 16, 17, 65535].map(collected), [2; 5]);
}

/// The number of outstanding commands for which a request in hand waits is in
/// its range up to W, whatever is outstanding.
#[test]
fn commands_awaited() {
    const AWAITS: usize = 4 * 12;
    let (mut state, mut memory) = opened();
    let asked = calls::request(&mut state, &mut memory, READ, 3, &[], &[0; 4]);
    assert_eq!((asked.number(), state[AWAITS]), (0, 0)); // nothing is outstanding
    let collected = |number: usize| {
        let (mut state, mut memory, mut buffer) = (state, memory.clone(), [1; 4]);
        state[AWAITS..AWAITS + 2].copy_from_slice(&(number as u16).to_le_bytes());
        let answer = calls::collect(&mut state, &mut memory, &mut buffer);
        assert_eq!(buffer == [0; 4], answer.number() == 0);
        assert!(answer.number() != 0 || state[AWAITS..AWAITS + 2] == [0; 2]);
        answer.bits()
    };
    let [_, _, _, _, _, window] = NUMBERS;
    for number in 0..=window {
        assert_eq!(collected(number), 0, "{number}");
        let [wide, wider] = [8, 15].map(|bit| collected(number + (1 << bit)));
        assert_eq!([wide, wider], [2; 2], "{number}");
    }
    assert_eq!([window + 1, 32, 255, 65535].map(collected), [2; 4]);
}

/// A store of these levels with so many jobs queued, the front one for the
/// second of two partitions, whose counter is this; the first one's is 0.
fn queued(levels: usize, jobs: u16, counter: u16) -> ([u8; STATE], Vec<u8>) {
    const JOBS: usize = 4 * 13;
    let shape = Shape::new(2, 2, levels, 1).with_window(1);
    let mut state = [0; STATE];
    let mut memory = vec![0; shape.needed().expect("a shape within bounds")];
    let answer = calls::open(&mut state, &mut memory, shape.numbers(), &[0; 4]);
    assert_eq!(answer.number(), 0);
    state[JOBS..JOBS + 2].copy_from_slice(&jobs.to_le_bytes());
    memory[0] = 1;
    // the counters come behind 128 numbers of two bytes
    memory[2 * 129..2 * 130].copy_from_slice(&counter.to_le_bytes());
    (state, memory)
}

/// What a page answers of such a store, with this in place of one of its numbers.
fn with_number(store: &([u8; STATE], Vec<u8>), place: usize, number: u16) -> u8 {
    let (mut state, memory) = (store.0, &store.1);
    state[4 * place..4 * place + 2].copy_from_slice(&number.to_le_bytes());
    calls::page(&state, memory, &mut [0; 87]).number()
}

/// For how many jobs the front one runs, once it has begun, is in its range up to
/// 64. Whether as many are queued, or may run together, is not asked.
#[test]
fn a_job_that_has_begun() {
    const BEGUN: usize = 14;
    for levels in 1..=8 {
        for counter in [0, 1, (1u16 << levels) - 1] {
            for jobs in [0, 1, 2, 64] {
                let store = queued(levels, jobs, counter);
                let told = |number| with_number(&store, BEGUN, number);
                assert_eq!([0, 1, 64].map(told), [0; 3], "{levels} {counter}");
                let over = [65, 128, 256, 257, 256 + 64, 65535];
                assert_eq!(over.map(told), [2; 6], "{levels} {counter}");
            }
        }
    }
}

/// How many slots of its sources the front job has gone over, and how many writes
/// it has sent, are in their range up to the slots of all levels, 2^(L+1) - 2.
#[test]
fn slots_gone_over_and_writes_sent() {
    for levels in 1..=8 {
        let slots = (2u16 << levels) - 2;
        for place in [15, 16] {
            for jobs in [0, 1] {
                let store = queued(levels, jobs, 0);
                let told = |number| with_number(&store, place, number);
                assert_eq!([0, 1, slots].map(told), [0; 3], "number {place}");
                let over = [slots + 1, slots + 2, slots + 256, 65535];
                assert_eq!(over.map(told), [2; 4], "number {place}");
            }
        }
    }
}

#[test]
fn opens() {
    for place in 0..6 {
        for value in wide(NUMBERS[place]) {
            let mut numbers = NUMBERS;
            numbers[place] = value;
            let mut state = [1; STATE];
            let answer = calls::open(&mut state, &mut [0; 4096], numbers, &[0; 16]);
            assert_eq!((answer.number(), state), (1, [0; STATE]), "{numbers:?}");
        }
    }
}
