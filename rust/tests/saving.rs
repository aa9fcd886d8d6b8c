//! Saving by hand: the bytes of forms written out, lengths of buffers, and stores
//! that go on from their form.

#[path = "common/lent.rs"]
mod lent;

use lent::Lent;
use plain::form::sums;
use plain::mistakes::Mistake;
use rinwolfedd::calls::{self, BLOCK, STATE};
use rinwolfedd::{Found, Refusal, Request, Shape, Store, Tape};

/// A store of two blocks of 240 bytes, both of which wait: two blocks of 512.
fn waiting() -> Store {
    let mut tape = Tape::new(&[1, 0, 0, 0, 0, 0, 0, 0, 1, 0, 1, 0]);
    let shape = Shape::new(2, 2, 1, 240).with_window(1);
    let mut store = Store::open(shape, &mut tape).unwrap();
    for (block, byte) in [(1, 7), (0, 9)] {
        let contents = &[byte; 240];
        let write = Request::Write { block, contents };
        store.request(write, &mut tape).unwrap();
        store.collect().unwrap();
    }
    store
}

/// The payload, written by hand from document 02. Block 1 was asked for first and
/// goes to partition 0, then block 0 to partition 1; each look-up queued the job of
/// the partition before and the eviction's.
fn payload() -> Vec<u8> {
    let numbers = |all: &[u16]| {
        let bytes = all.iter().flat_map(|number| number.to_le_bytes());
        bytes.collect::<Vec<u8>>()
    };
    [
        vec![1],
        numbers(&[2, 2, 1, 240, 2, 1]),
        numbers(&[0, 0]),
        numbers(&[4, 0, 0, 1, 1]),
        numbers(&[1]),
        vec![254],
        numbers(&[0]),
        vec![254],
        numbers(&[1, 0]),
        vec![7; 240],
        numbers(&[0, 1]),
        vec![9; 240],
    ]
    .concat()
}

#[test]
fn a_form_written_by_hand() {
    let form = waiting().save().unwrap();
    assert_eq!(form, sums::in_blocks(&payload(), Mistake::None));
    assert_eq!(form.len(), 2 * BLOCK);
    // the sum of the first block, and of the second with its number
    for (number, block) in form.chunks(BLOCK).enumerate() {
        let word = |four: &[u8]| u32::from_le_bytes(four.try_into().unwrap());
        let (words, sum) = block.split_at(508);
        let words = words.chunks(4).map(word);
        let wanted = words.fold(number as u32, u32::wrapping_add);
        assert_eq!(word(sum), wanted, "block {number}");
    }
}

/// What was saved goes on: both stores give the same, call by call, to the end of
/// the jobs.
#[test]
fn a_store_goes_on_from_its_form() {
    let (mut left, form) = (waiting(), waiting().save().unwrap());
    let mut right = Store::load(&form).unwrap();
    assert_eq!(right.shape(), left.shape());
    assert_eq!(right.page(), left.page());
    let words = [3; 400];
    let [mut first, mut second] = [Tape::new(&words), Tape::new(&words)];
    let mut host = [[0; 240]; 4];
    while left.queued() > 0 {
        let (command, bytes) = left.turn(&mut first).unwrap();
        assert_eq!(right.turn(&mut second).unwrap(), (command, bytes));
        let at = usize::from(2 * u16::from(command.partition) + command.slot);
        let brought = match bytes {
            [] => host[at].to_vec(),
            _ => {
                host[at].copy_from_slice(bytes);
                Vec::new()
            }
        };
        for store in [&mut left, &mut right] {
            store.completion(command, &brought).unwrap();
        }
        assert_eq!(right.page(), left.page());
        assert_eq!(
            right.save(),
            left.save(),
            "or both say that a job has begun"
        );
    }
    assert_eq!((right.queued(), first.taken()), (0, second.taken()));
    assert_eq!(left.save().unwrap().len(), BLOCK, "no block waits any more");
}

#[test]
fn a_buffer_has_room_for_the_longest_form() {
    let store = waiting();
    let longest = store.shape().longest_form().unwrap();
    assert_eq!(longest, 1024);
    for length in [0, 1, 512, longest - 1] {
        let mut buffer = vec![5; length];
        let refused = store.save_into(&mut buffer);
        assert_eq!(refused, Err(Refusal::NotReady), "{length} bytes");
        assert!(buffer.iter().all(|byte| *byte == 5));
    }
    for length in [longest, longest + 1, 3 * longest] {
        let mut buffer = vec![5; length];
        assert_eq!(store.save_into(&mut buffer), Ok(1024));
        assert_eq!(buffer[..1024], store.save().unwrap());
        assert!(
            buffer[1024..].iter().all(|byte| *byte == 5),
            "its tail stays"
        );
    }
    // a short form asks for as much
    let short = Store::open(store.shape(), &mut Tape::new(&[0; 4])).unwrap();
    assert_eq!(short.save().unwrap().len(), BLOCK);
    let refused = short.save_into(&mut vec![0; longest - 1]);
    assert_eq!(refused, Err(Refusal::NotReady));
}

#[test]
fn only_a_store_at_rest_is_saved() {
    let mut tape = Tape::new(&[0; 40]);
    let mut store = Store::open(Shape::new(1, 1, 1, 1).with_window(1), &mut tape).unwrap();
    let fresh = store.save().unwrap();
    store
        .request(Request::Read { block: 0 }, &mut tape)
        .unwrap();
    assert_eq!(
        store.save(),
        Err(Refusal::NotAtRest),
        "a request is in hand"
    );
    store.collect().unwrap();
    let queued = store.save().unwrap();
    assert_ne!(queued, fresh);
    for slot in 0..2 {
        let (command, _) = store.turn(&mut tape).unwrap();
        assert_eq!(store.save(), Err(Refusal::NotAtRest), "it is outstanding");
        store.completion(command, &[]).unwrap();
        let saved = store.save();
        // the first of two writes leaves the job begun, the second ends it
        assert_eq!(saved.is_ok(), slot == 1, "{saved:?}");
    }
    assert_eq!(store.queued(), 1);
    let mut back = Store::load(&queued).unwrap();
    assert_eq!(back.queued(), 2);
    assert_eq!(back.turn(&mut tape).unwrap().0.to_string(), "w 0 0 0");
}

#[test]
fn what_is_no_form_is_refused_by_name() {
    let form = waiting().save().unwrap();
    let refused = |bytes: &[u8]| Store::load(bytes).map(|_| ()).unwrap_err();
    for length in [0, 1, 12, 13, 511, 513, 1023] {
        assert_eq!(refused(&form[..length]), Refusal::FormDamaged);
    }
    assert_eq!(refused(&form[..512]), Refusal::NotAForm, "half of it");
    let mut turned = form.clone();
    turned[600] ^= 1;
    assert_eq!(refused(&turned), Refusal::FormDamaged);
    for (at, byte) in [(0, 2), (1, 0), (3, 3), (6, 9), (13, 2), (25, 2), (27, 3)] {
        let mut wrong = form.clone();
        wrong[at] = byte;
        sums::make_right(&mut wrong);
        assert_eq!(refused(&wrong), Refusal::NotAForm, "byte {at}");
    }
    assert_eq!(refused(&[0; 512]), Refusal::NotAForm);
    assert_eq!(refused(&[255; 512]), Refusal::FormDamaged);
}

/// A state that no calls left: block 0 is listed twice among those that wait, and
/// its form is longer than the shape's longest. A buffer that holds it takes it.
#[test]
fn a_form_that_is_longer_than_the_longest() {
    let shape = Shape::new(3, 2, 2, 444);
    let longest = shape.longest_form().unwrap();
    assert_eq!(longest, 3 * BLOCK);
    let (mut state, mut memory) = ([0; STATE], vec![0; shape.needed().unwrap()]);
    let opened = calls::open(&mut state, &mut memory, shape.numbers(), &[0; 6]);
    assert_eq!(opened.number(), 0);
    let put = |memory: &mut [u8], at: usize, number: u16| {
        memory[2 * at..2 * at + 2].copy_from_slice(&number.to_le_bytes());
    };
    state[4 * 13] = 64; // jobs
    state[4 * 17] = 3; // those that wait: 0, 0 and 1
    put(&mut memory, 192 + 6 + 2, 1);
    put(&mut memory, 192 + 3 + 2, 3); // block 2 is in slot 1 of level 0
    for q in 0..2 {
        put(&mut memory, 128 + q, 3); // all levels are filled
    }
    for (buffer, number) in [(longest, 2), (longest + 511, 2), (longest + 512, 0)] {
        let mut lent = Lent::new(&vec![5; buffer]);
        let answer = calls::save(&state, &memory, lent.lend());
        let length = if number == 0 { longest + 512 } else { 0 };
        assert_eq!((answer.number(), answer.length()), (number, length));
        assert!(lent.is_sound() && lent.bytes()[length..].iter().all(|byte| *byte == 5));
    }
}

/// A block that waits has its contents in the form, and is found in the cache.
#[test]
fn contents_come_through() {
    let mut tape = Tape::new(&[0, 0, 3, 0, 0, 0, 1, 0, 1, 0]);
    let mut store = Store::open(Shape::new(1, 4, 1, 3), &mut tape).unwrap();
    let contents = &[7, 8, 9];
    let write = Request::Write { block: 0, contents };
    store.request(write, &mut tape).unwrap();
    store.collect().unwrap();
    let mut store = Store::load(&store.save().unwrap()).unwrap();
    // it waits for partition 3, for which no job is queued
    let read = Request::Read { block: 0 };
    store.request(read, &mut tape).unwrap();
    assert_eq!(store.collect().unwrap(), (&contents[..], Found::Cache));
}
