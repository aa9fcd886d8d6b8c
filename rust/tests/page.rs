//! The page of a store, compared with the independent model's after each of
//! many random calls: the answer and every byte of the buffer are as they should
//! be, and neither state nor memory changes. Then every length of buffer, state
//! and memory, and tables that no call left, with pages by hand; damaged.rs has
//! pages of many more of these, summary.rs those of `Store` and `Reader`.
//!
//! `RINWOLFEDD_CALLS` says how many calls are made; without it, few enough for
//! every day.

#[path = "common/convert.rs"]
mod convert;
#[path = "common/lent.rs"]
mod lent;
#[path = "common/linked.rs"]
mod linked;
#[path = "common/paged.rs"]
mod paged;
#[path = "common/random.rs"]
mod random;

use linked::Linked;
use plain::mistakes::Mistake;
use plain::page;
use plain::rng::Rng;
use plain::shape::Shape;
use plain::state::{Place, State};
use random::{Random, SLACK};
use rinwolfedd::calls::{self, LINE, PAGE, READ, STATE};

/// Shapes with their share of the calls in a hundred.
const SHAPES: [(Shape, usize); 9] = [
    (Shape::new(1, 1, 1, 1, 1, 1), 5),
    (Shape::new(2, 2, 1, 2, 1, 2), 10),
    (Shape::new(8, 2, 3, 3, 8, 4), 20),
    (Shape::new(16, 4, 3, 5, 3, 32), 15),
    (Shape::new(31, 8, 4, 16, 31, 7), 20),
    (Shape::new(64, 64, 8, 4, 64, 32), 10),
    (Shape::new(128, 1, 8, 4, 128, 32), 10),
    (Shape::new(300, 16, 7, 2, 300, 32), 8),
    (Shape::new(4096, 64, 8, 512, 4096, 32), 2),
];

/// The calls made where nothing else is said.
const FEW: usize = 50_000;

/// How often each number was answered; and of the pages shown, those with a
/// request in hand, with a job that writes, with a full queue, and with blocks
/// at each of the three places.
#[derive(Debug, Default)]
struct Met {
    numbers: [usize; 16],
    in_hand: usize,
    writes: usize,
    full: usize,
    all_places: usize,
}

impl Met {
    fn page(&mut self, state: &State) {
        let has = |place: fn(&Place) -> bool| state.place.iter().any(place);
        let nowhere = has(|place| matches!(place, Place::Nowhere));
        let waiting = has(|place| matches!(place, Place::Waiting(_)));
        let stored = has(|place| matches!(place, Place::Stored { .. }));
        self.in_hand += usize::from(state.request.is_some());
        self.writes += usize::from(state.writing.is_some());
        self.full += usize::from(state.queue.len() > 62);
        self.all_places += usize::from(nowhere && waiting && stored);
    }
}

/// Compares the page after each of so many calls; now and then the buffer or
/// the memory is too short.
fn compare(shape: Shape, seed: u64, calls: usize, met: &mut Met) -> Result<(), String> {
    let mut random = Random::new(shape, Mistake::None, seed);
    let mut linked = Linked::new(shape.needed() + SLACK);
    let (mut rng, length) = (Rng::new(!seed), LINE * (shape.partitions + 1));
    for _ in 0..calls {
        let (call, outcome) = random.next();
        linked.compare(&call, &outcome)?;
        let buffer = match rng.below(10) {
            0 => length - 1,
            1 => rng.below(length),
            2 => length + rng.below(100),
            3 => PAGE,
            _ => length,
        };
        let state = random.model.state.as_ref();
        let (memory, state) = match rng.below(20) {
            0 => (shape.needed() - 1, None),
            1 => (shape.needed() + SLACK, state),
            _ => (shape.needed(), state),
        };
        let wanted = state.map(page::page);
        let number = paged::compare(&linked, memory, buffer, wanted.as_deref())?;
        met.numbers[usize::from(number)] += 1;
        state
            .filter(|_| number == 0)
            .inspect(|state| met.page(state));
    }
    Ok(())
}

#[test]
fn pages_are_those_of_the_model() {
    let (calls, mut met) = (random::calls(FEW), Met::default());
    for (seed, (shape, share)) in SHAPES.into_iter().enumerate() {
        let length = (calls * share).div_ceil(100);
        let told = compare(shape, seed as u64, length, &mut met);
        told.unwrap_or_else(|told| panic!("{shape:?}, seed {seed}: {told}"));
    }
    println!("{met:?}");
    let [shown, not_ready, short] = [0, 2, 15].map(|number| met.numbers[number]);
    assert!(shown + not_ready + short >= calls);
    assert!(shown > calls / 2 && not_ready > calls / 50 && short > calls / 20);
    assert!(met.in_hand > calls / 10 && met.writes > calls / 10);
    assert!(met.full > calls / 200 && met.all_places > calls / 10);
}

/// The shape of a store whose pages are written by hand.
const SHAPE: Shape = Shape::new(4, 2, 2, 3, 4, 4);

/// Turns until there is no command to send, each completed at once.
fn run(state: &mut [u8], memory: &mut [u8]) {
    loop {
        let sent = calls::turn(state, memory, &[0; 6], &mut [0; 3]);
        let Some(command) = sent.command() else {
            return assert_eq!(sent.number(), 10);
        };
        let (kind, level) = (command.kind.number().into(), command.level.into());
        let slot = [command.partition.into(), level, command.slot.into()];
        let bytes = vec![0; if kind == READ { 3 } else { 0 }];
        let completed = calls::completion(state, memory, kind, slot, &bytes);
        assert_eq!(completed.number(), 0);
    }
}

/// A store whose block 0 is stored in partition 1 and whose block 2 waits for
/// partition 0. Both have a job, so that the request in hand, for block 1 of
/// partition 1, is held.
fn used() -> Linked {
    let mut linked = Linked::new(SHAPE.needed());
    let (state, memory) = (linked.state.lend(), linked.memory.lend());
    let numbers = convert::numbers(SHAPE);
    let opened = calls::open(state, memory, numbers, convert::tape(&[0, 1, 0, 1]));
    assert_eq!(opened.number(), 0);
    for (block, next) in [(0, 1), (2, 0)] {
        run(state, memory);
        let tape = [next, 1];
        let asked = calls::request(state, memory, READ, block, &[], convert::tape(&tape));
        run(state, memory);
        let collected = calls::collect(state, memory, &mut [0; 3]);
        assert_eq!([asked.number(), collected.number()], [0; 2]);
    }
    let asked = calls::request(state, memory, READ, 1, &[], &[0; 4]);
    assert_eq!(asked.number(), 0);
    linked
}

/// Its page.
const USED: &str = concat!(
    "   0     1     0     1     1\n",
    "   1     1     1     0     1\n",
    "all      2     1     1      \n",
);

/// The number answered with all memory and a buffer of so many bytes.
fn told(linked: &Linked, buffer: usize, wanted: Option<&str>) -> Result<u8, String> {
    paged::compare(linked, linked.memory.bytes().len(), buffer, wanted)
}

#[test]
fn every_length_of_buffer() {
    let linked = used();
    for buffer in 0..USED.len() + 70 {
        let number = if buffer < USED.len() { 15 } else { 0 };
        assert_eq!(told(&linked, buffer, Some(USED)), Ok(number));
    }
    assert_eq!(told(&linked, PAGE, Some(USED)), Ok(0));
    // a refused page leaves what an accepted one wrote
    let mut buffer = [1; USED.len()];
    let memory = linked.memory.bytes();
    let mut lend = |length| calls::page(linked.state.bytes(), memory, &mut buffer[..length]);
    assert_eq!(
        [lend(USED.len()), lend(86)].map(|answer| answer.number()),
        [0, 15]
    );
    assert_eq!(buffer, USED.as_bytes());
}

#[test]
fn every_length_of_memory() {
    let linked = used();
    for memory in 0..SHAPE.needed() {
        let number = paged::compare(&linked, memory, USED.len(), None);
        assert_eq!(number, Ok(2));
    }
    let mut longer = Linked::new(SHAPE.needed() + 9);
    longer.state.lend().copy_from_slice(linked.state.bytes());
    let lent = longer.memory.lend_first(SHAPE.needed());
    lent.copy_from_slice(linked.memory.bytes());
    for memory in SHAPE.needed()..SHAPE.needed() + 9 {
        let number = paged::compare(&longer, memory, USED.len(), Some(USED));
        assert_eq!(number, Ok(0));
    }
}

#[test]
fn every_length_of_state() {
    let linked = used();
    for length in (0..STATE).chain(STATE + 1..100) {
        // the state's own bytes, cut or with more behind them
        let mut state = linked.state.bytes().to_vec();
        state.resize(length, 0);
        let mut buffer = [1; 100];
        let answer = calls::page(&state, linked.memory.bytes(), &mut buffer);
        assert_eq!((answer.bits(), buffer), (2, [1; 100]), "{length} bytes");
    }
}

/// A closed state has no page, in whatever memory: 2 comes before 15.
#[test]
fn a_closed_state() {
    let mut linked = used();
    let refused = calls::open(linked.state.lend(), &mut [], [0; 6], &[]);
    assert_eq!(refused.number(), 1);
    for buffer in [0, 1, USED.len(), PAGE] {
        assert_eq!(told(&linked, buffer, None), Ok(2));
        assert_eq!(told(&Linked::new(0), buffer, None), Ok(2));
    }
}

/// The comparison can fail: it tells every other character, a page that is one
/// line longer or shorter, and one where none is wanted.
#[test]
fn a_wrong_page_is_told() {
    let linked = used();
    for at in 0..USED.len() {
        let mut wrong = USED.as_bytes().to_vec();
        wrong[at] ^= 1;
        let wrong = String::from_utf8(wrong).unwrap();
        assert!(told(&linked, USED.len(), Some(&wrong)).is_err(), "{wrong}");
    }
    let longer = [&USED[..LINE], USED].concat();
    for wrong in [Some(&USED[LINE..]), Some(&longer), None] {
        assert!(told(&linked, PAGE, wrong).is_err(), "{wrong:?}");
    }
}

/// The tables of the memory by the number with which each begins
/// (docs/MEMORY.md), and where the state says how many blocks wait.
const QUEUE: usize = 0;
const COUNTER: usize = 128;
const PARTITION: usize = 192;
const PLACE: usize = PARTITION + SHAPE.blocks;
const WAITING: usize = PLACE + SHAPE.blocks;
const WAIT: usize = 4 * 17;

/// A number put somewhere into the tables of the used store, how many blocks
/// wait, and the figures then: of partition 0, of partition 1, and of all.
const CASES: [(usize, u16, u8, &str); 12] = [
    // as calls left it: block 2 waits
    (WAITING, 2, 1, "1011 1101 211"),
    // block 2 is in the list twice; block 0, which is stored, is in it too
    (WAITING + 1, 2, 2, "1011 1101 211"),
    (WAITING + 1, 0, 2, "1011 1101 211"),
    // so is block 3, of partition 1
    (WAITING + 1, 3, 2, "1011 1111 112"),
    // instead of block 2 the list has one out of range, which reads as block 0
    (WAITING, 4, 1, "1001 1101 310"),
    // block 2 is in the list, and has a slot
    (PLACE + 2, 7, 1, "1101 1101 220"),
    // block 0 has no slot
    (PLACE, 0, 1, "1011 1001 301"),
    (PLACE, 1, 1, "1011 1001 301"),
    (PLACE, 8, 1, "1011 1001 301"),
    // its partition is out of range; a counter, and the job of partition 1
    (PARTITION, 2, 1, "1111 1001 211"),
    (COUNTER + 1, 4, 1, "1011 0101 211"),
    (QUEUE + 1, 65535, 1, "1012 1100 211"),
];

/// Tables that no call left: a number out of its range reads as 0, and each
/// block counts once.
#[test]
fn tables_that_no_call_left() {
    for (at, number, wait, figures) in CASES {
        let mut linked = used();
        linked.state.lend()[WAIT] = wait;
        linked.memory.lend()[2 * at..2 * at + 2].copy_from_slice(&number.to_le_bytes());
        let columns = |figures: &str| figures.chars().map(|c| format!("{c:>6}")).collect();
        let lines: Vec<String> = figures.split(' ').map(columns).collect();
        let (first, second, all) = (&lines[0], &lines[1], &lines[2]);
        let page = format!("   0{first}\n   1{second}\nall {all}      \n");
        assert_eq!(told(&linked, PAGE, Some(&page)), Ok(0), "{at} {number}");
    }
}
