//! The page of a `Store` and of a `Reader`, as text and as figures: those of the
//! independent model after each of many calls, and by hand.
//!
//! `RINWOLFEDD_CALLS` says how many calls are made; without it, few enough for
//! every day.

#[path = "common/convert.rs"]
mod convert;
#[path = "common/random.rs"]
mod random;

use plain::calls::{Ask, Call, Outcome};
use plain::mistakes::Mistake;
use plain::page;
use plain::shape::Shape as Plain;
use plain::state::{Place, READ, State};
use random::Random;
use rinwolfedd::calls::PAGE;
use rinwolfedd::{Command, Error, Figures, Host, Kind, MemoryHost, Reader};
use rinwolfedd::{Request, Shape, Store, Summary, Tape};
use std::io;

/// Shapes that take an equal share of the calls each.
const SHAPES: [Plain; 5] = [
    Plain::new(1, 1, 1, 1, 1, 1),
    Plain::new(8, 2, 3, 3, 2, 4),
    Plain::new(31, 8, 4, 16, 31, 7),
    Plain::new(128, 1, 8, 4, 128, 32),
    Plain::new(200, 64, 8, 2, 200, 32),
];

/// The calls made where nothing else is said.
const FEW: usize = 20_000;

fn open(shape: Plain, tape: &mut Tape<'_>) -> Store {
    let [n, p, l, b, e, w] = convert::numbers(shape);
    let shape = Shape::new(n, p, l, b).with_smaller_cache(e).with_window(w);
    Store::open(shape, tape).unwrap()
}

/// Makes a call other than an open, which the model accepted. A collect hands
/// out what the model does.
fn make(store: &mut Store, call: &Call, outcome: &Outcome, tape: &mut Tape<'_>) {
    match &call.ask {
        Ask::Request {
            kind,
            block,
            contents,
        } => {
            let (block, contents) = (*block, &contents[..]);
            let request = match *kind {
                READ => Request::Read { block },
                _ => Request::Write { block, contents },
            };
            store.request(request, tape).unwrap();
        }
        Ask::Completion { command, bytes } => {
            let command = Command {
                kind: Kind::try_from(command.kind as u8).unwrap(),
                partition: command.partition as u8,
                level: command.level as u8,
                slot: command.slot as u16,
            };
            store.completion(command, bytes).unwrap();
        }
        Ask::Collect => {
            let (contents, found) = store.collect().unwrap();
            let told = (contents, usize::from(found.number()));
            assert_eq!(told, (&outcome.bytes[..], outcome.found.number()));
        }
        _ => assert!(store.turn(tape).is_ok()),
    }
}

/// The places of blocks in the order of the page's last line.
const PLACES: [fn(&Place) -> bool; 3] = [
    |place| matches!(place, Place::Nowhere),
    |place| matches!(place, Place::Stored { .. }),
    |place| matches!(place, Place::Waiting(_)),
];

/// The figures are those of the model's state, counted one by one.
fn check(summary: &Summary, state: &State) {
    let all = PLACES.map(|is| state.place.iter().filter(|place| is(place)).count());
    let totals = [summary.nowhere(), summary.stored(), summary.waiting()];
    assert_eq!((totals, summary.queued()), (all, state.queue.len()));
    assert_eq!(totals.iter().sum::<usize>(), state.shape.blocks);
    assert_eq!(summary.partitions().len(), state.shape.partitions);
    for (q, figures) in summary.partitions().iter().enumerate() {
        let [_, stored, waiting] = PLACES.map(|is| {
            let blocks = state.place.iter().zip(&state.partition);
            blocks.filter(|(place, p)| **p == q && is(place)).count()
        });
        let jobs = state.queue.iter().filter(|job| **job == q).count();
        assert_eq!((figures.stored(), figures.waiting()), (stored, waiting));
        assert_eq!(
            (figures.counter(), figures.queued()),
            (state.counter[q], jobs)
        );
    }
}

#[test]
fn a_store_has_the_page_of_the_model() {
    for (seed, shape) in SHAPES.into_iter().enumerate() {
        let mut random = Random::new(shape, Mistake::None, seed as u64);
        let mut store = None;
        for _ in 0..random::calls(FEW) / SHAPES.len() {
            let (call, outcome) = random.next();
            let mut tape = Tape::new(convert::tape(&call.words));
            match (&call.ask, &mut store) {
                (Ask::Open(h), _) => store = (outcome.number == 0).then(|| open(*h, &mut tape)),
                (_, Some(store)) if outcome.number == 0 => {
                    make(store, &call, &outcome, &mut tape);
                }
                _ => {}
            }
            let (Some(store), Some(state)) = (&store, &random.model.state) else {
                continue;
            };
            let (text, summary) = (store.page(), store.summary());
            assert_eq!(text, page::page(state));
            assert_eq!(summary.to_string(), text, "it prints as the page");
            assert_eq!(store.queued(), summary.queued());
            check(&summary, state);
        }
    }
}

/// The pages of document 01's worked session after each of its lines.
#[test]
fn the_worked_session() {
    let words = [0, 0, 0, 1, 0, 0, 0].map(u16::to_le_bytes).concat();
    let mut tape = Tape::new(&words);
    let mut store = Store::open(Shape::new(1, 1, 1, 1).with_window(1), &mut tape).unwrap();
    let fresh = "   0     0     0     0     0\nall      1     0     0      \n";
    assert_eq!(store.page(), fresh);
    let contents = &[7];
    let write = Request::Write { block: 0, contents };
    store.request(write, &mut tape).unwrap();
    assert_eq!(store.page(), fresh, "a request in hand changes nothing");
    store.collect().unwrap();
    let collected = "   0     0     0     1     2\nall      0     0     1      \n";
    assert_eq!(store.page(), collected);
    // the first write stores the block; its job is queued until the second one
    // has completed, and the next one until it has read and written
    let stored = [
        "   0     0     1     0     2\nall      0     1     0      \n",
        "   0     1     1     0     1\nall      0     1     0      \n",
        "   0     1     1     0     1\nall      0     1     0      \n",
        "   0     1     1     0     1\nall      0     1     0      \n",
        "   0     1     1     0     1\nall      0     1     0      \n",
        "   0     1     1     0     0\nall      0     1     0      \n",
    ];
    for page in stored {
        let (command, _) = store.turn(&mut tape).unwrap();
        let bytes = vec![0; usize::from(command.kind == Kind::Read)];
        store.completion(command, &bytes).unwrap();
        assert_eq!(store.page(), page, "after {command}");
    }
}

/// Between look-ups no job is queued, and a block is nowhere until it is looked
/// up, read or written.
#[test]
fn a_reader_between_look_ups() {
    for (blocks, bytes) in [(1, 1), (64, 8), (300, 2)] {
        let shape = Shape::hiding(blocks, bytes).unwrap();
        let host = MemoryHost::new(shape, 1).unwrap();
        let mut reader = Reader::open(shape, host).unwrap();
        let mut before = reader.summary();
        assert_eq!(before.nowhere(), blocks);
        for block in 0..blocks {
            match block % 2 {
                0 => reader.write(block, &vec![1; bytes]).unwrap(),
                _ => reader.read(block).unwrap(),
            };
            let (page, after) = (reader.page(), reader.summary());
            assert!(after == reader.summary() && after != before);
            assert_eq!((after.nowhere(), after.queued()), (blocks - block - 1, 0));
            assert_eq!(after.stored() + after.waiting(), block + 1);
            assert_eq!(Some(page.len()), shape.page_bytes());
            assert_eq!(after.to_string(), page);
            before = after.clone();
        }
    }
}

/// A host that takes commands and completes none.
struct Stuck;

impl Host for Stuck {
    fn submit(&mut self, _: Command, _: &[u8]) -> io::Result<()> {
        Ok(())
    }

    fn next_completed(&mut self, _: &mut [u8]) -> io::Result<Command> {
        Err(io::Error::other("the wire is cut"))
    }
}

/// After a look-up that failed midway the page tells how far it came.
#[test]
fn a_reader_that_failed_midway() {
    let mut reader = Reader::open(Shape::new(8, 1, 4, 4), Stuck).unwrap();
    let failed = reader.write(5, &[1; 4]);
    assert!(matches!(failed, Err(Error::Host(_))) && reader.is_unfinished());
    let page = "   0     0     1     0     2\nall      7     1     0      \n";
    assert_eq!(reader.page(), page);
    assert_eq!(reader.summary().queued(), 2);
}

/// The largest store: the figures have four digits, and every line its columns.
#[test]
fn the_largest_store() {
    let shape = Shape::hiding(4096, 1).unwrap();
    let host = MemoryHost::new(shape, 1).unwrap();
    let mut reader = Reader::open(shape, host).unwrap();
    reader.write_all([[7]; 4096]).unwrap();
    let (page, summary) = (reader.page(), reader.summary());
    assert_eq!((page.len(), page.lines().count()), (PAGE, 65));
    assert!(page.lines().all(|line| line.len() == 28));
    assert_eq!((summary.to_string(), summary.nowhere()), (page, 0));
    let columns = [Figures::stored, Figures::waiting];
    let sums = columns.map(|column| summary.partitions().iter().map(column).sum::<usize>());
    assert_eq!(sums, [summary.stored(), summary.waiting()]);
    assert_eq!(summary.stored() + summary.waiting(), 4096);
    assert!(summary.stored() > 3000);
}
