//! What a page costs beside the plain implementation's page of the same state:
//! into a lent buffer, and through the reader, as text and as figures. Nothing
//! of it should go over all blocks for each partition: P alone grows, and N
//! alone.

use crate::proved::Proved;
use crate::reader::linked;
use crate::{GROWING, Times};
use plain::lookups::{LookUps, Nothing, SHAPES};
use plain::mistakes::Mistake;
use plain::page;
use plain::rng::Rng;
use plain::shape::Shape;
use plain::state::{Place, State};
use rinwolfedd::calls::LINE;
use rinwolfedd::{Error, MemoryHost, Reader};
use std::hint::black_box;
use std::time::Instant;

/// P alone grows.
const PARTITIONS: [Shape; 4] = [
    Shape::new(1024, 8, 8, 64, 1024, 32),
    Shape::new(1024, 16, 8, 64, 1024, 32),
    Shape::new(1024, 32, 8, 64, 1024, 32),
    Shape::new(1024, 64, 8, 64, 1024, 32),
];

/// The pages of a part, of which the best counts, and the parts.
const PAGES: usize = 32;
const PARTS: usize = 400;

/// Nanoseconds of a page.
pub struct Page {
    pub shape: Shape,
    /// Into a lent buffer.
    pub times: Times,
    /// Through the reader.
    pub text: f64,
    pub figures: f64,
}

/// The pages of the look-ups' shapes, of those of which P grows, and of those of
/// which N does.
pub struct Pages {
    pub shapes: Vec<Page>,
    pub partitions: Vec<Page>,
    pub blocks: Vec<Page>,
}

pub fn all() -> Result<Pages, Error> {
    let measured = |shapes: &[Shape]| shapes.iter().copied().map(measure).collect();
    let [shapes, partitions, blocks]: [Result<_, Error>; 3] =
        [&SHAPES[..], &PARTITIONS, &GROWING].map(measured);
    Ok(Pages {
        shapes: shapes?,
        partitions: partitions?,
        blocks: blocks?,
    })
}

fn measure(shape: Shape) -> Result<Page, Error> {
    let reader = used(shape)?;
    let [mut text, mut figures] = [f64::INFINITY; 2];
    for _ in 0..PARTS {
        text = text.min(time(|| reader.page()));
        figures = figures.min(time(|| reader.summary()));
    }
    Ok(Page {
        shape,
        times: compare(shape),
        text,
        figures,
    })
}

/// A reader with every block stored and look-ups enough to wrap the counters,
/// as the other clients are warmed up.
fn used(shape: Shape) -> Result<Reader<MemoryHost>, Error> {
    let mut reader = Reader::open(linked(shape), MemoryHost::new(linked(shape), 1)?)?;
    let (contents, mut rng) = (vec![1; shape.bytes], Rng::new(1));
    reader.write_all((0..shape.blocks).map(|_| &contents))?;
    for _ in 0..shape.partitions << shape.levels {
        reader.read(rng.below(shape.blocks))?;
    }
    Ok(reader)
}

/// Times both, which take turns.
fn compare(shape: Shape) -> Times {
    let mut look_ups = LookUps::<Proved, Nothing>::open(shape, 1).expect("the shape is in bounds");
    look_ups.warm_up().expect("no look-up is refused");
    let proved = look_ups.client;
    let state = plain_state(&proved, shape);
    let mut buffer = vec![0; LINE * (shape.partitions + 1)];
    assert_eq!(proved.page(&mut buffer).number(), 0);
    assert_eq!(buffer, page::page(&state).as_bytes());
    let mut times = Times {
        proved: f64::INFINITY,
        plain: f64::INFINITY,
    };
    for _ in 0..PARTS {
        times.proved = times.proved.min(time(|| proved.page(&mut buffer)));
        times.plain = times.plain.min(time(|| page::page(&state)));
    }
    times
}

/// The plain state with the same page, by the tables of docs/MEMORY.md. In which
/// slot a block is stored matters to no page, and no job is left.
fn plain_state(proved: &Proved, shape: Shape) -> State {
    let n = shape.blocks;
    let table = |first: usize, count: usize| (first..first + count).map(|k| proved.table(k));
    let mut state = State::fresh(shape, Mistake::None, table(192, n).collect());
    state.counter = table(128, shape.partitions).collect();
    let stored = |number| match number {
        0 | 1 => Place::Nowhere,
        _ => Place::Stored { level: 0, item: 0 },
    };
    state.place = table(192 + n, n).map(stored).collect();
    for (age, block) in table(192 + 2 * n, proved.waiting().into()).enumerate() {
        state.place[block] = Place::Waiting(age as u64);
    }
    state
}

/// Nanoseconds of one, in a part of them.
fn time<T>(mut one: impl FnMut() -> T) -> f64 {
    let start = Instant::now();
    for _ in 0..PAGES {
        black_box(one());
    }
    start.elapsed().as_nanos() as f64 / PAGES as f64
}
