//! For how many commands look-ups wait, in a stream of them asked one after the
//! other. They are counted and not timed, from words that are the same each time.
//! (What docs/MEASUREMENTS.md has of the calls before ticket P4 was counted by the
//! same reader with their library, for the 68 bytes that its state had.)

use crate::reader::linked;
use plain::lookups::SHAPES;
use plain::rng::Rng;
use plain::shape::Shape;
use rinwolfedd::{Error, MemoryHost, Reader, Waits};
use std::io::{self, Read};

pub const LOOK_UPS: usize = 20_000;

/// How many jobs look-ups leave, and whether there are pauses between them, in
/// which as many commands of jobs are sent as a look-up takes in all.
const STREAMS: [(usize, bool); 4] = [(0, false), (2, false), (62, false), (62, true)];

/// A stream of look-ups.
pub struct Stream {
    pub shape: Shape,
    pub left: usize,
    pub pause: usize,
    pub waits: Waits,
}

/// The same words each time.
pub struct Words(Rng);

impl Read for Words {
    fn read(&mut self, buffer: &mut [u8]) -> io::Result<usize> {
        buffer.fill_with(|| self.0.step() as u8);
        Ok(buffer.len())
    }
}

/// A reader with every block stored.
pub fn stored(shape: Shape) -> Result<Reader<MemoryHost, Words>, Error> {
    let (host, words) = (MemoryHost::new(linked(shape), 1)?, Words(Rng::new(1)));
    let mut reader = Reader::with_words(linked(shape), host, words)?;
    let contents = vec![1; shape.bytes];
    reader.write_all((0..shape.blocks).map(|_| &contents))?;
    Ok(reader)
}

/// The look-ups after which the counters have wrapped.
pub fn wrapping(shape: Shape) -> usize {
    shape.partitions << shape.levels
}

/// Stores every block, looks up until the counters have wrapped, and then makes
/// the look-ups that count.
fn stream(shape: Shape, left: usize, pause: usize) -> Result<Stream, Error> {
    let (mut reader, mut rng) = (stored(shape)?, Rng::new(2));
    reader.leave_jobs(left);
    let before = wrapping(shape);
    for look_up in 0..before + LOOK_UPS {
        if look_up == before {
            reader.take_waits();
        }
        reader.read(rng.below(shape.blocks))?;
        reader.advance(pause)?;
    }
    Ok(Stream {
        shape,
        left,
        pause,
        waits: *reader.waits(),
    })
}

/// The streams of a shape; the first tells how long a pause is.
fn streams(shape: Shape) -> Result<Vec<Stream>, Error> {
    let mut all: Vec<Stream> = Vec::new();
    for (left, pauses) in STREAMS {
        let whole = all.first().map(|first| first.waits.returned().mean());
        let pause = whole.filter(|_| pauses).unwrap_or(0.0).round() as usize;
        all.push(stream(shape, left, pause)?);
    }
    Ok(all)
}

/// Those of all shapes that are timed.
pub fn all() -> Result<Vec<Stream>, Error> {
    let each: Result<Vec<_>, Error> = SHAPES.into_iter().map(streams).collect();
    Ok(each?.into_iter().flatten().collect())
}
