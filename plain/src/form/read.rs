//! Reading the fields of a form. Only what says how much is to be read is
//! asked here: the shape, and the counters, which say what levels are filled.

use super::{Form, Layout, NOWHERE, Record, Spot, WAITING, Written};
use crate::shape::Shape;

impl Form {
    /// The fields at the start of a payload, and how many bytes they have.
    pub fn read(payload: &[u8]) -> Option<(Form, usize)> {
        let mut reader = Reader {
            layout: Layout::numbered(usize::from(*payload.first()?)),
            payload,
            at: 0,
        };
        let number = reader.byte()?;
        let shape = reader.shape()?;
        let counters = reader.numbers(shape.partitions)?;
        let full = (1 << shape.levels) - 1;
        if counters.iter().any(|counter| *counter > full) {
            return None;
        }
        let jobs = reader.number()?;
        let queue = reader.numbers(jobs)?;
        let blocks: Vec<_> = reader.each(0..shape.blocks, |reader, _| reader.block())?;
        let levels = reader.each(filled(&counters, &shape), Reader::level)?;
        let waiting = blocks.iter().filter(|(_, spot)| *spot == Spot::Waiting);
        let records = reader.each(0..waiting.count(), |reader, _| reader.record(shape.bytes))?;
        let form = Form {
            number,
            shape,
            counters,
            queue,
            blocks,
            levels,
            records,
        };
        Some((form, reader.at))
    }
}

/// The filled levels, partitions and then levels upward.
fn filled(counters: &[usize], shape: &Shape) -> Vec<(usize, usize)> {
    let levels = |p: usize| (0..shape.levels).map(move |level| (p, level));
    let all = (0..counters.len()).flat_map(levels);
    all.filter(|(p, level)| counters[*p] >> level & 1 == 1)
        .collect()
}

struct Reader<'a> {
    layout: Layout,
    payload: &'a [u8],
    at: usize,
}

impl<'a> Reader<'a> {
    fn take(&mut self, count: usize) -> Option<&'a [u8]> {
        let taken = self.payload.get(self.at..self.at + count)?;
        self.at += count;
        Some(taken)
    }

    fn little(&mut self, bytes: usize) -> Option<usize> {
        let bytes = self.take(bytes)?.iter().rev();
        Some(bytes.fold(0, |number, byte| number << 8 | usize::from(*byte)))
    }

    fn byte(&mut self) -> Option<usize> {
        self.little(1)
    }

    fn number(&mut self) -> Option<usize> {
        self.little(2)
    }

    fn slot(&mut self) -> Option<usize> {
        self.little(self.layout.slot)
    }

    /// One field for each of these.
    fn each<I: IntoIterator, T>(
        &mut self,
        items: I,
        mut field: impl FnMut(&mut Self, I::Item) -> Option<T>,
    ) -> Option<Vec<T>> {
        items.into_iter().map(|item| field(self, item)).collect()
    }

    fn numbers(&mut self, count: usize) -> Option<Vec<usize>> {
        self.each(0..count, |reader, _| reader.number())
    }

    fn shape(&mut self) -> Option<Shape> {
        let [n, p, l, b, e, w] = self.numbers(6)?[..] else {
            return None;
        };
        let shape = Shape::new(n, p, l, b, e, w);
        shape.in_bounds().then_some(shape)
    }

    fn block(&mut self) -> Option<(usize, Spot)> {
        let partition = self.number()?;
        let spot = match self.byte()? {
            NOWHERE => Spot::Nowhere,
            WAITING => Spot::Waiting,
            level => Spot::Slot {
                level,
                slot: self.slot()?,
            },
        };
        Some((partition, spot))
    }

    fn level(&mut self, (partition, level): (usize, usize)) -> Option<Written> {
        let slots = 2 << level;
        Some(Written {
            partition,
            level,
            order: self.each(0..slots, |reader, _| reader.slot())?,
            marks: self.each(0..slots, |reader, _| reader.byte())?,
        })
    }

    fn record(&mut self, bytes: usize) -> Option<Record> {
        Some(Record {
            block: self.number()?,
            age: self.number()?,
            contents: self.take(bytes)?.to_vec(),
        })
    }
}
