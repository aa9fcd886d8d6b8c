//! The payload of a form: its fields one behind the other. Numbers are
//! little-endian and have two bytes, but form, level, mark and, in form 1, slot
//! have one.

use super::{Form, Layout, NOWHERE, Record, Spot, WAITING, Written, sums};
use crate::mistakes::Mistake;
use crate::shape::Shape;

impl Form {
    /// The form in its blocks.
    pub fn bytes(&self) -> Vec<u8> {
        sums::in_blocks(&self.payload(), Mistake::None)
    }

    pub fn payload(&self) -> Vec<u8> {
        let mut writer = Writer {
            layout: Layout::numbered(self.number),
            bytes: Vec::new(),
        };
        writer.byte(self.number);
        writer.shape(&self.shape);
        writer.numbers(&self.counters);
        writer.number(self.queue.len());
        writer.numbers(&self.queue);
        for (partition, spot) in &self.blocks {
            writer.block(*partition, *spot);
        }
        let Form {
            levels, records, ..
        } = self;
        levels.iter().for_each(|level| writer.level(level));
        records.iter().for_each(|record| writer.record(record));
        writer.bytes
    }
}

struct Writer {
    layout: Layout,
    bytes: Vec<u8>,
}

impl Writer {
    /// A number in so many bytes.
    fn little(&mut self, number: usize, bytes: usize) {
        self.bytes.extend(&number.to_le_bytes()[..bytes]);
    }

    fn byte(&mut self, number: usize) {
        self.little(number, 1);
    }

    fn number(&mut self, number: usize) {
        self.little(number, 2);
    }

    fn slot(&mut self, slot: usize) {
        self.little(slot, self.layout.slot);
    }

    fn numbers(&mut self, numbers: &[usize]) {
        numbers.iter().for_each(|number| self.number(*number));
    }

    fn shape(&mut self, shape: &Shape) {
        let Shape {
            blocks,
            partitions,
            levels,
            bytes,
            places,
            window,
        } = *shape;
        self.numbers(&[blocks, partitions, levels, bytes, places, window]);
    }

    fn block(&mut self, partition: usize, spot: Spot) {
        self.number(partition);
        match spot {
            Spot::Nowhere => self.byte(NOWHERE),
            Spot::Waiting => self.byte(WAITING),
            Spot::Slot { level, slot } => {
                self.byte(level);
                self.slot(slot);
            }
        }
    }

    fn level(&mut self, level: &Written) {
        level.order.iter().for_each(|slot| self.slot(*slot));
        level.marks.iter().for_each(|mark| self.byte(*mark));
    }

    fn record(&mut self, record: &Record) {
        self.number(record.block);
        self.number(record.age);
        self.bytes.extend(&record.contents);
    }
}
