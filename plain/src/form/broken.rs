//! Forms that break one rule of 18 each, made from a right form, with right
//! sums. Where a number of the shape says what fields follow, these no longer
//! fit it; but the shape is asked first.

use super::{BLOCK, BODY, Form, JOBS, Record, Rule, Spot, sums};
use crate::joined::joined;

/// What is wrong with a form.
#[derive(Clone, Copy, Debug, PartialEq, Eq, Hash)]
pub enum Broken {
    NoBlocks,
    /// N is 4,097.
    ManyBlocks,
    /// N is above P * 2^(L-1).
    Crowded,
    /// P is 3.
    ThreePartitions,
    /// P is 128.
    ManyPartitions,
    NoPartitions,
    NoLevels,
    /// L is 9.
    ManyLevels,
    NoBytes,
    /// B is 513.
    ManyBytes,
    NoPlaces,
    /// E is above N.
    ManyPlaces,
    NoWindow,
    /// W is 33.
    WideWindow,
    /// The form number is 0, or that of another form.
    NumberZero,
    NumberTwo,
    /// A counter is 2^L too high.
    CounterAbove,
    /// 65 jobs are queued.
    ManyJobs,
    /// A job is for partition P.
    JobAbove,
    /// A block's partition is P.
    PartitionAbove,
    /// A block is in level L, or in level 253.
    LevelAbove,
    LevelFar,
    /// A block is behind the last slot of its level.
    SlotAbove,
    /// A block is in a level that is not filled.
    Unfilled,
    /// A block is in a slot that has been read.
    InReadSlot,
    /// Two blocks are in one slot.
    TwoInSlot,
    /// A level has a block more than 2^l.
    OverLimit,
    /// An order has a slot twice.
    OrderTwice,
    /// An order has a slot behind the last one.
    OrderAbove,
    /// A mark is 2.
    MarkTwo,
    /// A block more than E waits.
    OverPlaces,
    /// A record is of a block that does not wait, or of block N.
    RecordElsewhere,
    RecordAbove,
    /// Two records are of one block.
    RecordTwice,
    /// An age is as high as the number of records.
    AgeGap,
    /// Two blocks have one age.
    AgeTwice,
    /// There is a record more than blocks wait.
    SpareRecord,
    /// A byte behind the last record is 1: the next one, or the block's last.
    RestStarted,
    RestEnded,
    /// There is a block of zeros more.
    SpareBlock,
    /// The last block is missing.
    Cut,
}

impl Broken {
    pub const ALL: [Broken; 41] = joined(&[&Broken::SHAPE, &Broken::STATE, &Broken::BYTES]);

    /// Those of the shape.
    pub const SHAPE: [Broken; 14] = [
        Broken::NoBlocks,
        Broken::ManyBlocks,
        Broken::Crowded,
        Broken::ThreePartitions,
        Broken::ManyPartitions,
        Broken::NoPartitions,
        Broken::NoLevels,
        Broken::ManyLevels,
        Broken::NoBytes,
        Broken::ManyBytes,
        Broken::NoPlaces,
        Broken::ManyPlaces,
        Broken::NoWindow,
        Broken::WideWindow,
    ];

    /// Those of the other fields.
    pub const STATE: [Broken; 22] = [
        Broken::NumberZero,
        Broken::NumberTwo,
        Broken::CounterAbove,
        Broken::ManyJobs,
        Broken::JobAbove,
        Broken::PartitionAbove,
        Broken::LevelAbove,
        Broken::LevelFar,
        Broken::SlotAbove,
        Broken::Unfilled,
        Broken::InReadSlot,
        Broken::TwoInSlot,
        Broken::OverLimit,
        Broken::OrderTwice,
        Broken::OrderAbove,
        Broken::MarkTwo,
        Broken::OverPlaces,
        Broken::RecordElsewhere,
        Broken::RecordAbove,
        Broken::RecordTwice,
        Broken::AgeGap,
        Broken::AgeTwice,
    ];

    /// Those of what is behind the fields.
    pub const BYTES: [Broken; 5] = [
        Broken::SpareRecord,
        Broken::RestStarted,
        Broken::RestEnded,
        Broken::SpareBlock,
        Broken::Cut,
    ];

    /// The rule that is broken.
    pub fn rule(self) -> Rule {
        match self {
            Broken::NumberZero | Broken::NumberTwo => Rule::Number,
            Broken::CounterAbove => Rule::Counters,
            Broken::ManyJobs => Rule::Jobs,
            Broken::JobAbove => Rule::Queue,
            Broken::PartitionAbove => Rule::Partitions,
            Broken::LevelAbove | Broken::LevelFar => Rule::Filled,
            Broken::SlotAbove | Broken::Unfilled => Rule::Filled,
            Broken::InReadSlot => Rule::Unread,
            Broken::TwoInSlot => Rule::Apart,
            Broken::OverLimit => Rule::Limit,
            Broken::OrderTwice | Broken::OrderAbove => Rule::Orders,
            Broken::MarkTwo => Rule::Marks,
            Broken::OverPlaces => Rule::Places,
            Broken::RecordElsewhere | Broken::RecordAbove | Broken::RecordTwice => Rule::Records,
            Broken::AgeGap => Rule::Gap,
            Broken::AgeTwice => Rule::Ages,
            Broken::SpareRecord | Broken::RestStarted | Broken::RestEnded => Rule::Rest,
            Broken::SpareBlock => Rule::Length,
            Broken::Cut => Rule::Whole,
            _ => Rule::Shape,
        }
    }

    /// The bytes of this form broken so, or nothing if it has nothing that can
    /// be.
    pub fn bytes(self, form: &Form) -> Option<Vec<u8>> {
        if Broken::BYTES.contains(&self) {
            return self.behind(form);
        }
        let mut broken = form.clone();
        match Broken::SHAPE.contains(&self) {
            true => broken.break_shape(self),
            false => broken.break_state(self)?,
        }
        Some(broken.bytes())
    }

    fn behind(self, form: &Form) -> Option<Vec<u8>> {
        let length = form.payload().len();
        let mut bytes = form.bytes();
        let rest = !length.is_multiple_of(BODY);
        match self {
            Broken::SpareRecord => {
                let mut more = form.clone();
                let contents = vec![1; form.shape.bytes];
                let record = |block| Record {
                    block,
                    age: form.records.len(),
                    contents,
                };
                more.records.push(record(form.shape.blocks - 1));
                bytes = more.bytes();
                (bytes.len() == form.bytes().len()).then_some(())?;
            }
            Broken::RestStarted if rest => bytes[length / BODY * BLOCK + length % BODY] = 1,
            Broken::RestEnded if rest => bytes[length / BODY * BLOCK + BODY - 1] = 1,
            Broken::SpareBlock => bytes.extend([0; BLOCK]),
            Broken::Cut if bytes.len() > BLOCK => bytes.truncate(bytes.len() - BLOCK),
            _ => return None,
        }
        sums::make_right(&mut bytes);
        Some(bytes)
    }
}

impl Form {
    fn break_shape(&mut self, broken: Broken) {
        let shape = &mut self.shape;
        match broken {
            Broken::NoBlocks => shape.blocks = 0,
            Broken::ManyBlocks => shape.blocks = 4097,
            Broken::Crowded => shape.blocks = shape.partitions * shape.capacity() + 1,
            Broken::ThreePartitions => shape.partitions = 3,
            Broken::ManyPartitions => shape.partitions = 128,
            Broken::NoPartitions => shape.partitions = 0,
            Broken::NoLevels => shape.levels = 0,
            Broken::ManyLevels => shape.levels = 9,
            Broken::NoBytes => shape.bytes = 0,
            Broken::ManyBytes => shape.bytes = 513,
            Broken::NoPlaces => shape.places = 0,
            Broken::ManyPlaces => shape.places = shape.blocks + 1,
            Broken::NoWindow => shape.window = 0,
            _ => shape.window = 33,
        }
    }

    fn break_state(&mut self, broken: Broken) -> Option<()> {
        let p = self.shape.partitions;
        match broken {
            Broken::NumberZero => self.number = 0,
            Broken::NumberTwo => self.number = 2,
            Broken::CounterAbove => *self.counters.first_mut()? += 1 << self.shape.levels,
            Broken::ManyJobs => self.queue.resize(JOBS + 1, 0),
            Broken::JobAbove => *self.queue.last_mut()? = p,
            Broken::PartitionAbove => {
                let outside = |(_, spot): &&mut (usize, Spot)| !matches!(spot, Spot::Slot { .. });
                self.blocks.iter_mut().find(outside)?.0 = p;
            }
            Broken::OverPlaces => {
                let fewer = self.records.len().checked_sub(1)?;
                self.shape.places = (fewer > 0).then_some(fewer)?;
            }
            Broken::RecordAbove => self.records.last_mut()?.block = self.shape.blocks,
            Broken::RecordElsewhere => {
                let waits = |(_, spot): &(usize, Spot)| *spot == Spot::Waiting;
                let block = self.blocks.iter().position(|block| !waits(block))?;
                self.records.first_mut()?.block = block;
            }
            Broken::RecordTwice => self.records.get_mut(1)?.block = self.records.first()?.block,
            Broken::AgeGap => {
                let last = self.records.len().checked_sub(1)?;
                let oldest = self.records.iter_mut().find(|r| r.age == last)?;
                oldest.age = last + 1;
            }
            Broken::AgeTwice => self.records.get_mut(1)?.age = self.records.first()?.age,
            _ => self.break_level(broken)?,
        }
        Some(())
    }
}
