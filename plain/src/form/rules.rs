//! What is asked of a form's fields once they are read (number 18).

use super::{BODY, Form, JOBS, Layout, Spot, Written, fields};
use crate::mistakes::Mistake;

/// The rules, those of how a form is read first.
#[derive(Clone, Copy, Debug, PartialEq, Eq, Hash)]
pub enum Rule {
    /// The shape is within bounds.
    Shape,
    /// The counters are within range.
    Counters,
    /// The blocks have all fields.
    Whole,
    /// The form number is that of the shape.
    Number,
    /// At most 64 jobs are queued.
    Jobs,
    /// Each is for a partition of the store.
    Queue,
    /// Each block's partition is one.
    Partitions,
    /// Orders are permutations.
    Orders,
    /// Marks are 0 or 1.
    Marks,
    /// Stored blocks are in slots of filled levels.
    Filled,
    /// These are unread.
    Unread,
    /// There is one block in a slot.
    Apart,
    /// There are at most 2^l in level l.
    Limit,
    /// At most E blocks wait.
    Places,
    /// There is one record for each block that waits.
    Records,
    /// Ages are from 0 without gap.
    Gap,
    /// Each age is there once.
    Ages,
    /// What is left of the last block is zeros.
    Rest,
    /// There is no block more than that.
    Length,
}

impl Rule {
    /// Those that a client may forget to ask and go on.
    pub const FORGOTTEN: [Rule; 11] = [
        Rule::Number,
        Rule::Jobs,
        Rule::Marks,
        Rule::Unread,
        Rule::Apart,
        Rule::Limit,
        Rule::Places,
        Rule::Gap,
        Rule::Ages,
        Rule::Rest,
        Rule::Length,
    ];
}

/// Whether no number stands twice.
fn once(numbers: impl Iterator<Item = usize>) -> bool {
    let mut numbers: Vec<usize> = numbers.collect();
    numbers.sort();
    numbers.windows(2).all(|pair| pair[0] != pair[1])
}

impl Form {
    /// The form that this payload is, or nothing if it breaks a rule.
    pub fn of_payload(payload: &[u8], mistake: Mistake) -> Option<Form> {
        let (form, length) = Form::read(payload)?;
        let asked = form.asked(&payload[length..], length, mistake);
        let kept = |(rule, kept): (Rule, bool)| kept || mistake == Mistake::Unasked(rule);
        let in_order = mistake != Mistake::RecordsFixed || form.longest_first();
        (asked.into_iter().all(kept) && in_order).then_some(form)
    }

    /// Each rule that is asked after reading, and whether it is kept. Behind
    /// the form, which is so long, is this.
    fn asked(&self, rest: &[u8], length: usize, mistake: Mistake) -> [(Rule, bool); 16] {
        let Form { shape, records, .. } = self;
        let below = |number: &usize| *number < shape.partitions;
        let of_last = length.div_ceil(BODY) * BODY - length;
        let of_read = fields::mark_of_read(mistake);
        [
            (Rule::Number, self.number == Layout::of(shape).number),
            (Rule::Jobs, self.queue.len() <= JOBS),
            (Rule::Queue, self.queue.iter().all(below)),
            (Rule::Partitions, self.blocks.iter().all(|(p, _)| below(p))),
            (Rule::Orders, self.levels.iter().all(is_permutation)),
            (Rule::Marks, self.levels.iter().all(has_marks)),
            (Rule::Filled, self.stored(|_, _| true)),
            (
                Rule::Unread,
                self.stored(|w, slot| w.marks[slot] != of_read),
            ),
            (Rule::Apart, self.is_apart()),
            (Rule::Limit, self.levels.iter().all(|w| self.fits(w))),
            (Rule::Places, self.waiting() <= shape.places),
            (Rule::Records, self.recorded()),
            (Rule::Gap, records.iter().all(|r| r.age < records.len())),
            (Rule::Ages, once(records.iter().map(|r| r.age))),
            (Rule::Rest, rest.iter().take(of_last).all(|byte| *byte == 0)),
            (Rule::Length, rest.len() == of_last),
        ]
    }

    /// Whether all stored blocks are in slots of filled levels of which this
    /// holds.
    fn stored(&self, holds: impl Fn(&Written, usize) -> bool) -> bool {
        self.blocks.iter().all(|(p, spot)| match *spot {
            Spot::Slot { level, slot } => {
                let written = self.written(*p, level).map(|at| &self.levels[at]);
                written.is_some_and(|w| slot < w.marks.len() && holds(w, slot))
            }
            _ => true,
        })
    }

    fn is_apart(&self) -> bool {
        let mut slots = Vec::new();
        for (p, spot) in &self.blocks {
            if let Spot::Slot { level, slot } = *spot {
                slots.push((*p, level, slot));
            }
        }
        slots.sort();
        slots.windows(2).all(|pair| pair[0] != pair[1])
    }

    fn fits(&self, w: &Written) -> bool {
        self.blocks_in(w.partition, w.level).len() <= 1 << w.level
    }

    /// As many records are read as blocks wait, so that one for each of them is
    /// none for another and none twice.
    fn recorded(&self) -> bool {
        let waits = |block: usize| matches!(self.blocks.get(block), Some((_, Spot::Waiting)));
        let named = || self.records.iter().map(|record| record.block);
        named().all(waits) && once(named())
    }

    fn longest_first(&self) -> bool {
        self.records.is_sorted_by_key(|record| record.age)
    }
}

fn is_permutation(w: &Written) -> bool {
    w.order.iter().all(|slot| *slot < w.order.len()) && once(w.order.iter().copied())
}

fn has_marks(w: &Written) -> bool {
    w.marks.iter().all(|mark| *mark <= 1)
}
