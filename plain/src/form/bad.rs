//! Bytes that are no form, or might just be one, for tests of loading: other
//! lengths, flipped bits, other shapes, random bytes, and forms that are written
//! field by field and then damaged.

use super::{BLOCK, BODY, Form, JOBS, Layout, Record, Spot, Written, sums};
use crate::rng::Rng;
use crate::shape::Shape;

/// The form cut or followed by zeros, to each length within two bytes of a
/// multiple of 512 up to a block more than it has.
pub fn lengths(form: &[u8]) -> impl Iterator<Item = Vec<u8>> {
    let blocks = 0..=form.len() / BLOCK + 1;
    let around = blocks.flat_map(|block| {
        let middle = block * BLOCK;
        middle.saturating_sub(2)..=middle + 2
    });
    around.map(|length| {
        let mut other = form.to_vec();
        other.resize(length, 0);
        other
    })
}

/// The form with one bit turned, for each of them.
pub fn flips(form: &[u8]) -> impl Iterator<Item = Vec<u8>> {
    (0..8 * form.len()).map(|bit| {
        let mut other = form.to_vec();
        other[bit / 8] ^= 1 << (bit % 8);
        other
    })
}

/// The same for each bit of the payload, with sums made right again.
pub fn summed_flips(form: &[u8]) -> impl Iterator<Item = Vec<u8>> {
    let bits = (0..8 * form.len()).filter(|bit| bit / 8 % BLOCK < BODY);
    bits.map(|bit| {
        let mut other = form.to_vec();
        other[bit / 8] ^= 1 << (bit % 8);
        sums::make_right(&mut other);
        other
    })
}

/// So many blocks of random bytes with right sums.
pub fn noise(rng: &mut Rng, blocks: usize) -> Vec<u8> {
    let mut form = rng.bytes(blocks * BLOCK);
    sums::make_right(&mut form);
    form
}

/// The form with another shape before its other fields.
pub fn reshaped(form: &Form, shape: Shape) -> Vec<u8> {
    let mut other = form.clone();
    other.shape = shape;
    other.bytes()
}

/// A shape within bounds, with few blocks and small ones.
pub fn small_shape(rng: &mut Rng) -> Shape {
    let (p, l) = (1 << rng.below(4), 1 + rng.below(3));
    let n = 1 + rng.below((p << (l - 1)).min(8));
    let (b, w) = (1 + rng.below(4), 1 + rng.below(32));
    Shape::new(n, p, l, b, 1 + rng.below(n), w)
}

/// A form that loads, though hardly any save makes it: counters, queue, orders,
/// marks and places are any that the rules let pass, and so is the order of
/// the records.
pub fn passable(rng: &mut Rng, shape: Shape) -> Form {
    let counters: Vec<usize> = (0..shape.partitions)
        .map(|_| rng.below(1 << shape.levels))
        .collect();
    let jobs = match rng.below(4) {
        0 => 0,
        1 => rng.below(JOBS + 1),
        _ => rng.below(4),
    };
    let mut form = Form {
        number: Layout::of(&shape).number,
        shape,
        counters,
        queue: (0..jobs).map(|_| rng.below(shape.partitions)).collect(),
        blocks: Vec::new(),
        levels: Vec::new(),
        records: Vec::new(),
    };
    form.fill_levels(rng);
    for _ in 0..shape.blocks {
        let block = form.any_block(rng);
        form.blocks.push(block);
    }
    form.record(rng);
    form
}

/// A form as long as one of the shape can be if E is N: all blocks wait, all
/// levels are filled, and as many jobs are queued as may be.
pub fn longest(rng: &mut Rng, shape: Shape) -> Form {
    let (p, n) = (shape.partitions, shape.blocks);
    let mut form = Form {
        number: Layout::of(&shape).number,
        shape,
        counters: vec![(1 << shape.levels) - 1; p],
        queue: (0..JOBS).map(|_| rng.below(p)).collect(),
        blocks: (0..n).map(|_| (rng.below(p), Spot::Waiting)).collect(),
        levels: Vec::new(),
        records: Vec::new(),
    };
    form.fill_levels(rng);
    form.record(rng);
    form
}

/// A form that is passable but for some fields that were changed; it may still
/// be.
pub fn almost(rng: &mut Rng, shape: Shape) -> Form {
    let mut form = passable(rng, shape);
    for _ in 0..1 + rng.below(3) {
        form.damage(rng);
    }
    form
}

fn shuffled(rng: &mut Rng, count: usize) -> Vec<usize> {
    let mut order: Vec<usize> = (0..count).collect();
    for i in (1..count).rev() {
        order.swap(i, rng.below(i + 1));
    }
    order
}

/// One of them, if there is one.
fn any<'a, T>(rng: &mut Rng, items: &'a mut [T]) -> Option<&'a mut T> {
    let at = rng.below(items.len().max(1));
    items.get_mut(at)
}

impl Form {
    fn fill_levels(&mut self, rng: &mut Rng) {
        let percent = [0, 20, 50, 80][rng.below(4)];
        for partition in 0..self.shape.partitions {
            let filled = |level: &usize| self.counters[partition] >> level & 1 == 1;
            let levels = (0..self.shape.levels).filter(filled);
            self.levels.extend(levels.map(|level| {
                Written {
                    partition,
                    level,
                    order: shuffled(rng, 2 << level),
                    marks: (0..2 << level)
                        .map(|_| usize::from(rng.chance(percent)))
                        .collect(),
                }
            }));
        }
    }

    /// A partition and a place that one more block may have.
    fn any_block(&self, rng: &mut Rng) -> (usize, Spot) {
        let p = rng.below(self.shape.partitions);
        let free = self.free_slots();
        match rng.below(4) {
            0 => (p, Spot::Nowhere),
            1 if self.waiting() < self.shape.places => (p, Spot::Waiting),
            2.. if !free.is_empty() => free[rng.below(free.len())],
            _ => (p, Spot::Nowhere),
        }
    }

    /// The unread slots without a block, in levels that may have one more.
    fn free_slots(&self) -> Vec<(usize, Spot)> {
        let room = |w: &&Written| self.blocks_in(w.partition, w.level).len() < 1 << w.level;
        let unread = |w: &Written| {
            let (partition, level) = (w.partition, w.level);
            let slots = (0..w.marks.len()).filter(|slot| w.marks[*slot] == 0);
            let spots = slots.map(|slot| (partition, Spot::Slot { level, slot }));
            spots.collect::<Vec<_>>()
        };
        let all = self.levels.iter().filter(room).flat_map(unread);
        all.filter(|spot| !self.blocks.contains(spot)).collect()
    }

    /// A record for each block that waits.
    fn record(&mut self, rng: &mut Rng) {
        let waits = |block: &usize| self.blocks[*block].1 == Spot::Waiting;
        let blocks: Vec<usize> = (0..self.blocks.len()).filter(waits).collect();
        let ages = shuffled(rng, blocks.len());
        let records = blocks.into_iter().zip(ages).map(|(block, age)| Record {
            block,
            age,
            contents: rng.bytes(self.shape.bytes),
        });
        self.records = records.collect();
    }

    fn damage(&mut self, rng: &mut Rng) {
        let n = self.shape.blocks;
        match rng.below(10) {
            0 => self.damage_shape(rng),
            1 => self.number = rng.below(4),
            2 => drop(any(rng, &mut self.counters).map(|counter| *counter ^= 1)),
            3 => self.queue.push(self.shape.partitions),
            4 => drop(any(rng, &mut self.queue).map(|job| *job += 1)),
            5 | 6 => self.damage_block(rng),
            7 | 8 => self.damage_level(rng),
            _ => {
                let number = rng.below(n + 1);
                if let Some(record) = any(rng, &mut self.records) {
                    match number % 2 {
                        0 => record.block = number,
                        _ => record.age = number,
                    }
                }
            }
        }
    }

    fn damage_shape(&mut self, rng: &mut Rng) {
        let shape = &mut self.shape;
        let number = match rng.below(6) {
            0 => &mut shape.blocks,
            1 => &mut shape.partitions,
            2 => &mut shape.levels,
            3 => &mut shape.bytes,
            4 => &mut shape.places,
            _ => &mut shape.window,
        };
        *number = (*number + 1) >> rng.below(2);
    }

    fn damage_block(&mut self, rng: &mut Rng) {
        let (p, l) = (self.shape.partitions, self.shape.levels);
        let partition = rng.below(p + 1);
        let level = rng.below(l + 1);
        let spot = match rng.below(4) {
            0 => Spot::Nowhere,
            1 => Spot::Waiting,
            _ => Spot::Slot {
                level,
                slot: rng.below((2 << level) + 1),
            },
        };
        if let Some(block) = any(rng, &mut self.blocks) {
            *block = (partition, spot);
        }
    }

    fn damage_level(&mut self, rng: &mut Rng) {
        let (of_order, mark) = (rng.chance(50), rng.below(3));
        let Some(at) = any(rng, &mut self.levels) else {
            return;
        };
        let slot = rng.below(at.order.len() + 1);
        let one = match of_order {
            true => any(rng, &mut at.order).map(|one| (one, slot)),
            false => any(rng, &mut at.marks).map(|one| (one, mark)),
        };
        if let Some((one, number)) = one {
            *one = number;
        }
    }
}
