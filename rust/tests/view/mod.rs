//! The state that 76 bytes and a memory stand for, by the layout in
//! docs/MEMORY.md: every content stands for one, as an entry out of its range
//! reads as 0. `step` has what the rules say of it, also of states that no
//! call left (docs/DECISIONS.md), `beside` of look-ups while a partition is
//! rebuilt, `runs` of jobs that run together, `met` what of these occurs, `form`
//! of saving and loading, and `page` its page.

mod beside;
mod form;
pub mod met;
mod page;
mod runs;
pub mod step;

use plain::found::Found;
use plain::shape::Shape;
use plain::state::{Command, READ, WRITE};

/// The numbers of a state.
pub const NUMBERS: usize = 19;

/// Where the numbers stand that come behind the shape's and the request's.
const JOBS: usize = 13;
const BEGUN: usize = 14;
const CURSOR: usize = 15;
const SENT: usize = 16;
const WAITING: usize = 17;
const OUT: usize = 18;

/// A request in hand; a read has no bytes.
#[derive(Clone, Debug, PartialEq, Eq)]
pub struct Request {
    pub kind: usize,
    pub block: usize,
    pub bytes: Vec<u8>,
    pub next: usize,
    pub evict: usize,
    /// The level from which its reads are still to be sent.
    pub level: usize,
    /// Where its block was found; none while it is held.
    pub found: Option<Found>,
    /// It waits for the commands of its block's partition among the first so
    /// many outstanding ones.
    pub awaits: usize,
}

/// A state in range.
#[derive(Clone, Debug, PartialEq, Eq)]
pub struct View {
    pub shape: Shape,
    /// By block: its partition, its level and slot if it has one, its bytes.
    pub partition: Vec<usize>,
    pub place: Vec<Option<(usize, usize)>>,
    pub bytes: Vec<Vec<u8>>,
    /// The blocks that wait, longest waiting first.
    pub waiting: Vec<usize>,
    pub counter: Vec<usize>,
    /// By cell: the slot of an item; 0 for a dummy and b + 1 for block b; 1 for
    /// a slot that was written and not read since.
    pub order: Vec<usize>,
    pub holds: Vec<usize>,
    pub mark: Vec<usize>,
    pub queue: Vec<usize>,
    /// For how many jobs the front one runs, 0 until it has begun; the slots of
    /// its sources that it has gone over, and the writes that it has sent.
    pub begun: usize,
    pub cursor: usize,
    pub sent: usize,
    /// In the order of sending.
    pub outstanding: Vec<Command>,
    pub request: Option<Request>,
}

/// 2^(level+1), the slots of a level.
pub fn slots(level: usize) -> usize {
    2 << level
}

/// A number that is out of range reads as 0.
fn fit(bound: usize, number: usize) -> usize {
    if number < bound { number } else { 0 }
}

/// Where slot i of a level stands in a partition, 2^(level+1) + i, taken apart.
fn apart(levels: usize, spot: usize) -> (usize, usize) {
    let level = (0..levels).rev().find(|l| slots(*l) <= spot).unwrap_or(0);
    (level, spot.saturating_sub(slots(level)))
}

/// Number k of the bytes, low byte first.
fn word(bytes: &[u8], k: usize) -> usize {
    usize::from(u16::from_le_bytes([bytes[2 * k], bytes[2 * k + 1]]))
}

/// Where a request's block was found: 0 while it is held, and then 1 more than
/// the number by which a collect tells it.
fn found(number: usize) -> Option<Found> {
    Some(match number.checked_sub(1)? {
        0 => Found::Nowhere,
        1 => Found::Cache,
        more => Found::Level(more - 2),
    })
}

/// The tables of a memory, and where each begins.
struct Tables<'a> {
    shape: Shape,
    memory: &'a [u8],
}

/// The cells of a shape: 2^(L+1) for each partition.
pub fn cells(shape: Shape) -> usize {
    shape.partitions * slots(shape.levels)
}

impl Tables<'_> {
    /// The numbers of a table, each by `read` of its place and what it says.
    fn table<T>(&self, first: usize, count: usize, read: impl Fn(usize, usize) -> T) -> Vec<T> {
        (0..count)
            .map(|i| read(i, word(self.memory, first + i)))
            .collect()
    }

    fn place(&self, number: usize) -> Option<(usize, usize)> {
        let number = fit(slots(self.shape.levels), number);
        (number >= 2).then(|| apart(self.shape.levels, number))
    }

    fn outstanding(&self, count: usize) -> Vec<Command> {
        let command = |i, kind: usize| {
            let spot = fit(slots(self.shape.levels), word(self.memory, 96 + i));
            let (level, slot) = apart(self.shape.levels, spot.max(2));
            Command {
                kind: if kind < 64 { READ } else { WRITE },
                partition: fit(self.shape.partitions, kind % 64),
                level,
                slot,
            }
        };
        self.table(64, count, command)
    }

    fn block(&self, block: usize) -> Vec<u8> {
        let first = 384 + 6 * self.shape.blocks + 6 * cells(self.shape);
        let at = first + block * self.shape.bytes;
        self.memory[at..at + self.shape.bytes].to_vec()
    }
}

/// The state for which these bytes stand; none if the memory is too short or a
/// number of the state is out of its range, to which four calls answer 2.
pub fn decode(state: &[u8], memory: &[u8]) -> Option<View> {
    let c: [usize; NUMBERS] = std::array::from_fn(|k| word(state, 2 * k));
    let shape = Shape::new(c[0], c[1], c[2], c[3], c[4], c[5]);
    if !shape.in_bounds() || memory.len() < shape.needed() {
        return None;
    }
    let all = slots(shape.levels) - 2;
    let job = c[JOBS] <= 64 && c[BEGUN] <= 64 && c[CURSOR] <= all && c[SENT] <= all;
    if !job || c[WAITING] > shape.places || c[OUT] > shape.window {
        return None;
    }
    let view = Tables { shape, memory }.view(&c);
    view.hand_in_range().then_some(view)
}

impl Tables<'_> {
    /// The view, by the numbers of the state, whose counts are in range.
    fn view(&self, c: &[usize; NUMBERS]) -> View {
        let Shape {
            blocks: n,
            partitions,
            levels,
            ..
        } = self.shape;
        let all = cells(self.shape);
        let order = |cell, number| {
            let (level, _) = apart(levels, cell % slots(levels));
            fit(slots(level), number)
        };
        View {
            shape: self.shape,
            queue: self.table(0, c[JOBS], |_, q| fit(partitions, q)),
            outstanding: self.outstanding(c[OUT]),
            counter: self.table(128, partitions, |_, c| fit(1 << levels, c)),
            partition: self.table(192, n, |_, p| fit(partitions, p)),
            place: self.table(192 + n, n, |_, number| self.place(number)),
            waiting: self.table(192 + 2 * n, c[WAITING], |_, b| fit(n, b)),
            order: self.table(192 + 3 * n, all, order),
            holds: self.table(192 + 3 * n + all, all, |_, b| fit(n + 1, b)),
            mark: self.table(192 + 3 * n + 2 * all, all, |_, mark| fit(2, mark)),
            bytes: (0..n).map(|b| self.block(b)).collect(),
            begun: c[BEGUN],
            cursor: c[CURSOR],
            sent: c[SENT],
            request: (c[6] != 0).then(|| self.request(c)),
        }
    }

    fn request(&self, c: &[usize; NUMBERS]) -> Request {
        let writes = c[6] == WRITE;
        Request {
            kind: c[6],
            block: c[7],
            bytes: if writes {
                self.block(self.shape.blocks)
            } else {
                Vec::new()
            },
            next: c[8],
            evict: c[9],
            level: c[10],
            found: found(c[11]),
            awaits: c[12],
        }
    }
}

impl View {
    /// Each number of a request in hand is in its range; with one, at most 62
    /// jobs, and fewer than E blocks waiting besides its own.
    fn hand_in_range(&self) -> bool {
        let Some(r) = &self.request else {
            return true;
        };
        let others = self.waiting.iter().filter(|b| **b != r.block).count();
        let level = match r.found {
            Some(Found::Level(level)) => level,
            _ => 0,
        };
        (READ..=WRITE).contains(&r.kind)
            && r.block < self.shape.blocks
            && r.next < self.shape.partitions
            && r.evict < self.shape.partitions
            && r.level <= self.shape.levels
            && level < self.shape.levels
            && r.awaits <= self.shape.window
            && self.queue.len() <= 62
            && others < self.shape.places
    }

    /// The cell of slot i of a level of partition q.
    fn cell(&self, q: usize, level: usize, i: usize) -> usize {
        q * slots(self.shape.levels) + slots(level) + i
    }

    /// The block in a slot.
    fn holder(&self, q: usize, level: usize, i: usize) -> Option<usize> {
        self.holds[self.cell(q, level, i)].checked_sub(1)
    }

    /// The blocks that slots of these levels of q hold, one for each slot.
    fn held_in(
        &self,
        q: usize,
        levels: impl IntoIterator<Item = usize>,
    ) -> impl Iterator<Item = usize> {
        let each = move |level| (0..slots(level)).map(move |slot| (level, slot));
        let all = levels.into_iter().flat_map(each);
        all.filter_map(move |(level, slot)| self.holder(q, level, slot))
    }

    /// Where a block is. One that has a slot and waits, as no call leaves it, is
    /// in its level.
    fn look_up(&self, block: usize) -> Found {
        match self.place[block] {
            Some((level, _)) => Found::Level(level),
            None if self.waiting.contains(&block) => Found::Cache,
            None => Found::Nowhere,
        }
    }

    /// A block that is nowhere reads as zeros.
    fn contents(&self, block: usize) -> Vec<u8> {
        match self.look_up(block) {
            Found::Nowhere => vec![0; self.shape.bytes],
            _ => self.bytes[block].clone(),
        }
    }
}
