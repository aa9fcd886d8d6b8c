//! The turn: a request's reads, and the reads, the orders and the writes of a
//! rebuild.

use crate::calls::{Draws, ask};
use crate::mistakes::Mistake;
use crate::state::{Command, Place, READ, State, Step, WRITE};

/// The bounds of the draws of an order of n slots, in turn.
pub fn order_bounds(n: usize, mistake: Mistake) -> impl Iterator<Item = usize> {
    let more = match mistake {
        Mistake::DrawBelowI => 0,
        _ => 1,
    };
    (1..n).rev().map(move |i| i + more)
}

/// An order of n slots: the slot of each item. The words lent have to settle
/// its draws.
pub fn order(n: usize, mistake: Mistake, draws: &mut Draws) -> Vec<usize> {
    ordered(&order_numbers(n, mistake, draws))
}

fn order_numbers(n: usize, mistake: Mistake, draws: &mut Draws) -> Vec<usize> {
    let bounds = order_bounds(n, mistake);
    bounds.map(|bound| draws.below(bound)).collect()
}

/// The order of as many slots as need these numbers.
fn ordered(drawn: &[usize]) -> Vec<usize> {
    let n = drawn.len() + 1;
    let mut slot_of: Vec<usize> = (0..n).collect();
    for (i, j) in (1..n).rev().zip(drawn) {
        slot_of.swap(i, *j);
    }
    slot_of
}

impl State {
    /// The bounds of the draws that the next turn makes, in turn.
    pub fn turn_bounds(&self) -> Vec<usize> {
        if self.step() != Some(Step::FirstWrite) {
            return Vec::new();
        }
        let levels = self.drawn_levels(self.queue[0]).into_iter();
        let orders = levels.map(|level| order_bounds(2 << level, self.mistake));
        orders.flatten().collect()
    }

    /// The levels whose orders the front job draws, in turn: "each with its own
    /// order, all drawn, highest first, in the turn of the first write".
    fn drawn_levels(&self, q: usize) -> Vec<usize> {
        let mut levels = self.written_levels(q);
        match self.mistake {
            Mistake::LowestDrawnFirst => levels.reverse(),
            Mistake::OrderNotTaken => levels.retain(|level| !self.levels[q][*level].drawn),
            _ => {}
        }
        levels
    }

    /// The command sent, and the bytes of a write.
    pub fn turn(&mut self, buffer: usize, draws: &mut Draws) -> Result<(Command, Vec<u8>), u8> {
        ask(self.outstanding.len() < self.shape.window, 9)?;
        let step = self.step().ok_or(10)?;
        let writes = matches!(step, Step::FirstWrite | Step::Write(..));
        ask(!writes || buffer == self.shape.bytes, 15)?;
        match step {
            Step::RequestRead(level) => self.send_request_read(level),
            Step::JobRead(level, slot) => {
                let q = self.queue[0];
                self.begin(q);
                Ok(self.send_read(q, level, slot))
            }
            Step::FirstWrite => {
                ask(draws.settle(self.turn_bounds()), 3)?;
                let (level, slot) = self.rebuild(draws)?;
                Ok(self.send_write(level, slot))
            }
            Step::Write(level, slot) => Ok(self.send_write(level, slot)),
        }
    }

    /// A read of a source's slot is a read of the job, too, and may be its
    /// first command.
    fn send_request_read(&mut self, level: usize) -> Result<(Command, Vec<u8>), u8> {
        let block = self.request.as_ref().ok_or(2)?.block;
        let p = self.partition[block];
        let slot = self.slot_to_read(block, level).ok_or(2)?;
        let of_job = self.is_source(p, level);
        let was_read = self.levels[p][level].read[slot];
        let sent = self.send_read(p, level, slot);
        if of_job && self.mistake == Mistake::SourceReadUnmarked {
            self.levels[p][level].read[slot] = was_read;
        }
        if of_job && self.mistake != Mistake::SharedReadBeginsNothing {
            self.begin(p);
        }
        let request = self.request.as_mut().ok_or(2)?;
        request.level = level + 1;
        request.awaits.push(sent.0);
        Ok(sent)
    }

    fn send_read(&mut self, partition: usize, level: usize, slot: usize) -> (Command, Vec<u8>) {
        self.levels[partition][level].read[slot] = true;
        let command = Command {
            kind: READ,
            partition,
            level,
            slot,
        };
        self.outstanding.push(command);
        (command, Vec::new())
    }

    fn send_write(&mut self, level: usize, slot: usize) -> (Command, Vec<u8>) {
        let partition = self.queue[0];
        // What is written is the host's to keep.
        let zeros = vec![0; self.shape.bytes];
        let bytes = match self.levels[partition][level].block_at[slot] {
            Some(block) => std::mem::replace(&mut self.contents[block], zeros),
            None => zeros,
        };
        let command = Command {
            kind: WRITE,
            partition,
            level,
            slot,
        };
        self.writing = Some(self.writing.unwrap_or(0) + 1);
        self.outstanding.push(command);
        (command, bytes)
    }

    /// Gathers the source levels' blocks and the chosen waiting ones, draws the
    /// orders of the levels to be written and gives the blocks their new place.
    /// Hands back the level and the slot of the first write.
    fn rebuild(&mut self, draws: &mut Draws) -> Result<(usize, usize), u8> {
        let q = self.queue[0];
        let (sources, written) = (self.source_levels(q), self.written_levels(q));
        let mut gathered = [self.sourced(q), self.chosen(q)].concat();
        gathered.sort();
        gathered.dedup();
        let room: usize = written.iter().map(|level| 1 << level).sum();
        ask(gathered.len() <= room, 2)?;
        let first = self.writes(q).next().ok_or(2)?;
        self.draw_orders(q, draws);
        self.begin(q);
        if self.mistake != Mistake::SourcesKept {
            for level in sources {
                self.levels[q][level].block_at.fill(None);
            }
        }
        self.place(q, &written, gathered);
        Ok(first)
    }

    fn draw_orders(&mut self, q: usize, draws: &mut Draws) {
        let mut first = Vec::new();
        for level in self.drawn_levels(q) {
            let mut drawn = order_numbers(2 << level, self.mistake, draws);
            if self.mistake == Mistake::OrderShared && !first.is_empty() {
                // Those of the first order that are below the same bounds.
                drawn = first[first.len() - drawn.len()..].to_vec();
            }
            let table = &mut self.levels[q][level];
            if self.mistake != Mistake::OrderDrawnOnce || !table.drawn {
                table.slot_of = ordered(&drawn);
            }
            if first.is_empty() {
                first = drawn;
            }
        }
    }

    /// "Blocks go by ascending number into the highest of these levels until it
    /// has 2^ℓ, then the next."
    fn place(&mut self, q: usize, written: &[usize], gathered: Vec<usize>) {
        let mut blocks = gathered.into_iter();
        let mut levels = written.to_vec();
        if self.mistake == Mistake::LowestFilledFirst {
            levels.reverse();
        }
        for level in levels {
            let table = &mut self.levels[q][level];
            table.drawn = true;
            table.read.fill(false);
            table.block_at.fill(None);
            for (item, block) in blocks.by_ref().take(1 << level).enumerate() {
                table.block_at[table.slot_of[item]] = Some(block);
                self.place[block] = Place::Stored { level, item };
            }
        }
    }
}
