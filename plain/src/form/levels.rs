//! Forms whose levels, or the blocks in them, break a rule.

use super::broken::Broken;
use super::{Form, Spot};

impl Form {
    pub(super) fn break_level(&mut self, broken: Broken) -> Option<()> {
        match broken {
            Broken::OrderTwice => {
                let order = &mut self.levels.first_mut()?.order;
                order[1] = order[0];
            }
            Broken::OrderAbove => {
                let order = &mut self.levels.first_mut()?.order;
                order[0] = order.len();
            }
            Broken::MarkTwo => {
                let (at, slot) = self.empty_slot()?;
                self.levels[at].marks[slot] = 2;
            }
            Broken::Unfilled => self.put_unfilled()?,
            Broken::TwoInSlot => self.put_beside()?,
            Broken::OverLimit => self.put_above()?,
            _ => self.move_stored(broken)?,
        }
        Some(())
    }

    /// Breaks the place of a stored block.
    fn move_stored(&mut self, broken: Broken) -> Option<()> {
        let stored = |(_, spot): &(usize, Spot)| matches!(spot, Spot::Slot { .. });
        let block = self.blocks.iter().position(stored)?;
        let (p, Spot::Slot { level, slot }) = self.blocks[block] else {
            return None;
        };
        let at = self.written(p, level)?;
        let (level, slot) = match broken {
            Broken::LevelAbove => (self.shape.levels, slot),
            Broken::LevelFar => (253, slot),
            // In form 1 there is no byte for the slot behind 255.
            Broken::SlotAbove if level < 7 => (level, 2 << level),
            Broken::InReadSlot => {
                self.levels[at].marks[slot] = 1;
                (level, slot)
            }
            _ => return None,
        };
        self.blocks[block].1 = Spot::Slot { level, slot };
        Some(())
    }

    /// A filled level and a slot of it without a block.
    fn empty_slot(&self) -> Option<(usize, usize)> {
        let slots = |at: usize| (0..self.levels[at].marks.len()).map(move |slot| (at, slot));
        let mut all = (0..self.levels.len()).flat_map(slots);
        all.find(|(at, slot)| {
            let (partition, level) = (self.levels[*at].partition, self.levels[*at].level);
            let spot = Spot::Slot { level, slot: *slot };
            !self.blocks.contains(&(partition, spot))
        })
    }

    /// The blocks outside the cache, which can be put elsewhere without a
    /// record the less.
    fn movable(&self) -> Vec<usize> {
        let waits = |block: &usize| self.blocks[*block].1 == Spot::Waiting;
        (0..self.blocks.len()).filter(|b| !waits(b)).collect()
    }

    fn put_unfilled(&mut self) -> Option<()> {
        let block = *self.movable().first()?;
        let levels = |p: usize| (0..self.shape.levels).map(move |level| (p, level));
        let mut all = (0..self.shape.partitions).flat_map(levels);
        let (p, level) = all.find(|(p, level)| self.written(*p, *level).is_none())?;
        self.blocks[block] = (p, Spot::Slot { level, slot: 0 });
        Some(())
    }

    /// Puts a block into another one's slot, where the level may have both.
    fn put_beside(&mut self) -> Option<()> {
        let fits = |level: usize, blocks: usize| blocks > 0 && blocks < 1 << level;
        let inside = |w: usize| self.blocks_in(self.levels[w].partition, self.levels[w].level);
        let at = (0..self.levels.len()).find(|w| fits(self.levels[*w].level, inside(*w).len()))?;
        let there = inside(at);
        let block = *self.movable().iter().find(|block| !there.contains(block))?;
        self.blocks[block] = self.blocks[there[0]];
        Some(())
    }

    /// Puts blocks into the unread slots of a level until it has one too many.
    fn put_above(&mut self) -> Option<()> {
        let (partition, level) = self.levels.first().map(|w| (w.partition, w.level))?;
        let wanted = (1 << level) + 1;
        let movable = self.movable();
        let blocks = movable.get(..wanted)?;
        self.levels.first_mut()?.marks.fill(0);
        self.empty(partition);
        for (slot, block) in blocks.iter().enumerate() {
            self.blocks[*block] = (partition, Spot::Slot { level, slot });
        }
        Some(())
    }

    /// Leaves no block in the levels of a partition.
    fn empty(&mut self, partition: usize) {
        for (p, spot) in &mut self.blocks {
            if *p == partition && *spot != Spot::Waiting {
                *spot = Spot::Nowhere;
            }
        }
    }
}
