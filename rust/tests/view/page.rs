//! The page of a state in range, by the rule alone: a block whose place is a
//! slot is stored, else it waits if it is in the cache's list, else it is
//! nowhere. Where tables are damaged, a block may be stored and in the list too,
//! or in the list twice; it counts once.

use super::View;
use plain::found::Found;

#[derive(Clone, Copy, PartialEq, Eq)]
enum Place {
    Nowhere,
    Stored,
    Waiting,
}

impl View {
    fn place_of(&self, block: usize) -> Place {
        match self.look_up(block) {
            Found::Nowhere => Place::Nowhere,
            Found::Cache => Place::Waiting,
            Found::Level(_) => Place::Stored,
        }
    }

    pub fn page(&self) -> String {
        let blocks = 0..self.shape.blocks;
        let places: Vec<Place> = blocks.map(|block| self.place_of(block)).collect();
        let lines = (0..self.shape.partitions).map(|q| self.line(q, &places));
        let all = |place| places.iter().filter(|other| **other == place).count();
        let [nowhere, stored, waiting] = [Place::Nowhere, Place::Stored, Place::Waiting].map(all);
        assert_eq!(nowhere + stored + waiting, self.shape.blocks);
        let last = format!("all {nowhere:>6}{stored:>6}{waiting:>6}      \n");
        lines.chain([last]).collect()
    }

    fn line(&self, q: usize, places: &[Place]) -> String {
        let of = |place| {
            let both = places.iter().zip(&self.partition);
            both.filter(|both| *both == (&place, &q)).count()
        };
        let (stored, waiting) = (of(Place::Stored), of(Place::Waiting));
        let jobs = self.queue.iter().filter(|job| **job == q).count();
        let counter = self.counter[q];
        format!("{q:>4}{counter:>6}{stored:>6}{waiting:>6}{jobs:>6}\n")
    }

    /// Whether a block is in the cache's list twice, or is stored and in it.
    pub fn lists_a_block_too_often(&self) -> bool {
        let stored = |block: &usize| self.place[*block].is_some();
        let twice = |(i, block): (usize, &usize)| self.waiting[..i].contains(block);
        self.waiting.iter().any(stored) || self.waiting.iter().enumerate().any(twice)
    }
}
