//! The shape of a store: its bounds and the memory it needs.

#[derive(Clone, Copy, Debug, PartialEq, Eq, Hash)]
pub struct Shape {
    /// N, the number of blocks.
    pub blocks: usize,
    /// P, the number of partitions.
    pub partitions: usize,
    /// L, the number of levels of each partition.
    pub levels: usize,
    /// B, the bytes of a block.
    pub bytes: usize,
    /// E, the places in the eviction cache.
    pub places: usize,
    /// W, the commands outstanding at most.
    pub window: usize,
}

impl Shape {
    /// The six numbers in the document's order: N P L B E W.
    pub const fn new(n: usize, p: usize, l: usize, b: usize, e: usize, w: usize) -> Shape {
        Shape {
            blocks: n,
            partitions: p,
            levels: l,
            bytes: b,
            places: e,
            window: w,
        }
    }

    pub fn in_bounds(&self) -> bool {
        (1..=4096).contains(&self.blocks)
            && self.partitions.is_power_of_two()
            && self.partitions <= 64
            && (1..=8).contains(&self.levels)
            && (1..=512).contains(&self.bytes)
            && (1..=self.blocks).contains(&self.places)
            && (1..=32).contains(&self.window)
            && self.blocks <= self.partitions * self.capacity()
    }

    /// The blocks a partition may store, 2^(L-1): what its last level holds.
    pub fn capacity(&self) -> usize {
        1 << (self.levels - 1)
    }

    /// The bytes of memory a store of this shape must be lent. The shape has
    /// to be in bounds.
    pub fn needed(&self) -> usize {
        let slots = self.partitions << (self.levels + 1);
        384 + 6 * self.blocks + 6 * slots + (self.blocks + 1) * self.bytes
    }
}
