//! The shape of a store.

use crate::calls::{self, BLOCK, LINE, STATE};
use crate::refusal::Refusal;
use std::fmt;

/// The commands outstanding at most, where no other number is asked for.
const WINDOW: usize = 32;

/// The shape of a store: six numbers, each with its bounds, and N at most
/// P × 2^(L−1).
///
/// | number | | bounds |
/// |---|---|---|
/// | N | [`blocks`](Shape::blocks) | 1 to 4,096 |
/// | P | [`partitions`](Shape::partitions) | 1, 2, 4, .. 64 |
/// | L | [`levels`](Shape::levels) of a partition | 1 to 8 |
/// | B | [`bytes`](Shape::bytes) of a block | 1 to 512 |
/// | E | [`places`](Shape::places) in the eviction cache | 1 to N |
/// | W | [`window`](Shape::window): commands outstanding at most | 1 to 32 |
///
/// [`Shape::hiding`] chooses all but N and B, so that look-ups hide their block
/// and are never refused for want of a place in the cache:
///
/// ```
/// use rinwolfedd::Shape;
///
/// let shape = Shape::hiding(4096, 512)?;
/// let text = "4096 blocks of 512 bytes in 64 partitions of 8 levels, 4096 places, window 32";
/// assert_eq!(shape.to_string(), text);
/// # Ok::<(), rinwolfedd::Refusal>(())
/// ```
///
/// [`Shape::new`] asks nothing of its numbers: what takes a shape refuses one
/// that is out of bounds, and [`is_within_bounds`](Shape::is_within_bounds)
/// tells before.
#[derive(Clone, Copy, Debug, PartialEq, Eq, Hash)]
pub struct Shape {
    blocks: usize,
    partitions: usize,
    levels: usize,
    bytes: usize,
    places: usize,
    window: usize,
}

impl Shape {
    /// A shape for so many blocks of so many bytes whose look-ups hide the
    /// block: the cache has a place for each (E = N).
    ///
    /// P is the smallest power of two whose square is at least N, so that
    /// partitions are about as many as the blocks of one. Blocks fall to
    /// partitions by chance, and some get more than their share: L is the
    /// smallest number of levels with which all partitions together have room
    /// for twice the blocks, P × 2^(L−1) ≥ 2N. W is 32.
    ///
    /// # Errors
    ///
    /// [`Refusal::ShapeOutOfBounds`] unless there are 1 to 4,096 blocks of 1 to
    /// 512 bytes.
    pub fn hiding(blocks: usize, bytes: usize) -> Result<Shape, Refusal> {
        let powers = (0..6).map(|power| 1 << power);
        let partitions = { powers }.find(|p| p * p >= blocks).unwrap_or(64);
        let twice = blocks.saturating_mul(2);
        let levels = (1..8).find(|l| partitions << (l - 1) >= twice);
        let shape = Shape::new(blocks, partitions, levels.unwrap_or(8), bytes);
        let within = shape.is_within_bounds().then_some(shape);
        within.ok_or(Refusal::ShapeOutOfBounds)
    }

    /// A shape with P and L as asked for, a place in the cache for every block
    /// (E = N), and W = 32.
    #[must_use]
    pub const fn new(blocks: usize, partitions: usize, levels: usize, bytes: usize) -> Shape {
        Shape {
            blocks,
            partitions,
            levels,
            bytes,
            places: blocks,
            window: WINDOW,
        }
    }

    /// The shape of six numbers as a state and a form have them.
    pub(crate) const fn of_numbers(numbers: [usize; 6]) -> Shape {
        let [blocks, partitions, levels, bytes, places, window] = numbers;
        Shape {
            blocks,
            partitions,
            levels,
            bytes,
            places,
            window,
        }
    }

    /// The same shape with so many commands outstanding at most.
    #[must_use]
    pub const fn with_window(self, window: usize) -> Shape {
        Shape { window, ..self }
    }

    /// The same shape with fewer places in the cache than blocks.
    ///
    /// **It hides less.** A look-up is refused with [`Refusal::CacheFull`]
    /// (number 8) when no place is left for its block. Whether that happens
    /// depends on which blocks were looked up, and the host sees it: nothing is
    /// sent for that look-up. Only up to the first such refusal is everything
    /// hidden as with E = N. The memory that the shape [needs](Shape::needed)
    /// stays the same.
    ///
    /// ```
    /// # use rinwolfedd::Shape;
    /// let hiding = Shape::hiding(1024, 256)?;
    /// let shape = hiding.with_smaller_cache(200);
    /// assert_eq!((shape.blocks(), shape.places()), (1024, 200));
    /// assert!(hiding.hides() && !shape.hides());
    /// assert_eq!(shape.needed(), hiding.needed());
    /// # Ok::<(), rinwolfedd::Refusal>(())
    /// ```
    #[must_use]
    pub const fn with_smaller_cache(self, places: usize) -> Shape {
        Shape { places, ..self }
    }

    /// N, the blocks.
    #[must_use]
    pub const fn blocks(&self) -> usize {
        self.blocks
    }

    /// P, the partitions.
    #[must_use]
    pub const fn partitions(&self) -> usize {
        self.partitions
    }

    /// L, the levels of a partition.
    #[must_use]
    pub const fn levels(&self) -> usize {
        self.levels
    }

    /// B, the bytes of a block.
    #[must_use]
    pub const fn bytes(&self) -> usize {
        self.bytes
    }

    /// E, the places in the eviction cache.
    #[must_use]
    pub const fn places(&self) -> usize {
        self.places
    }

    /// W, the commands outstanding at most.
    #[must_use]
    pub const fn window(&self) -> usize {
        self.window
    }

    /// The six numbers in the document's order, N P L B E W, as
    /// [`calls::open`] takes them.
    #[must_use]
    pub const fn numbers(&self) -> [usize; 6] {
        [
            self.blocks,
            self.partitions,
            self.levels,
            self.bytes,
            self.places,
            self.window,
        ]
    }

    /// Whether the commands hide the block over every list of look-ups: the
    /// cache has a place for every block (E = N).
    #[must_use]
    pub const fn hides(&self) -> bool {
        self.places == self.blocks
    }

    /// Whether the shape is within bounds. The bounds stand in the proved open
    /// alone: it asks for them first, and then for memory, of which none is
    /// lent here.
    #[must_use]
    pub fn is_within_bounds(&self) -> bool {
        calls::open(&mut [0; STATE], &mut [], self.numbers(), &[]).number() != 1
    }

    /// The slots that a host keeps for the store, P × (2^(L+1) − 2), or none
    /// for a shape out of bounds.
    #[must_use]
    pub fn slots(&self) -> Option<usize> {
        self.is_within_bounds()
            .then(|| self.partitions * ((2 << self.levels) - 2))
    }

    /// The bytes of memory that the shape needs (docs/MEMORY.md), or none for
    /// a shape out of bounds.
    #[must_use]
    pub fn needed(&self) -> Option<usize> {
        self.is_within_bounds().then(|| {
            let cells = self.partitions * (2 << self.levels);
            384 + 6 * (self.blocks + cells) + (self.blocks + 1) * self.bytes
        })
    }

    /// The bytes of the longest saved form of the shape, were E = N: those that
    /// a buffer of [`calls::save`] must have, whatever the state and E
    /// (docs/MEMORY.md). None for a shape out of bounds.
    #[must_use]
    pub fn longest_form(&self) -> Option<usize> {
        let slots = self.slots()?;
        let (n, p, b) = (self.blocks, self.partitions, self.bytes);
        let payload = 143 + 2 * p + (7 + b) * n + 2 * slots;
        Some(payload.div_ceil(BLOCK - 4) * BLOCK)
    }

    /// The bytes of the store's [page](crate::Store::page), 29 × (P + 1), or
    /// none for a shape out of bounds.
    #[must_use]
    pub fn page_bytes(&self) -> Option<usize> {
        self.is_within_bounds()
            .then(|| LINE * (self.partitions + 1))
    }
}

impl fmt::Display for Shape {
    fn fmt(&self, f: &mut fmt::Formatter<'_>) -> fmt::Result {
        let (n, p, l, b) = (self.blocks, self.partitions, self.levels, self.bytes);
        write!(f, "{n} blocks of {b} bytes in {p} partitions of {l} levels")?;
        write!(f, ", {} places, window {}", self.places, self.window)
    }
}

/// The fields are out of reach, and no constructor takes E, so that a smaller
/// cache has a name wherever it is asked for. Of these programs only the last
/// compiles.
///
/// ```compile_fail
/// let shape = rinwolfedd::Shape::from_numbers(64, 8, 5, 8, 8, 32);
/// ```
///
/// ```compile_fail
/// let mut shape = rinwolfedd::Shape::new(64, 8, 5, 8);
/// shape.places = 8;
/// ```
///
/// ```
/// let mut shape = rinwolfedd::Shape::new(64, 8, 5, 8);
/// shape = shape.with_smaller_cache(8);
/// # assert_eq!((shape.places(), shape.hides()), (8, false));
/// ```
#[cfg(doctest)]
struct OutOfReach;
