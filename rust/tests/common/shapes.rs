//! Shapes of stores whose jobs are left or gathered: the smallest, one partition,
//! many, and windows from 1 to 32.

use rinwolfedd::Shape;

pub const fn shape(n: usize, p: usize, l: usize, b: usize, w: usize) -> Shape {
    Shape::new(n, p, l, b).with_window(w)
}

pub const SHAPES: [Shape; 7] = [
    shape(1, 1, 1, 1, 1),
    shape(4, 2, 2, 3, 2),
    shape(16, 1, 6, 2, 3),
    shape(31, 8, 4, 16, 7),
    shape(64, 4, 5, 64, 32),
    shape(64, 64, 2, 5, 32),
    shape(256, 16, 5, 3, 32),
];

/// With the words below nothing is ever held in a store of this shape.
pub const UNHELD: Shape = shape(64, 64, 1, 1, 32);

/// Block i is of partition i, for which both its jobs are, if blocks 0 to 31 are
/// looked up one after the other.
pub fn unheld_words() -> Vec<u8> {
    let mut words: Vec<u16> = (0..64).collect();
    for i in 0..32 {
        words.extend([i, i]);
        // the first job draws its order behind the second request
        words.extend((i == 1).then_some(0));
    }
    words.extend([0; 4000]);
    words.into_iter().flat_map(u16::to_le_bytes).collect()
}
