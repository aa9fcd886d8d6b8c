//! The plain implementation's shapes and words as the linked calls take them.

use plain::shape::Shape;

/// The six numbers in the document's order.
pub fn numbers(h: Shape) -> [usize; 6] {
    [
        h.blocks,
        h.partitions,
        h.levels,
        h.bytes,
        h.places,
        h.window,
    ]
}

/// A tape as it lies in memory, which on a little-endian machine is low byte
/// first.
pub fn tape(words: &[u16]) -> &[u8] {
    const { assert!(cfg!(target_endian = "little")) };
    // Safety: a slice of words is twice as many bytes.
    unsafe { std::slice::from_raw_parts(words.as_ptr().cast(), 2 * words.len()) }
}
