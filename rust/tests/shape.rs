//! Shapes: those that `Shape::hiding` chooses, for every number of blocks, and
//! what the other constructors keep.

use rinwolfedd::{MemoryHost, Reader, Refusal, Shape};

fn in_bounds_by_the_plain_rules(h: Shape) -> bool {
    let [n, p, l, b, e, w] = h.numbers();
    plain::shape::Shape::new(n, p, l, b, e, w).in_bounds()
}

#[test]
fn hiding_chooses_a_shape_within_bounds_for_every_number_of_blocks() {
    for blocks in 1..=4096 {
        let shape = Shape::hiding(blocks, 1 + blocks % 512).unwrap();
        let (p, l) = (shape.partitions(), shape.levels());
        assert!(shape.is_within_bounds() && in_bounds_by_the_plain_rules(shape));
        assert_eq!((shape.blocks(), shape.places()), (blocks, blocks));
        assert_eq!((shape.bytes(), shape.window()), (1 + blocks % 512, 32));
        // P is the smallest power of two whose square is at least N
        assert!(p.is_power_of_two() && p <= 64 && p * p >= blocks, "{shape}");
        assert!(p == 1 || (p / 2) * (p / 2) < blocks, "{shape}");
        // L is the smallest with room for twice the blocks
        assert!(l <= 8 && p << (l - 1) >= 2 * blocks, "{shape}");
        assert!(l == 1 || p << (l - 2) < 2 * blocks, "{shape}");
    }
}

#[test]
fn hiding_refuses_blocks_and_bytes_out_of_bounds() {
    let refused = Err(Refusal::ShapeOutOfBounds);
    for blocks in [0, 4097, 8192, 1 << 32, 1 << 63, usize::MAX] {
        assert_eq!(Shape::hiding(blocks, 8), refused);
    }
    for bytes in [0, 513, 1 << 32, usize::MAX] {
        assert_eq!(Shape::hiding(64, bytes), refused);
    }
    assert!(Shape::hiding(1, 1).is_ok() && Shape::hiding(4096, 512).is_ok());
}

#[test]
fn a_hiding_store_holds_every_block() {
    for blocks in [1, 2, 3, 5, 17, 64, 65, 255, 1025] {
        let shape = Shape::hiding(blocks, 2).unwrap();
        let host = MemoryHost::new(shape, 1).unwrap();
        let mut reader = Reader::open(shape, host).unwrap();
        let contents = |block: usize| (block as u16).to_le_bytes();
        for block in 0..blocks {
            reader.write(block, &contents(block)).unwrap();
        }
        for block in 0..blocks {
            assert_eq!(reader.read(block).unwrap().contents, contents(block));
        }
    }
}

#[test]
fn each_constructor_keeps_its_numbers() {
    let shape = Shape::new(64, 4, 5, 8);
    assert_eq!(shape.numbers(), [64, 4, 5, 8, 64, 32]);
    assert_eq!(shape.with_window(7).numbers(), [64, 4, 5, 8, 64, 7]);
    let small = shape.with_window(7).with_smaller_cache(9);
    assert_eq!(small.numbers(), [64, 4, 5, 8, 9, 7]);
    let (n, p, l, b) = (
        small.blocks(),
        small.partitions(),
        small.levels(),
        small.bytes(),
    );
    assert_eq!(
        small.numbers(),
        [n, p, l, b, small.places(), small.window()]
    );
    assert!(small.is_within_bounds());
    assert!(!shape.with_window(33).is_within_bounds());
    assert!(!shape.with_smaller_cache(0).is_within_bounds());
    assert!(!shape.with_smaller_cache(65).is_within_bounds());
}

/// Only a shape whose cache has a place for every block hides; one with fewer
/// has been asked for by name.
#[test]
fn only_a_place_for_every_block_hides() {
    let shape = Shape::new(64, 4, 5, 8);
    assert!(shape.hides() && shape.with_window(1).hides());
    assert!(Shape::hiding(1000, 8).unwrap().hides());
    assert!(!shape.with_smaller_cache(63).hides());
    assert!(shape.with_smaller_cache(63).with_smaller_cache(64).hides());
}

/// The memory needed is that of the formula within bounds, and none elsewhere,
/// as the slots and the bytes of a page are.
#[test]
fn only_a_shape_within_bounds_needs_memory() {
    assert_eq!(Shape::new(1, 1, 1, 1).needed(), Some(416));
    assert_eq!(Shape::new(64, 4, 5, 64).needed(), Some(6464));
    let mut within = 0;
    for (n, p, l) in (0..10).flat_map(|n| (0..5).flat_map(move |p| (0..10).map(move |l| (n, p, l))))
    {
        for (e, w, b) in [
            (n, 32, 4),
            (1, 1, 512),
            (n + 1, 1, 1),
            (n, 33, 1),
            (n, 1, 0),
        ] {
            let shape = Shape::new(n, p, l, b).with_window(w).with_smaller_cache(e);
            let there = in_bounds_by_the_plain_rules(shape);
            assert_eq!(shape.needed().is_some(), there, "{shape}");
            assert_eq!(shape.slots().is_some(), there, "{shape}");
            assert_eq!(shape.page_bytes().is_some(), there, "{shape}");
            assert_eq!(shape.longest_form().is_some(), there, "{shape}");
            within += usize::from(there);
        }
    }
    assert!(within > 100);
    let far = usize::MAX;
    let far = Shape::new(far, far, far, far);
    assert_eq!((far.needed(), far.page_bytes()), (None, None));
    assert_eq!(far.longest_form(), None);
}

/// The formula of docs/MEMORY.md, and that of the independent implementation.
#[test]
fn the_longest_form_is_that_of_the_formula() {
    let of = |n, p, l, b| Shape::new(n, p, l, b).longest_form();
    assert_eq!(of(1, 1, 1, 1), Some(512));
    assert_eq!(of(64, 4, 5, 64), Some(5632));
    assert_eq!(of(1024, 16, 7, 256), Some(280_064));
    assert_eq!(of(4096, 64, 8, 512), Some(2_208_768));
    for blocks in 1..=4096 {
        let shape = Shape::hiding(blocks, 1 + 7 * blocks % 512).unwrap();
        let smaller = shape.with_smaller_cache(1).with_window(1);
        let [n, p, l, b, e, w] = smaller.numbers();
        let plain = plain::form::longest(&plain::shape::Shape::new(n, p, l, b, e, w));
        assert_eq!(smaller.longest_form(), Some(plain));
        assert_eq!(shape.longest_form(), Some(plain), "E has no part in it");
    }
}
