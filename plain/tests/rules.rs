//! Rules that hold of all calls: what a refusal leaves, what a smaller cache
//! changes, and the bound of the memory needed.

use plain::calls::{Ask, Store};
use plain::found::Found;
use plain::mistakes::Mistake;
use plain::script::{Script, replay};
use plain::shape::Shape;
use plain::state::Command;

/// Every second session has many look-ups while a partition is rebuilt.
fn script(shape: Shape, seed: u64, length: usize) -> Script {
    match seed % 2 {
        0 => Script::new(shape, None, seed / 2, length),
        _ => Script::beside(shape, seed / 2, length),
    }
}

#[test]
fn refusals_leave_the_state() {
    for seed in 0..400 {
        let script = script(Shape::new(4, 2, 2, 1, 2, 2), seed, 80);
        let mut store = Store::new(Mistake::None);
        for (call, outcome) in script.calls.iter().zip(&script.outcomes) {
            let before = format!("{:?}", store.state);
            assert_eq!(store.call(call), *outcome);
            if outcome.number != 0 && !matches!(call.ask, Ask::Open(_)) {
                assert_eq!(format!("{:?}", store.state), before);
                assert_eq!((outcome.taken, outcome.command), (0, Command::default()));
                assert!(outcome.bytes.is_empty());
                assert_eq!(outcome.found, Found::Nowhere);
            }
        }
    }
}

#[test]
fn a_smaller_cache_differs_only_from_its_first_8() {
    let mut eights = 0;
    for seed in 0..600 {
        let script = script(Shape::new(4, 2, 2, 1, 4, 2), seed, 86);
        let mut calls = script.calls;
        for call in &mut calls {
            if let Ask::Open(shape) = &mut call.ask
                && shape.places == 4
            {
                shape.places = 1 + seed as usize % 3;
            }
        }
        for (large, small) in script.outcomes.iter().zip(replay(&calls, Mistake::None)) {
            if small.number == 8 {
                eights += 1;
                break;
            }
            assert_eq!(*large, small);
        }
    }
    assert!(eights > 100, "{eights}");
}

#[test]
fn memory_needed_is_within_the_bound() {
    for levels in 1..=8 {
        for (p, b) in [(1, 1), (1, 512), (64, 1), (64, 512)] {
            for n in [1, (p << (levels - 1)).min(4096)] {
                let shape = Shape::new(n, p, levels, b, n, 1);
                let bound = 16 * (n + (1 << levels)) * (b + 16) + 16 * (p << (levels + 1)) + 65_536;
                assert!(shape.in_bounds() && shape.needed() <= bound);
            }
        }
    }
}
