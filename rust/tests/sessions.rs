//! The linked calls replay sessions of the generator that also writes those for
//! the proof checker: numbers, words, commands, where blocks were found and every
//! lent byte are equal, and no byte outside changes. Stores are opened anew with
//! another shape.

#[path = "common/convert.rs"]
mod convert;
#[path = "common/lent.rs"]
mod lent;
#[path = "common/linked.rs"]
mod linked;

use linked::Linked;
use plain::script::Script;
use plain::shape::Shape;

fn compare(first: Shape, second: Option<Shape>, seed: u64, length: usize) -> [usize; 16] {
    let script = Script::new(first, second, seed, length);
    let most = script.calls.iter().map(|call| call.memory).max().unwrap();
    let mut linked = Linked::new(most);
    let mut numbers = [0; 16];
    for (call, outcome) in script.calls.iter().zip(&script.outcomes) {
        let told = linked.compare(call, outcome);
        told.unwrap_or_else(|told| panic!("seed {seed}: {told}"));
        numbers[usize::from(outcome.number)] += 1;
    }
    numbers
}

const SHAPES: [Shape; 8] = [
    Shape::new(1, 1, 1, 1, 1, 1),
    Shape::new(2, 2, 1, 3, 2, 2),
    Shape::new(4, 2, 2, 4, 4, 4),
    Shape::new(4, 2, 2, 4, 1, 1),
    Shape::new(16, 4, 3, 5, 3, 32),
    Shape::new(31, 8, 4, 16, 31, 7),
    Shape::new(64, 4, 5, 8, 9, 3),
    Shape::new(300, 16, 7, 2, 300, 32),
];

#[test]
fn sessions_of_the_model() {
    let mut numbers = [0; 16];
    for (index, first) in SHAPES.into_iter().enumerate() {
        for seed in 0..6 {
            let second = SHAPES[(index + seed) % SHAPES.len()];
            let second = (seed % 3 == 2 && second != first).then_some(second);
            let seen = compare(first, second, seed as u64, 3000);
            for (all, more) in numbers.iter_mut().zip(seen) {
                *all += more;
            }
        }
    }
    for (number, count) in numbers.iter().enumerate() {
        // 7 needs a queue that is nearly full: random_calls.rs has it
        assert!(*count > 0 || number == 7, "no call answers {number}");
    }
}
