//! Random calls, compared with the independent model one by one: numbers,
//! words, commands, where blocks were found, saved forms and every lent byte are
//! equal, and no other byte changes. The store is saved and loaded in between.
//! What is told for a request from its release to its collect is the list of the
//! model's partition reader (document 02, P6).
//!
//! `RINWOLFEDD_CALLS` says how many are made; without it, few enough for every
//! day.

#[path = "common/convert.rs"]
mod convert;
#[path = "common/lent.rs"]
mod lent;
#[path = "common/linked.rs"]
mod linked;
#[path = "common/random.rs"]
mod random;
#[allow(dead_code)] // what it says of a call is for damaged.rs
mod view;

use linked::Linked;
use plain::calls::Ask;
use plain::mistakes::Mistake;
use plain::releases::{Releases, Taken};
use plain::saves::Saved;
use plain::shape::Shape;
use random::Random;
use std::collections::BTreeMap;
use std::time::Instant;
use view::decode;
use view::met::{Counts, Watch};

/// Shapes small and large, each with its share of the calls in a hundred.
const SHAPES: [(Shape, usize); 16] = [
    (Shape::new(1, 1, 1, 1, 1, 1), 3),
    (Shape::new(1, 64, 1, 2, 1, 3), 4),
    (Shape::new(2, 2, 1, 2, 1, 2), 4),
    (Shape::new(3, 2, 2, 512, 3, 2), 4),
    (Shape::new(4, 1, 3, 1, 3, 3), 6),
    (Shape::new(8, 2, 3, 3, 8, 4), 10),
    (Shape::new(8, 2, 3, 3, 2, 4), 6),
    (Shape::new(16, 4, 3, 5, 3, 32), 6),
    (Shape::new(31, 8, 4, 16, 31, 7), 10),
    (Shape::new(64, 4, 5, 64, 64, 32), 10),
    (Shape::new(64, 64, 8, 16, 64, 32), 10),
    (Shape::new(128, 1, 8, 4, 128, 32), 8),
    (Shape::new(300, 16, 7, 2, 300, 32), 6),
    (Shape::new(1024, 16, 7, 32, 100, 31), 5),
    (Shape::new(1024, 64, 5, 256, 1024, 32), 4),
    (Shape::new(4096, 64, 8, 512, 4096, 32), 4),
];

/// The calls made where nothing else is said.
const FEW: usize = 200_000;

/// The memory of a shape whose states are looked at after each call, which
/// takes as long as it is large.
const WATCHED: usize = 8192;

/// What was met: how often each number was answered, and a block found at each
/// place, by its number; the most jobs queued, the rebuilds of a full partition,
/// and those with all levels filled; what requests read; in stores of the smaller
/// shapes look-ups while a partition is rebuilt and jobs that run together; and
/// what occurs in saves and loads.
#[derive(Default)]
struct Met {
    numbers: [usize; 19],
    found: [usize; 10],
    most_jobs: usize,
    full: usize,
    wraps: usize,
    reads: Releases,
    beside: Counts,
    saved: BTreeMap<Saved, usize>,
}

/// Makes so many calls and says where the linked calls first depart from the
/// model or from its reader's lists.
fn compare(mut random: Random, calls: usize, met: &mut Met) -> Result<(), String> {
    let shape = random.home;
    let mut linked = Linked::new(random.most_memory());
    let (mut watch, mut before) = (Watch::default(), None);
    for index in 0..calls {
        let (call, outcome) = random.next();
        let left = !random.is_away(); // it is a state that calls left
        let right = random.model.mistake == Mistake::None;
        let state = random.model.state.as_ref();
        let state = state.filter(|_| left && right);
        let told = linked.compare(&call, &outcome);
        let told = told.and_then(|told| met.reads.call(&call, &told, state));
        told.map_err(|told| format!("{shape:?}, call {index}: {told}"))?;
        met.numbers[usize::from(outcome.number)] += 1;
        if shape.needed() <= WATCHED {
            let after = decode(linked.state.bytes(), linked.memory.bytes());
            if let (Some(before), Some(after)) = (&before, &after) {
                met.beside.add(watch.call(before, &call, &outcome, after));
            }
            before = after.filter(|_| left);
        }
        if outcome.number == 0 && call.ask == Ask::Collect {
            met.found[outcome.found.number()] += 1;
        }
    }
    met.most_jobs = met.most_jobs.max(random.most_jobs);
    met.full += random.full;
    met.wraps += random.wraps;
    for saved in random.saving.iter().flat_map(|saving| saving.met()) {
        *met.saved.entry(*saved).or_default() += 1;
    }
    Ok(())
}

#[test]
fn random_calls_answer_as_the_model_does() {
    let (start, calls) = (Instant::now(), random::calls(FEW));
    let mut met = Met::default();
    for (seed, (shape, share)) in SHAPES.into_iter().enumerate() {
        // loads take stores back, and so keep them from what comes late
        let length = (calls * share).div_ceil(200);
        let [without, with] = [Random::new, Random::saving];
        for random in [without, with].map(|make| make(shape, Mistake::None, seed as u64)) {
            let told = compare(random, length, &mut met);
            told.unwrap_or_else(|told| panic!("seed {seed}: {told}"));
        }
    }
    check(&met, calls, start.elapsed().as_secs_f64());
}

/// Prints what was met, and asks that nothing was met too rarely in so many calls.
fn check(met: &Met, calls: usize, seconds: f64) {
    let Met {
        numbers,
        found,
        most_jobs,
        full,
        wraps,
        reads,
        beside,
        saved,
    } = met;
    let made: usize = numbers.iter().sum();
    println!("{made} calls in {seconds:.1} s");
    println!("  numbers 0 to 18: {numbers:?}");
    println!("  found nowhere, in the cache, in level 0 to 7: {found:?}");
    println!("  rebuilds: {full} of a full partition, {wraps} with all levels filled");
    println!("  of {} requests: {:?}", reads.collected, reads.times);
    println!("  beside a rebuild and of runs: {beside:?}");
    println!("  saves and loads: {saved:?}");
    assert!(made >= calls && *most_jobs == 64);
    assert!(found[..5].iter().all(|count| *count > calls / 2000));
    assert!(*full > calls / 2000 && *wraps > calls / 2000);
    assert!(beside.least()[0] > calls / 4000 && beside.damaged_only() == 0);
    assert_eq!(reads.seldom(calls / 40_000), []);
    for (number, count) in numbers.iter().enumerate() {
        assert!(*count > calls / 20_000, "{number} is answered too rarely");
    }
    // sessions are made for the last, in saved_sessions.rs
    for situation in Saved::ALL.iter().filter(|met| **met != Saved::TooMany) {
        let times = saved.get(situation).copied().unwrap_or(0);
        assert!(times > calls / 20_000, "{situation:?} is met {times} times");
    }
}

/// The comparison can fail: it tells a model with any planted mistake of the
/// five calls. (Those in saving are told in saved_sessions.rs.)
#[test]
fn every_mistake_of_a_model_is_told() {
    let saves = |mistake: &Mistake| Mistake::SAVED.contains(mistake);
    for mistake in Mistake::ALL.into_iter().filter(|mistake| !saves(mistake)) {
        let small = SHAPES.iter().filter(|(shape, _)| shape.blocks <= 64);
        let told = { small }.any(|(shape, _)| {
            let random = Random::new(*shape, mistake, 1);
            compare(random, 20_000, &mut Met::default()).is_err()
        });
        assert!(told, "{mistake:?} is not told");
    }
}

/// So can that of the reads: it tells a list of the reader that is taken
/// wrongly.
#[test]
fn every_wrong_list_is_told() {
    for taken in Taken::WRONG {
        let small = SHAPES.iter().filter(|(shape, _)| shape.blocks <= 64);
        let told = { small }.any(|(shape, _)| {
            let mut met = Met {
                reads: Releases::new(taken),
                ..Met::default()
            };
            let random = Random::new(*shape, Mistake::None, 1);
            compare(random, 20_000, &mut met).is_err()
        });
        assert!(told, "a list is taken {taken:?}, and that is not told");
    }
}
