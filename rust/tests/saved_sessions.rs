//! The linked calls replay sessions with saves and loads (document 02, P5): forms
//! are those of the model byte for byte, a longer buffer keeps its tail, loads
//! answer its numbers, and after each load the store goes on as the model does.
//! Many loads come right after their save; others are of forms that are wrong, of
//! another store or of no save.

#[path = "common/convert.rs"]
mod convert;
#[path = "common/lent.rs"]
mod lent;
#[path = "common/linked.rs"]
mod linked;

use linked::Linked;
use plain::calls::{Ask, Call, Outcome, Store};
use plain::form::{bad, longest};
use plain::mistakes::Mistake;
use plain::rng::Rng;
use plain::saves::{Saved, met};
use plain::script::{Forms, Script, replay};
use plain::shape::Shape;
use plain::state::State;
use std::panic::catch_unwind;

const SHAPES: [Shape; 8] = [
    Shape::new(1, 1, 1, 1, 1, 1),
    Shape::new(2, 1, 2, 1, 2, 2),
    Shape::new(2, 2, 2, 1, 2, 2),
    Shape::new(4, 2, 3, 1, 3, 3),
    Shape::new(8, 2, 4, 5, 8, 4),
    Shape::new(8, 4, 2, 1, 8, 3),
    Shape::new(16, 64, 2, 40, 16, 32),
    Shape::new(60, 1, 7, 30, 60, 32),
];

/// Replays the calls, and hands out how often each number was answered.
fn compare(calls: &[Call], outcomes: &[Outcome]) -> Result<[usize; 19], String> {
    let most = calls.iter().map(|call| call.memory).max();
    let mut linked = Linked::new(most.unwrap_or(0));
    let mut numbers = [0; 19];
    for (call, outcome) in calls.iter().zip(outcomes) {
        linked.compare(call, outcome)?;
        numbers[usize::from(outcome.number)] += 1;
    }
    Ok(numbers)
}

fn same(script: &Script) -> [usize; 19] {
    compare(&script.calls, &script.outcomes).unwrap_or_else(|told| panic!("{told}"))
}

fn scripts() -> impl Iterator<Item = Script> {
    let other = Shape::new(3, 2, 2, 2, 2, 2);
    let kinds = [Forms::Own, Forms::Any(other), Forms::Any(SHAPES[3])];
    SHAPES.into_iter().flat_map(move |shape| {
        (0..60).map(move |seed| Script::saving(shape, kinds[seed as usize % 3], seed, 250))
    })
}

#[test]
fn sessions_with_saves() {
    let mut times = Saved::ALL.map(|saved| (saved, 0));
    let mut numbers = [0; 19];
    let made = [Script::refusals(), Script::later(), Script::two_blocks()];
    for script in scripts().chain(made) {
        for (all, more) in numbers.iter_mut().zip(same(&script)) {
            *all += more;
        }
        let met = met(&script.calls, &script.outcomes);
        for (saved, times) in &mut times {
            *times += met.iter().filter(|other| *other == saved).count();
        }
    }
    println!("numbers 0 to 18: {numbers:?}");
    println!("met: {times:?}");
    let few = |(saved, times): &&(Saved, usize)| *times < if rare(*saved) { 1 } else { 20 };
    let few: Vec<_> = times.iter().filter(few).collect();
    assert!(few.is_empty(), "{few:?}");
    for number in [0, 2, 16, 17, 18] {
        assert!(numbers[number] > 200, "{number} is answered too rarely");
    }
}

/// A session is made for it.
fn rare(saved: Saved) -> bool {
    saved == Saved::TooMany
}

/// Forms that the rules let pass though no save made them: the calls after such a
/// load are answered as by the model, some turns with 2.
#[test]
fn forms_that_no_save_made() {
    let (mut rng, mut numbers) = (Rng::new(21), [0; 19]);
    let mut late = [Saved::NoDummy, Saved::TooMany].map(|saved| (saved, 0));
    for seed in 0..4000 {
        let shape = bad::small_shape(&mut rng);
        let form = bad::passable(&mut rng, shape);
        let script = Script::loading(&form, seed, 60);
        for (all, more) in numbers.iter_mut().zip(same(&script)) {
            *all += more;
        }
        let met = met(&script.calls, &script.outcomes);
        for (saved, times) in &mut late {
            *times += usize::from(met.contains(saved));
        }
    }
    println!("numbers 0 to 18: {numbers:?}, answered 2 later: {late:?}");
    assert!(late.iter().all(|(_, times)| *times > 5), "{late:?}");
}

/// The load that lists of the hiding have: of what the call just before saved, and
/// of nothing if that saved nothing, which closes the store.
#[test]
fn a_load_of_what_was_just_saved() {
    let (shape, mut numbers) = (SHAPES[4], [0; 19]);
    let lent = |ask| Call {
        ask,
        memory: shape.needed(),
        words: Vec::new(),
        buffer: longest(&shape),
    };
    for seed in 0..20 {
        let script = Script::beside(shape, seed, 200);
        let (mut store, mut calls) = (Store::new(Mistake::None), Vec::new());
        for call in script.calls {
            store.call(&call);
            calls.push(call);
            if store.state.as_ref().is_some_and(State::is_at_rest) {
                calls.extend([Ask::Save, Ask::Reload].map(lent));
            }
        }
        calls.extend([Ask::Save, Ask::Turn, Ask::Reload, Ask::Save].map(lent));
        let outcomes = replay(&calls, Mistake::None);
        let told = compare(&calls, &outcomes).unwrap_or_else(|told| panic!("{told}"));
        for (all, more) in numbers.iter_mut().zip(told) {
            *all += more;
        }
    }
    assert!(numbers[0] > 3000 && numbers[17] == 20, "{numbers:?}");
}

/// The comparison can fail: it tells a model with any planted mistake in saving.
#[test]
fn every_mistake_in_saving_is_told() {
    let mut left = Mistake::SAVED.to_vec();
    for script in scripts().chain([Script::two_blocks(), Script::refusals()]) {
        left.retain(|mistake| {
            let (calls, wrong) = (script.calls.clone(), *mistake);
            let replayed = catch_unwind(move || replay(&calls, wrong));
            let Ok(outcomes) = replayed else {
                return false;
            };
            outcomes == script.outcomes || compare(&script.calls, &outcomes).is_ok()
        });
    }
    assert!(left.is_empty(), "{left:?}");
}
