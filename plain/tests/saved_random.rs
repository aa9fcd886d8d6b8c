//! Random calls and sessions with saves and loads (document 02, P5): the store
//! goes on as if there had been none, what the documents say of refusals holds,
//! and each wrong rule is told.

use plain::array;
use plain::calls::{Ask, Call, Outcome, Store};
use plain::form::{Form, longest};
use plain::mistakes::Mistake;
use plain::page::page;
use plain::random_session;
use plain::rng::Rng;
use plain::saves::{Saved, met};
use plain::script::{Forms, Script, replay};
use plain::session::Session;
use plain::shape::Shape;
use plain::state::State;
use std::panic::catch_unwind;

const SHAPES: [Shape; 6] = [
    Shape::new(2, 1, 2, 1, 2, 2),
    Shape::new(2, 2, 2, 1, 2, 2),
    Shape::new(4, 1, 3, 1, 4, 3),
    Shape::new(4, 2, 3, 1, 3, 3),
    Shape::new(8, 2, 4, 1, 8, 4),
    Shape::new(8, 4, 2, 1, 8, 3),
];

/// A script without saves.
fn script(shape: Shape, seed: u64) -> Script {
    match seed % 3 {
        0 => Script::new(shape, None, seed, 300),
        1 => Script::beside(shape, seed, 300),
        _ => Script::amid(shape, seed, 300),
    }
}

fn lent(store: &mut Store, ask: Ask, shape: &Shape) -> Outcome {
    store.call(&Call {
        ask,
        memory: shape.needed(),
        words: Vec::new(),
        buffer: longest(shape),
    })
}

/// Saves and loads the store at the state's rest; hands back whether it did.
fn reload(store: &mut Store) -> bool {
    let Some(state) = store.state.clone() else {
        return false;
    };
    let saved = lent(store, Ask::Save, &state.shape);
    assert_eq!(saved.number, if state.is_at_rest() { 0 } else { 16 });
    if saved.number == 0 {
        assert_eq!(
            lent(store, Ask::Load(saved.bytes.clone()), &state.shape).number,
            0
        );
        let loaded = store.state.as_ref().expect("it is loaded");
        assert_eq!(page(loaded), page(&state));
        assert_eq!(loaded.bytes(), saved.bytes);
    }
    saved.number == 0
}

#[test]
fn calls_go_on_as_without_a_load() {
    let mut loads = 0;
    for shape in SHAPES {
        for seed in 0..60 {
            let script = script(shape, seed);
            let mut store = Store::new(Mistake::None);
            let mut rng = Rng::new(seed);
            let often = [100, 50, 10][seed as usize / 3 % 3];
            for (call, outcome) in script.calls.iter().zip(&script.outcomes) {
                assert_eq!(store.call(call), *outcome);
                loads += usize::from(rng.chance(often) && reload(&mut store));
            }
        }
    }
    assert!(loads > 2000, "{loads}");
}

#[test]
fn sessions_print_the_same_with_loads() {
    let mut loads = 0;
    for seed in 0..150 {
        let text = random_session::text(seed, 200);
        let (mut plain, mut loaded) = (Session::new(Mistake::None), Session::new(Mistake::None));
        for line in text.split(|byte| *byte == b'\n') {
            let printed = plain.line(line);
            assert_eq!(printed, loaded.line(line));
            if printed.is_none() {
                break;
            }
            loads += usize::from(loaded.reload());
        }
        assert_eq!(plain.page(), loaded.page());
    }
    assert!(loads > 1000, "{loads}");
}

#[test]
fn the_array_goes_on_through_loads() {
    let mut dropped = 0;
    for (seed, shape) in SHAPES.into_iter().enumerate() {
        let check =
            |mistake, saves| array::check_saving(shape, mistake, seed as u64, 20_000, saves);
        let (numbers, collected) = check(Mistake::None, 10).expect("it is like an array");
        assert!(numbers[16] > 100 && collected > 200, "{numbers:?}");
        let wrong = |mistake| check(mistake, 10).is_err();
        dropped += usize::from(wrong(Mistake::ContentsDropped));
        assert!(wrong(Mistake::SavesBegun), "{shape:?}");
    }
    // With one partition a job is hardly ever unbegun while a block waits.
    assert!(dropped > 3, "{dropped}");
}

fn saving_scripts() -> impl Iterator<Item = Script> {
    let other = Shape::new(3, 2, 2, 2, 2, 2);
    let kinds = [Forms::Own, Forms::Any(other), Forms::Any(SHAPES[3])];
    SHAPES.into_iter().flat_map(move |shape| {
        (0..90).map(move |seed| Script::saving(shape, kinds[seed as usize % 3], seed, 200))
    })
}

#[test]
fn random_sessions_meet_everything() {
    let mut times = Saved::ALL.map(|saved| (saved, 0));
    for script in saving_scripts() {
        let met = met(&script.calls, &script.outcomes);
        for (saved, times) in &mut times {
            *times += met.iter().filter(|other| *other == saved).count();
        }
    }
    let few = |(_, times): &&(Saved, usize)| *times < 20;
    let few: Vec<Saved> = times.iter().filter(few).map(|(saved, _)| *saved).collect();
    // Two sessions are made for these.
    assert_eq!(few, [Saved::TwoBlocks, Saved::TooMany]);
    for (script, saved) in [Script::two_blocks(), Script::later()].iter().zip(few) {
        assert!(met(&script.calls, &script.outcomes).contains(&saved));
    }
}

/// Each mistake is told by many sessions; one in the sums' numbers shows only in
/// forms of two blocks.
#[test]
fn random_sessions_tell_every_mistake() {
    let mut told = Mistake::SAVED.map(|mistake| (mistake, 0));
    for script in saving_scripts() {
        for (mistake, times) in &mut told {
            let (calls, wrong) = (script.calls.clone(), *mistake);
            let replayed = catch_unwind(move || replay(&calls, wrong));
            *times += usize::from(replayed.ok().as_ref() != Some(&script.outcomes));
        }
    }
    let few = |(_, times): &&(Mistake, usize)| *times < 4;
    let few: Vec<_> = told.iter().filter(few).collect();
    assert!(few.is_empty(), "{few:?}");
    let two_blocks = Script::two_blocks();
    let wrong = replay(&two_blocks.calls, Mistake::SumWithoutNumber);
    assert_ne!(wrong, two_blocks.outcomes);
}

/// A save changes nothing, a refused load closes the store, and an accepted one
/// leaves it at rest with the form's fields.
#[test]
fn refusals_and_loads_leave_what_they_should() {
    let mut loads = [0; 2];
    for script in saving_scripts() {
        let mut store = Store::new(Mistake::None);
        for (call, outcome) in script.calls.iter().zip(&script.outcomes) {
            let before = store.state.clone();
            assert_eq!(store.call(call), *outcome);
            let refusal = Outcome {
                number: outcome.number,
                ..Outcome::default()
            };
            if outcome.number != 0 || matches!(call.ask, Ask::Load(_)) {
                assert_eq!(*outcome, refusal);
            }
            match (&call.ask, outcome.number) {
                (Ask::Save, _) => assert_eq!(store.state, before),
                (Ask::Load(form), 0) => {
                    loads[0] += 1;
                    assert!(is_loaded(store.state.as_ref(), form));
                }
                (Ask::Load(_), number) => {
                    loads[1] += 1;
                    assert!([2, 17, 18].contains(&number) && store.state.is_none());
                }
                (Ask::Open(_), _) | (_, 0) => {}
                _ => assert_eq!(store.state, before),
            }
        }
    }
    assert!(loads.iter().all(|times| *times > 500), "{loads:?}");
}

fn is_loaded(state: Option<&State>, form: &[u8]) -> bool {
    let payload = plain::form::sums::out_of_blocks(form);
    let (Some(state), Some((mut fields, _))) = (state, Form::read(&payload)) else {
        return false;
    };
    fields.records.sort_by_key(|record| record.age);
    state.is_at_rest() && state.writing.is_none() && state.form() == fields
}
