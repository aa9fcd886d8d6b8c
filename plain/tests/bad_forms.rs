//! Bytes that no save made (document 02, P5): each rule broken alone, other
//! lengths, flipped bits, other shapes, noise, and forms that the rules let
//! pass and after which a step may be answered 2.

use plain::calls::{Ask, Call, Store};
use plain::form::broken::Broken;
use plain::form::{Form, Rule, bad, sums};
use plain::mistakes::Mistake;
use plain::rng::Rng;
use plain::saves::{Saved, met};
use plain::script::Script;
use plain::shape::Shape;
use plain::state::State;
use std::collections::HashMap;

/// Memory for every shape within bounds.
const MEMORY: usize = 10_000_000;

fn load_by(mistake: Mistake, form: &[u8]) -> Result<State, u8> {
    let mut store = Store::new(mistake);
    let outcome = store.call(&Call {
        ask: Ask::Load(form.to_vec()),
        memory: MEMORY,
        words: Vec::new(),
        buffer: 0,
    });
    store.state.ok_or(outcome.number)
}

fn load(form: &[u8]) -> Result<State, u8> {
    load_by(Mistake::None, form)
}

/// The form with its records longest waiting first, as a save writes them.
fn in_order(mut form: Form) -> Form {
    form.records.sort_by_key(|record| record.age);
    form
}

/// What is refused is so with 17 or 18; what loads is what saving the loaded
/// state writes, but for the order of the records.
fn check(form: &[u8]) -> u8 {
    match load(form) {
        Err(number) => {
            assert!([17, 18].contains(&number));
            number
        }
        Ok(state) => {
            let (fields, _) = Form::read(&sums::out_of_blocks(form)).expect("it loads");
            assert_eq!(state.form(), in_order(fields));
            assert_eq!(state.bytes().len(), form.len());
            0
        }
    }
}

/// Forms of small shapes that the rules let pass, and forms of states that
/// calls left.
fn forms() -> Vec<Form> {
    let mut rng = Rng::new(5);
    let mut forms: Vec<Form> = (0..400)
        .map(|_| {
            let shape = bad::small_shape(&mut rng);
            bad::passable(&mut rng, shape)
        })
        .collect();
    for seed in 0..40 {
        let script = Script::beside(Shape::new(4, 2, 2, 1, 4, 2), seed, 120);
        forms.extend(last_at_rest(&script));
    }
    forms
}

fn last_at_rest(script: &Script) -> Option<Form> {
    let mut store = Store::new(Mistake::None);
    let mut last = None;
    for call in &script.calls {
        store.call(call);
        let state = store.state.as_ref().filter(|state| state.is_at_rest());
        last = state.map(State::form).or(last);
    }
    last
}

/// Each form that is broken is refused, and whoever does not ask just that rule
/// loads it.
#[test]
fn each_rule_is_asked_by_itself() {
    let mut times: HashMap<Broken, usize> = HashMap::new();
    for form in forms() {
        assert_eq!(check(&form.bytes()), 0);
        for broken in Broken::ALL {
            let Some(bytes) = broken.bytes(&form) else {
                continue;
            };
            assert_eq!(load(&bytes).err(), Some(18), "{broken:?} {form:?}");
            for rule in Rule::FORGOTTEN {
                let loaded = load_by(Mistake::Unasked(rule), &bytes);
                assert_eq!(loaded.is_ok(), rule == broken.rule(), "{broken:?} {form:?}");
            }
            *times.entry(broken).or_default() += 1;
        }
    }
    let of = |broken: &Broken| times.get(broken).copied().unwrap_or(0);
    let few = Broken::ALL.into_iter().filter(|broken| of(broken) < 20);
    assert_eq!(few.collect::<Vec<_>>(), [Broken::Cut]);
}

/// A form of more than one block without its last, or with a block more.
#[test]
fn a_form_has_all_its_blocks() {
    let mut rng = Rng::new(6);
    for (n, b) in [(2, 300), (4, 512), (7, 100)] {
        let shape = Shape::new(n, 4, 3, b, n, 2);
        for _ in 0..20 {
            let form = bad::passable(&mut rng, shape);
            assert_eq!(check(&form.bytes()), 0);
            for broken in [Broken::Cut, Broken::SpareBlock] {
                let bytes = broken.bytes(&form);
                assert!(bytes.is_none_or(|bytes| load(&bytes).err() == Some(18)));
            }
        }
    }
}

#[test]
fn other_lengths_are_refused() {
    for form in forms().iter().take(100) {
        let bytes = form.bytes();
        for other in bad::lengths(&bytes) {
            let wanted = if other == bytes { 0 } else { 17 };
            assert_eq!(check(&other), wanted, "{}", other.len());
        }
    }
}

/// A sum tells every single bit that is turned; with the sum made right again
/// some forms load, as what is turned may be contents, ages or marks.
#[test]
fn flipped_bits_are_refused_by_their_sum() {
    let mut numbers = [0; 19];
    for form in forms().iter().step_by(40) {
        let bytes = form.bytes();
        for other in bad::flips(&bytes) {
            assert_eq!(check(&other), 17);
        }
        for other in bad::summed_flips(&bytes) {
            numbers[usize::from(check(&other))] += 1;
        }
    }
    assert!(numbers[0] > 100 && numbers[18] > 1000, "{numbers:?}");
    assert_eq!(numbers[17], 0);
}

#[test]
fn other_shapes_are_mostly_refused() {
    let mut rng = Rng::new(7);
    let mut numbers = [0; 19];
    for form in forms() {
        for _ in 0..10 {
            let other = bad::reshaped(&form, bad::small_shape(&mut rng));
            numbers[usize::from(check(&other))] += 1;
        }
    }
    assert!(numbers[18] > 10 * numbers[0], "{numbers:?}");
}

#[test]
fn noise_is_refused() {
    let mut rng = Rng::new(8);
    for blocks in 1..4 {
        for _ in 0..2000 {
            assert_eq!(check(&bad::noise(&mut rng, blocks)), 18);
        }
    }
}

/// Forms that are almost right, some of which are.
#[test]
fn damaged_forms_load_or_are_refused() {
    let mut rng = Rng::new(9);
    let mut numbers = [0; 19];
    for _ in 0..20_000 {
        let shape = bad::small_shape(&mut rng);
        let form = bad::almost(&mut rng, shape);
        numbers[usize::from(check(&form.bytes()))] += 1;
    }
    assert!(numbers[0] > 1000 && numbers[18] > 10_000, "{numbers:?}");
}

/// No call after such a load panics, and some turns are answered 2.
#[test]
fn a_later_step_may_answer_2() {
    let mut later = [Saved::NoDummy, Saved::TooMany].map(|saved| (saved, 0));
    let mut rng = Rng::new(10);
    for seed in 0..6000 {
        let shape = bad::small_shape(&mut rng);
        let form = bad::passable(&mut rng, shape);
        let script = Script::loading(&form, seed, 60);
        let met = met(&script.calls, &script.outcomes);
        for (saved, times) in &mut later {
            *times += usize::from(met.contains(saved));
        }
    }
    assert!(later.iter().all(|(_, times)| *times > 8), "{later:?}");
}
