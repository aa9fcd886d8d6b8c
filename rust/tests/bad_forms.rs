//! Bytes that no save made, loaded by the linked call (document 02, P5): other
//! lengths, each bit turned, each rule broken alone, other shapes, noise, and
//! forms that are almost right. The number is the model's, a refusal leaves
//! nothing but a closed state, and what loads is what the model loads: its form is
//! the same, and so is what some calls after it answer.

#[path = "common/convert.rs"]
mod convert;
#[path = "common/lent.rs"]
mod lent;
#[path = "common/linked.rs"]
mod linked;

use linked::Linked;
use plain::calls::{Ask, Call, Outcome, Store};
use plain::form::broken::Broken;
use plain::form::{Form, bad, longest, sums};
use plain::mistakes::Mistake;
use plain::rng::Rng;
use plain::script::Script;
use plain::shape::Shape;
use plain::state::State;
use rinwolfedd::calls::{self, STATE};
use std::collections::HashMap;

/// Memory for every shape within bounds, and for those of small forms, which is
/// watched sooner.
const MOST: usize = 2_400_000;
const SOME: usize = 20_000;

/// Loads a form by both, and hands out the number.
fn load(linked: &mut Linked, form: &[u8]) -> u8 {
    load_with(linked, form, linked.memory.bytes().len())
}

fn load_with(linked: &mut Linked, form: &[u8], memory: usize) -> u8 {
    let mut model = Store::new(Mistake::None);
    let loads = Call {
        ask: Ask::Load(form.to_vec()),
        memory,
        words: Vec::new(),
        buffer: 0,
    };
    let outcome = model.call(&loads);
    told(linked, &loads, &outcome);
    if let Some(state) = &model.state {
        saves_as(linked, &mut model.clone(), state);
        goes_on_as(linked, form);
    }
    outcome.number
}

/// Some calls after the load are answered as by the model; they begin with the load
/// once more.
fn goes_on_as(linked: &mut Linked, form: &[u8]) {
    let (fields, _) = Form::read(&sums::out_of_blocks(form)).expect("it loads");
    assert_eq!(fields.bytes(), form, "there is one way to write it");
    let script = Script::loading(&fields, form.len() as u64, 14);
    for (call, outcome) in script.calls.iter().zip(&script.outcomes) {
        let memory = call.memory.min(linked.memory.bytes().len());
        let call = Call {
            memory,
            ..call.clone()
        };
        told(linked, &call, outcome);
    }
}

fn told(linked: &mut Linked, call: &Call, outcome: &Outcome) {
    let told = linked.compare(call, outcome);
    told.unwrap_or_else(|told| panic!("{told}"));
}

/// What was loaded is saved as the model saves it.
fn saves_as(linked: &mut Linked, model: &mut Store, state: &State) {
    let save = Call {
        ask: Ask::Save,
        memory: state.shape.needed(),
        words: Vec::new(),
        buffer: longest(&state.shape) + 3,
    };
    let outcome = model.call(&save);
    assert_eq!(outcome.number, 0);
    told(linked, &save, &outcome);
}

/// Forms of small shapes that the rules let pass, and forms of states that calls
/// left.
fn forms() -> Vec<Form> {
    let mut rng = Rng::new(31);
    let mut forms: Vec<Form> = (0..300)
        .map(|_| {
            let shape = bad::small_shape(&mut rng);
            bad::passable(&mut rng, shape)
        })
        .collect();
    for seed in 0..40 {
        let script = Script::beside(Shape::new(4, 2, 2, 1, 4, 2), seed, 120);
        let mut store = Store::new(Mistake::None);
        let mut last = None;
        for call in &script.calls {
            store.call(call);
            let state = store.state.as_ref().filter(|state| state.is_at_rest());
            last = state.map(State::form).or(last);
        }
        forms.extend(last);
    }
    forms
}

/// A form of more blocks: what is wrong stands behind the first one, too.
fn longer(rng: &mut Rng) -> Form {
    let n = [2, 4, 7, 12][rng.below(4)];
    let bytes = [300, 512, 100][rng.below(3)];
    bad::passable(rng, Shape::new(n, 4, 3, bytes, n, 2))
}

#[test]
fn each_rule_is_asked_by_itself() {
    let (mut linked, mut rng) = (Linked::new(SOME), Rng::new(32));
    let mut times: HashMap<Broken, usize> = HashMap::new();
    let more: Vec<Form> = (0..120).map(|_| longer(&mut rng)).collect();
    for form in forms().iter().chain(&more) {
        assert_eq!(load(&mut linked, &form.bytes()), 0);
        for broken in Broken::ALL {
            if let Some(bytes) = broken.bytes(form) {
                assert_eq!(load(&mut linked, &bytes), 18, "{broken:?} {form:?}");
                *times.entry(broken).or_default() += 1;
            }
        }
    }
    let of = |broken: &Broken| times.get(broken).copied().unwrap_or(0);
    let few: Vec<_> = Broken::ALL.into_iter().filter(|b| of(b) < 20).collect();
    assert!(few.is_empty(), "{few:?}");
}

#[test]
fn other_lengths_are_refused() {
    let (mut linked, mut rng) = (Linked::new(SOME), Rng::new(33));
    let more: Vec<Form> = (0..20).map(|_| longer(&mut rng)).collect();
    for form in forms().iter().take(60).chain(&more) {
        let bytes = form.bytes();
        for other in bad::lengths(&bytes) {
            // of whole blocks each has its sum; a block of zeros has not
            let cut = other.len() < bytes.len() && !other.is_empty();
            let wanted = match other.len() % calls::BLOCK {
                _ if other == bytes => 0,
                0 if cut => 18,
                _ => 17,
            };
            assert_eq!(load(&mut linked, &other), wanted, "{} bytes", other.len());
        }
    }
}

/// Every bit of some forms is turned: a sum tells it. With the sum made right again
/// a rule tells most, and what is left loads, as by the model.
#[test]
fn each_bit_is_turned() {
    let (mut linked, mut rng, mut numbers) = (Linked::new(SOME), Rng::new(34), [0; 19]);
    let long = bad::passable(&mut rng, Shape::new(3, 2, 2, 300, 3, 2));
    for form in forms().iter().step_by(34).chain([&long]) {
        let bytes = form.bytes();
        for other in bad::flips(&bytes) {
            assert_eq!(load(&mut linked, &other), 17);
        }
        for other in bad::summed_flips(&bytes) {
            numbers[usize::from(load(&mut linked, &other))] += 1;
        }
    }
    println!(
        "with right sums: {} load, {} do not",
        numbers[0], numbers[18]
    );
    assert!(numbers[0] > 100 && numbers[18] > 1000, "{numbers:?}");
}

#[test]
fn other_shapes_and_almost_right_forms() {
    let (mut linked, mut rng, mut numbers) = (Linked::new(MOST), Rng::new(35), [[0; 19]; 2]);
    for form in forms() {
        for _ in 0..4 {
            let other = bad::reshaped(&form, bad::small_shape(&mut rng));
            numbers[0][usize::from(load(&mut linked, &other))] += 1;
        }
    }
    let mut linked = Linked::new(SOME);
    for _ in 0..20_000 {
        let shape = bad::small_shape(&mut rng);
        let form = bad::almost(&mut rng, shape);
        numbers[1][usize::from(load(&mut linked, &form.bytes()))] += 1;
    }
    println!(
        "other shapes: {:?}, almost right: {:?}",
        numbers[0], numbers[1]
    );
    assert!(numbers[0][18] > 10 * numbers[0][0] && numbers[0][0] > 0);
    assert!(numbers[1][0] > 1000 && numbers[1][18] > 10_000);
}

/// Random bytes with right sums, of which some have a shape within bounds.
#[test]
fn noise_is_refused() {
    let (mut linked, mut rng) = (Linked::new(SOME), Rng::new(36));
    for round in 0..4000 {
        let mut noise = bad::noise(&mut rng, 1 + round % 3);
        if round % 2 == 0 {
            let shape = bad::small_shape(&mut rng);
            let head = bad::passable(&mut rng, shape).payload();
            let kept = 13 + rng.below(head.len().min(500) - 13);
            noise[..kept].copy_from_slice(&head[..kept]);
            sums::make_right(&mut noise);
        }
        let number = load(&mut linked, &noise);
        assert!(number == 18 || round % 2 == 0, "{number}");
    }
}

/// Each length of memory below what a form's shape needs is answered 2, after 17
/// and 18; a state of any other length than a client's is zeros after it.
#[test]
fn memory_and_states_of_other_lengths() {
    let mut rng = Rng::new(37);
    let shape = Shape::new(3, 2, 2, 2, 3, 2);
    let form = bad::passable(&mut rng, shape);
    let (good, needed) = (form.bytes(), shape.needed());
    let (bad_sum, bad_form) = (
        bad::flips(&good).nth(3).unwrap(),
        Broken::MarkTwo
            .bytes(&form)
            .or(Broken::NumberZero.bytes(&form)),
    );
    let bad_form = bad_form.unwrap();
    let mut linked = Linked::new(needed + 9);
    for memory in 0..needed + 9 {
        let wanted = if memory < needed { 2 } else { 0 };
        assert_eq!(load_with(&mut linked, &good, memory), wanted);
        assert_eq!(load_with(&mut linked, &bad_sum, memory), 17);
        assert_eq!(load_with(&mut linked, &bad_form, memory), 18);
    }
    for length in (0..100).filter(|length| *length != STATE) {
        for (bytes, wanted) in [(&good, 2), (&bad_sum, 17), (&bad_form, 18)] {
            let mut state = lent::Lent::new(&vec![9; length]);
            let mut memory = lent::Lent::new(&vec![9; needed]);
            let answer = calls::load(state.lend(), memory.lend(), bytes);
            assert_eq!(answer.bits(), wanted);
            assert_eq!(state.bytes(), vec![0; length]);
            assert_eq!(memory.bytes(), vec![9; needed]);
            assert!(state.is_sound() && memory.is_sound());
        }
    }
}

/// The longest forms, of the largest shape: whole, cut, and broken at their ends.
#[test]
fn the_longest_forms() {
    let (mut linked, mut rng) = (Linked::new(MOST), Rng::new(38));
    let shape = Shape::new(4096, 64, 8, 512, 4096, 32);
    let form = bad::longest(&mut rng, shape);
    let bytes = form.bytes();
    assert_eq!(bytes.len(), longest(&shape));
    assert_eq!(load(&mut linked, &bytes), 0);
    for broken in Broken::ALL {
        if let Some(bytes) = broken.bytes(&form) {
            assert_eq!(load(&mut linked, &bytes), 18, "{broken:?}");
        }
    }
    assert_eq!(load(&mut linked, &bytes[..bytes.len() - 1]), 17);
    let mut turned = bytes.clone();
    *turned.last_mut().unwrap() ^= 1;
    assert_eq!(load(&mut linked, &turned), 17);
}
