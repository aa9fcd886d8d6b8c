//! What a save and a load cost beside a copy of as many bytes, and beside the plain
//! implementation's: of a store after look-ups, and of the longest form of its
//! shape.

use crate::proved::Proved;
use plain::calls::{Ask, Call, Store};
use plain::form::{bad, longest};
use plain::lookups::{LookUps, Nothing, SHAPES};
use plain::mistakes::Mistake;
use plain::rng::Rng;
use plain::shape::Shape;
use std::hint::black_box;
use std::time::Instant;

/// The parts, of which the best counts.
const PARTS: usize = 100;

/// The bytes of the forms of a part: a longer one is a part of its own.
const BYTES: usize = 100_000;

/// Nanoseconds of a save, of a load and of a copy.
pub struct Saves {
    pub shape: Shape,
    /// How many blocks wait, and the bytes of the form.
    pub waiting: usize,
    pub length: usize,
    pub save: f64,
    pub load: f64,
    pub copy: f64,
    pub plain_save: f64,
    pub plain_load: f64,
}

pub fn all() -> Vec<Saves> {
    SHAPES.into_iter().flat_map(both).collect()
}

/// A store whose jobs are done, and one that could not be longer.
fn both(shape: Shape) -> [Saves; 2] {
    let mut look_ups = LookUps::<Proved, Nothing>::open(shape, 1).expect("the shape is in bounds");
    look_ups.warm_up().expect("no look-up is refused");
    let mut proved = look_ups.client;
    let mut form = vec![0; longest(&shape)];
    let saved = proved.save(&mut form);
    assert_eq!(saved.number(), 0);
    form.truncate(saved.length());
    let longest = bad::longest(&mut Rng::new(1), shape).bytes();
    [form, longest].map(|form| measure(&mut proved, shape, &form))
}

fn measure(proved: &mut Proved, shape: Shape, form: &[u8]) -> Saves {
    assert_eq!(proved.load(form).number(), 0);
    let mut buffer = vec![0; longest(&shape)];
    let mut saves = Saves {
        shape,
        waiting: proved.waiting().into(),
        length: form.len(),
        save: f64::INFINITY,
        load: f64::INFINITY,
        copy: f64::INFINITY,
        plain_save: f64::INFINITY,
        plain_load: f64::INFINITY,
    };
    let mut plain = Store::new(Mistake::None);
    let [loads, writes] = [Ask::Load(form.to_vec()), Ask::Save].map(|ask| Call {
        ask,
        memory: shape.needed(),
        words: Vec::new(),
        buffer: buffer.len(),
    });
    let best = |so_far: &mut f64, time: f64| *so_far = so_far.min(time);
    let each = (BYTES / form.len()).max(1);
    for part in 0..PARTS {
        best(&mut saves.copy, time(each, || copy(&mut buffer, form)));
        best(&mut saves.save, time(each, || proved.save(&mut buffer)));
        best(&mut saves.load, time(each, || proved.load(form)));
        // they are not what is measured, and take long
        if part % 10 == 0 {
            best(&mut saves.plain_load, time(1, || plain.call(&loads)));
            best(&mut saves.plain_save, time(1, || plain.call(&writes)));
        }
    }
    assert_eq!(buffer[..form.len()], plain.saved);
    saves
}

fn copy(buffer: &mut [u8], form: &[u8]) {
    buffer[..form.len()].copy_from_slice(black_box(form));
    black_box(buffer);
}

/// Nanoseconds of one, of so many.
fn time<T>(many: usize, mut one: impl FnMut() -> T) -> f64 {
    let start = Instant::now();
    for _ in 0..many {
        black_box(one());
    }
    start.elapsed().as_nanos() as f64 / many as f64
}
