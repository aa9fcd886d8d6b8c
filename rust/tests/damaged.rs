//! Damaged state and tables. Bytes that no call wrote are answered too: where
//! a number of the state is out of its range, with 2 and nothing changed; all
//! else as the rules say of the state for which the bytes stand (`view`), in
//! number, words, command, buffer, where a block was found and the state after
//! the call, and so are the page and the saved form of that state. The same view
//! is held to the independent model where nothing is damaged; there the store is
//! saved and loaded, too.
//!
//! `RINWOLFEDD_CALLS` says how many calls are made to damaged states.

#[path = "common/convert.rs"]
mod convert;
#[path = "common/damage.rs"]
mod damage;
#[path = "common/lent.rs"]
mod lent;
#[path = "common/linked.rs"]
mod linked;
#[path = "common/paged.rs"]
mod paged;
#[path = "common/random.rs"]
mod random;
mod view;

use damage::{damage_memory, damage_state, put_to_rest};
use linked::Linked;
use plain::calls::{Ask, Call, Outcome};
use plain::form::longest;
use plain::mistakes::Mistake;
use plain::page;
use plain::rng::Rng;
use plain::shape::Shape;
use plain::state::{READ, WRITE};
use random::Random;
use std::time::Instant;
use view::met::{Counts as Beside, Watch};
use view::step::step;
use view::{View, decode};

/// Shapes with their share of the calls in a thousand.
const SHAPES: [(Shape, usize); 10] = [
    (Shape::new(1, 1, 1, 1, 1, 1), 50),
    (Shape::new(2, 2, 1, 2, 1, 2), 150),
    (Shape::new(4, 2, 2, 3, 4, 4), 200),
    (Shape::new(8, 2, 3, 3, 2, 4), 200),
    (Shape::new(16, 4, 3, 5, 16, 32), 148),
    (Shape::new(31, 8, 4, 16, 31, 7), 140),
    (Shape::new(64, 64, 2, 8, 64, 32), 50),
    (Shape::new(64, 4, 5, 64, 64, 32), 50),
    (Shape::new(300, 16, 7, 2, 300, 32), 10),
    (Shape::new(4096, 64, 8, 512, 4096, 32), 2),
];

/// The calls to damaged states made where nothing else is said.
const FEW: usize = 100_000;

/// The calls made to a state after it was damaged.
const CALLS: usize = 8;

/// How often each number was answered, in range or out of it.
#[derive(Default)]
struct Counts {
    numbers: [usize; 19],
    out_of_range: usize,
    /// Forms of damaged states, and loads of these: those that go and those that
    /// do not.
    saves: usize,
    loads: [usize; 2],
    /// Turns of a state in range that lack a dummy or have no room.
    late: usize,
    /// Pages shown, and those of a state that lists a block too often.
    pages: usize,
    too_often: usize,
    /// States in range whose request is held though nothing holds it, or
    /// released beside a job that would hold it.
    odd: usize,
    /// Collects that told nowhere, the cache and a level.
    told: [usize; 3],
    /// Look-ups while a partition is rebuilt, and jobs that run together, in states
    /// that calls left and in damaged ones.
    left: Beside,
    beside: Beside,
}

fn copy(of: &Linked) -> Linked {
    let mut copy = Linked::new(of.memory.bytes().len());
    copy.state.lend().copy_from_slice(of.state.bytes());
    copy.memory.lend().copy_from_slice(of.memory.bytes());
    copy
}

/// A block, mostly of the partition that is rebuilt.
fn block(view: &View, rng: &mut Rng) -> usize {
    let any = rng.below(view.shape.blocks);
    let mut all = (any..view.shape.blocks).chain(0..any);
    let rebuilt = all.find(|b| view.queue.first() == Some(&view.partition[*b]));
    rebuilt.filter(|_| rng.chance(70)).unwrap_or(any)
}

/// A call that suits the state, so that it comes as far as it can.
fn suited(view: &View, memory: usize, rng: &mut Rng) -> Call {
    let (shape, bytes) = (view.shape, view.shape.bytes);
    let asks = view.request.is_none() || rng.chance(20);
    let ask = match rng.below(8) {
        0..2 if asks => Ask::Request {
            kind: READ,
            block: block(view, rng),
            contents: Vec::new(),
        },
        2 if asks => Ask::Request {
            kind: WRITE,
            block: block(view, rng),
            contents: rng.bytes(bytes),
        },
        2..4 => Ask::Collect,
        4..6 if !view.outstanding.is_empty() => {
            let command = view.outstanding[rng.below(view.outstanding.len())];
            let length = if command.kind == READ { bytes } else { 0 };
            let bytes = rng.bytes(length);
            Ask::Completion { command, bytes }
        }
        _ => Ask::Turn,
    };
    Call {
        ask,
        memory,
        words: rng.tape(1 << shape.levels),
        buffer: bytes,
    }
}

/// Compares the page of a state with that of its view, whose figures add up to
/// N, and hands it out.
fn compare_page(linked: &Linked, view: Option<&View>) -> Option<String> {
    let wanted = view.map(View::page);
    let length = wanted.as_ref().map_or(0, String::len);
    let memory = linked.memory.bytes().len();
    let told = paged::compare(linked, memory, length + 1, wanted.as_deref());
    told.unwrap_or_else(|told| panic!("{told}"));
    wanted
}

/// Saves a state by the call and by its view, and hands out the view's outcome.
fn compare_save(linked: &mut Linked, view: Option<&View>, rng: &mut Rng) -> Outcome {
    let longest = view.map_or(512, |view| longest(&view.shape));
    let call = Call {
        ask: Ask::Save,
        memory: linked.memory.bytes().len(),
        words: Vec::new(),
        buffer: longest + [0, 0, 0, 1][rng.below(4)] - [0, 0, 0, 0, 1][rng.below(5)],
    };
    let outcome = step(&mut view.cloned(), &call);
    let told = linked.compare(&call, &outcome);
    told.unwrap_or_else(|told| panic!("{told}"));
    outcome
}

/// Makes a call to both and compares outcome, bytes and the state after it. Says
/// whether the state was in range and lent its memory, and counts what was met.
fn compare(
    linked: &mut Linked,
    call: &Call,
    watch: &mut Watch,
    beside: &mut Beside,
) -> (bool, Outcome) {
    let before = decode(linked.state.bytes(), linked.memory.bytes());
    let lent = before
        .as_ref()
        .is_some_and(|v| v.shape.needed() <= call.memory);
    let mut view = before.clone();
    let outcome = step(&mut view, call);
    let told = linked.compare(call, &outcome);
    told.unwrap_or_else(|told| panic!("{told}"));
    let after = decode(linked.state.bytes(), linked.memory.bytes());
    // what is out of range stands for no state, before and after
    if before.is_some() || matches!(call.ask, Ask::Open(_) | Ask::Load(_)) {
        assert!(after == view, "the state after {call:?}: {outcome:?}");
    } else {
        assert_eq!((outcome.number, &after), (2, &None));
    }
    if let (Some(before), Some(after)) = (before, after) {
        beside.add(watch.call(&before, call, &outcome, &after));
    }
    (lent, outcome)
}

/// Damages a copy of the state that calls left, and makes some calls to it.
fn damaged(honest: &Linked, random: &mut Random, shape: Shape, counts: &mut Counts) {
    let (mut linked, mut watch) = (copy(honest), Watch::default());
    if random.rng.chance(60) {
        damage_state(linked.state.lend(), shape, &mut random.rng);
    }
    damage_memory(linked.memory.lend(), shape, &mut random.rng);
    if random.rng.chance(20) {
        put_to_rest(linked.state.lend());
    }
    for _ in 0..CALLS {
        let view = decode(linked.state.bytes(), linked.memory.bytes());
        counts.state(&mut linked, view.as_ref(), &mut random.rng);
        let call = match view {
            Some(view) if random.rng.chance(65) => {
                suited(&view, linked.memory.bytes().len(), &mut random.rng)
            }
            _ => random.call(),
        };
        let (in_range, outcome) = compare(&mut linked, &call, &mut watch, &mut counts.beside);
        counts.call(in_range, &call, &outcome);
    }
}

/// Makes a call that nothing is wrong with to all three.
fn honest(linked: &mut Linked, random: &mut Random, watch: &mut Watch, left: &mut Beside) {
    let was_away = random.is_away();
    let (call, outcome) = random.next();
    let mut away = Beside::default();
    let met = match was_away || random.is_away() {
        true => &mut away, // a form that no save made
        false => left,
    };
    let (_, by_view) = compare(linked, &call, watch, met);
    assert_eq!(by_view, outcome, "the view and the model");
    let view = decode(linked.state.bytes(), linked.memory.bytes());
    let by_model = random.model.state.as_ref().map(page::page);
    assert_eq!(compare_page(linked, view.as_ref()), by_model);
}

#[test]
fn damaged_states_are_answered_as_the_rules_say() {
    let (start, calls) = (Instant::now(), random::calls(FEW));
    let mut counts = Counts::default();
    for (seed, (shape, share)) in SHAPES.into_iter().enumerate() {
        let mut random = Random::saving(shape, Mistake::None, 100 + seed as u64);
        let (mut linked, mut watch) = (Linked::new(random.most_memory()), Watch::default());
        for _ in 0..(calls * share / 1000).div_ceil(CALLS) {
            for _ in 0..random.rng.below(12) {
                honest(&mut linked, &mut random, &mut watch, &mut counts.left);
            }
            let shape = random
                .model
                .state
                .as_ref()
                .map_or(shape, |state| state.shape);
            damaged(&linked, &mut random, shape, &mut counts);
        }
    }
    let seconds = start.elapsed().as_secs_f64();
    counts.check(calls, seconds);
}

impl Counts {
    /// The page and the form of a state to which a call is made, and what is odd
    /// in it.
    fn state(&mut self, linked: &mut Linked, view: Option<&View>, rng: &mut Rng) {
        let saved = compare_save(linked, view, rng);
        self.saves += usize::from(saved.number == 0);
        if saved.number == 0 && rng.chance(30) {
            self.load(linked, saved.bytes);
        }
        self.pages += usize::from(compare_page(linked, view).is_some());
        let too_often = view.is_some_and(View::lists_a_block_too_often);
        self.too_often += usize::from(too_often);
        self.odd += usize::from(view.is_some_and(View::is_held_oddly));
    }

    /// Loads the form of a damaged state, which may be none that goes.
    fn load(&mut self, linked: &Linked, form: Vec<u8>) {
        let mut linked = copy(linked);
        let call = Call {
            ask: Ask::Load(form),
            memory: linked.memory.bytes().len(),
            words: Vec::new(),
            buffer: 0,
        };
        let (mut watch, mut beside) = (Watch::default(), Beside::default());
        let (_, outcome) = compare(&mut linked, &call, &mut watch, &mut beside);
        self.loads[usize::from(outcome.number != 0)] += 1;
    }

    fn call(&mut self, in_range: bool, call: &Call, outcome: &Outcome) {
        self.numbers[usize::from(outcome.number)] += 1;
        self.out_of_range += usize::from(!in_range);
        let late = in_range && outcome.number == 2 && matches!(call.ask, Ask::Turn);
        self.late += usize::from(late);
        if outcome.number == 0 && call.ask == Ask::Collect {
            self.told[outcome.found.number().min(2)] += 1;
        }
    }

    /// Prints them, and asks that nothing was met too rarely in so many calls.
    fn check(&self, calls: usize, seconds: f64) {
        let Counts {
            numbers,
            out_of_range,
            saves,
            loads,
            late,
            pages,
            too_often,
            odd,
            told,
            left,
            beside,
        } = self;
        let made: usize = numbers.iter().sum();
        println!("{made} calls to damaged states in {seconds:.1} s");
        println!("  numbers 0 to 18: {numbers:?}");
        println!("  {out_of_range} out of range, {late} turns without a dummy or room");
        println!("  {pages} pages, {too_often} of a state that lists a block too often");
        println!("  {saves} saves; of their forms some loaded and some did not: {loads:?}");
        println!("  {odd} requests held oddly; found nowhere, in the cache, in a level: {told:?}");
        println!("  beside a rebuild and of runs, before the damage: {left:?}");
        println!("  and after it: {beside:?}");
        for (number, count) in numbers.iter().enumerate() {
            assert!(*count > calls / 10_000, "{number} is answered too rarely");
        }
        assert!(made >= calls && *out_of_range > calls / 20 && *late > calls / 1000);
        assert!(*pages > calls / 4 && *too_often > calls / 100 && *odd > calls / 100);
        assert!(told.iter().all(|count| *count > calls / 2000));
        assert!(*saves > calls / 50 && loads.iter().all(|count| *count > calls / 1000));
        assert!(left.least()[0] > calls / 10_000 && left.damaged_only() == 0);
        assert!(beside.least().iter().all(|count| *count > calls / 10_000));
    }
}
