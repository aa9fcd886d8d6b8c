//! The saved form (document 02, P5): worked examples byte by byte, the longest
//! form, and the questions of save and load one by one.

#[path = "common/run.rs"]
mod run;

use plain::calls::{Ask, Call, Outcome, Store};
use plain::form::{Form, Record, Spot, Written, longest};
use plain::mistakes::Mistake;
use plain::shape::Shape;
use run::{Run, read, write};

const SMALL: Shape = Shape::new(2, 1, 2, 1, 2, 1);

impl Run {
    fn save(&mut self) -> Outcome {
        let buffer = longest(&self.state().shape);
        self.save_into(buffer)
    }

    fn save_into(&mut self, buffer: usize) -> Outcome {
        let before = self.store.state.clone();
        let outcome = self.lend(Ask::Save, 1_000_000, buffer);
        assert_eq!(self.store.state, before);
        outcome
    }

    fn load(&mut self, form: &[u8]) -> u8 {
        self.lend(Ask::Load(form.to_vec()), 1_000_000, 0).number
    }

    fn lend(&mut self, ask: Ask, memory: usize, buffer: usize) -> Outcome {
        let words = vec![0; 3];
        self.store.call(&Call {
            ask,
            memory,
            words,
            buffer,
        })
    }
}

/// These bytes, zeros up to 508, and a sum by weights of bytes.
fn block(bytes: &[u8], number: u64) -> Vec<u8> {
    let weight = |(at, byte): (usize, &u8)| u64::from(*byte) << (8 * (at % 4));
    let sum = number + bytes.iter().enumerate().map(weight).sum::<u64>();
    let mut block = bytes.to_vec();
    block.resize(508, 0);
    block.extend(&sum.to_le_bytes()[..4]);
    block
}

/// Block 0 waits with contents 7, and both its jobs are queued.
fn waiting() -> Run {
    let mut run = Run::new(SMALL, &[0, 0]);
    run.serve(write(0, &[7]), [0, 0]);
    assert_eq!(run.queued(), 2);
    run
}

/// Both jobs have put it into slot 1 of level 1, a look-up has read it from
/// there, and the first of the two jobs after that into slot 1 of level 0.
fn stored() -> Run {
    let mut run = waiting();
    for _ in 0..4 {
        run.t(&[0, 0, 0]);
    }
    run.serve(read(0), [0, 0]);
    run.t(&[0]);
    run.t(&[]);
    run
}

#[test]
fn fresh_and_waiting_states_have_these_bytes() {
    let fresh = [
        1, 2, 0, 1, 0, 2, 0, 1, 0, 2, 0, 1, 0, 0, 0, 0, 0, 0, 0, 255, 0, 0, 255,
    ];
    let outcome = Run::new(SMALL, &[0, 0]).save();
    assert_eq!(outcome.bytes, block(&fresh, 0));
    assert_eq!((outcome.number, outcome.taken, outcome.length), (0, 0, 512));
    let with_jobs = [
        1, 2, 0, 1, 0, 2, 0, 1, 0, 2, 0, 1, 0, 0, 0, 2, 0, 0, 0, 0, 0, 0, 0, 254, 0, 0, 255, 0, 0,
        0, 0, 7,
    ];
    assert_eq!(waiting().save().bytes, block(&with_jobs, 0));
}

#[test]
fn levels_have_orders_and_marks() {
    let mut run = stored();
    let all_levels = [
        1, 2, 0, 1, 0, 2, 0, 1, 0, 2, 0, 1, 0, 3, 0, 1, 0, 0, 0, 0, 0, 0, 1, 0, 0, 255, 1, 0, 0, 0,
        1, 2, 3, 0, 0, 1, 0, 0,
    ];
    assert_eq!(run.save().bytes, block(&all_levels, 0));
    // The job is begun by the reads of block 1's request: block 0's slot, and
    // that of item 1 of level 1, whose item 0 has been read.
    assert_eq!(run.number(read(1), &[0, 0]), 0);
    assert_eq!(run.save().number, 16);
    assert_eq!(run.t(&[]).command.slot, 1);
    assert_eq!(run.save().number, 16);
    assert_eq!(run.t(&[]).command.slot, 2);
    assert_eq!(run.call(Ask::Collect, &[]).number, 0);
    assert_eq!((run.state().begun, run.save().number), (1, 16));
}

/// Partition 1 has levels 0 and 1, with items at slots 3, 2, 0 and 1 of the
/// latter; slot 2 has been read.
#[test]
fn levels_go_by_partition_and_then_upward() {
    let form = Form {
        number: 1,
        shape: Shape::new(3, 2, 2, 2, 3, 4),
        counters: vec![1, 3],
        queue: vec![1, 0, 1],
        blocks: vec![
            (1, Spot::Slot { level: 1, slot: 3 }),
            (0, Spot::Waiting),
            (1, Spot::Waiting),
        ],
        levels: vec![
            written(0, 0, &[0, 1], &[1, 1]),
            written(1, 0, &[1, 0], &[0, 1]),
            written(1, 1, &[3, 2, 0, 1], &[0, 0, 1, 0]),
        ],
        records: vec![record(2, 0, &[8, 9]), record(1, 1, &[6, 7])],
    };
    let bytes = [
        1, 3, 0, 2, 0, 2, 0, 2, 0, 3, 0, 4, 0, 1, 0, 3, 0, 3, 0, 1, 0, 0, 0, 1, 0, 1, 0, 1, 3, 0,
        0, 254, 1, 0, 254, 0, 1, 1, 1, 1, 0, 0, 1, 3, 2, 0, 1, 0, 0, 1, 0, 2, 0, 0, 0, 8, 9, 1, 0,
        1, 0, 6, 7,
    ];
    assert_eq!(form.bytes(), block(&bytes, 0));
    let mut run = Run::new(SMALL, &[0, 0]);
    assert_eq!(run.load(&form.bytes()), 0);
    assert_eq!(run.save().bytes, form.bytes());
    // A request for block 2, which waits, is held by two jobs for partition 1.
    assert_eq!(run.number(read(2), &[0, 0]), 0);
    assert!(run.state().request.as_ref().is_some_and(|r| r.is_held()));
}

fn written(partition: usize, level: usize, order: &[usize], marks: &[usize]) -> Written {
    Written {
        partition,
        level,
        order: order.to_vec(),
        marks: marks.to_vec(),
    }
}

fn record(block: usize, age: usize, contents: &[u8]) -> Record {
    Record {
        block,
        age,
        contents: contents.to_vec(),
    }
}

/// All blocks wait, 64 jobs are queued and all levels are filled.
fn full(shape: Shape) -> Form {
    let levels = |p| (0..shape.levels).map(move |level| (p, level));
    let all = (0..shape.partitions).flat_map(levels);
    let in_order = |(partition, level): (usize, usize)| {
        let order: Vec<usize> = (0..2 << level).collect();
        written(partition, level, &order, &vec![1; order.len()])
    };
    Form {
        number: 1,
        shape,
        counters: vec![(1 << shape.levels) - 1; shape.partitions],
        queue: vec![0; 64],
        blocks: vec![(0, Spot::Waiting); shape.blocks],
        levels: all.map(in_order).collect(),
        records: (0..shape.blocks)
            .map(|block| record(block, block, &vec![block as u8; shape.bytes]))
            .collect(),
    }
}

#[test]
fn the_longest_form_is_as_long_as_it_is() {
    for (n, p, l, b) in [
        (1, 1, 1, 1),
        (2, 1, 2, 1),
        (8, 4, 3, 2),
        (5, 2, 5, 77),
        (512, 64, 8, 300),
        (4096, 64, 8, 512),
    ] {
        let shape = Shape::new(n, p, l, b, n, 1);
        let form = full(shape).bytes();
        assert_eq!(form.len(), longest(&shape));
        let payload = 1 + 12 + 2 * p + 2 + 128 + 3 * n + (4 + b) * n + 2 * p * ((2 << l) - 2);
        assert_eq!(form.len(), payload.div_ceil(508) * 512);
        let mut run = Run::new(SMALL, &[0, 0]);
        assert_eq!(
            run.lend(Ask::Load(form.clone()), shape.needed(), 0).number,
            0
        );
        let fewer = Shape { places: 1, ..shape };
        assert_eq!(longest(&fewer), longest(&shape));
        let saved = run.lend(Ask::Save, shape.needed(), form.len());
        assert!(saved.bytes == form && saved.length == form.len());
    }
}

/// The buffer is asked before whether the store is at rest, whatever the form's
/// own length.
#[test]
fn questions_of_a_save_are_in_their_order() {
    let mut run = Run::new(Shape::new(2, 1, 2, 400, 1, 1), &[0, 0]);
    let (needed, buffer) = (run.state().shape.needed(), longest(&run.state().shape));
    assert_eq!((run.save().length, buffer), (512, 1024));
    assert_eq!(run.save_into(buffer - 1).number, 2);
    assert_eq!(run.lend(Ask::Save, needed - 1, buffer).number, 2);
    assert_eq!(run.number(read(0), &[0, 0]), 0);
    let refused = Outcome {
        number: 16,
        ..Outcome::default()
    };
    assert_eq!(run.save_into(buffer + 5), refused);
    assert_eq!(run.save_into(buffer - 1).number, 2);
    assert_eq!(run.lend(Ask::Save, needed - 1, buffer).number, 2);
    run.store = Store::new(Mistake::None);
    assert_eq!(run.lend(Ask::Save, needed, buffer).number, 2);
}

/// A loaded state has no job begun, and a refused load leaves a closed one.
#[test]
fn questions_of_a_load_are_in_their_order() {
    let mut run = stored();
    let form = run.save().bytes;
    let needed = SMALL.needed();
    let mut wrong = form.clone();
    wrong[0] = 9;
    wrong[508] = wrong[508].wrapping_add(8);
    let mut unsummed = wrong.clone();
    unsummed[508] ^= 1;
    for (bytes, memory, number) in [
        (&form[..511], 0, 17),
        (&[][..], 0, 17),
        (&unsummed, 0, 17),
        (&wrong, 0, 18),
        (&form, needed - 1, 2),
    ] {
        assert_eq!(run.load(&form), 0);
        assert!(run.state().is_at_rest());
        assert_eq!(run.t(&[]).number, 0);
        assert_eq!(run.state().begun, 1);
        let outcome = run.lend(Ask::Load(bytes.to_vec()), memory, 0);
        assert_eq!(outcome.number, number);
        assert_eq!(run.store.state, None);
        assert_eq!(run.number(Ask::Turn, &[]), 2);
    }
    assert_eq!(run.lend(Ask::Load(form), needed, 0).number, 0);
}

/// A load that comes later than its save, with a request in hand and commands
/// outstanding, brings the state of the save.
#[test]
fn a_load_forgets_what_is_in_hand() {
    let mut run = stored();
    let (form, before) = (run.save().bytes, run.state().form());
    assert_eq!(run.number(write(1, &[3]), &[0, 0]), 0);
    assert_eq!(run.call(Ask::Turn, &[]).number, 0);
    assert_eq!(run.load(&form), 0);
    let state = run.state();
    assert!(state.request.is_none() && state.outstanding.is_empty() && state.begun == 0);
    assert_eq!((state.form(), state.writing), (before, None));
    assert_eq!(run.number(Ask::Collect, &[]), 13);
}
