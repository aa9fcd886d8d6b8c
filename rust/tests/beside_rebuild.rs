//! Look-ups while a partition is rebuilt (document 02, P4), followed by hand.
//!
//! The store has two partitions of two levels. In partition 0, block 0, whose byte
//! is 7, is in slot 1 of level 0, and slot 0 holds a dummy; block 1 is nowhere. The
//! only job queued is at the front: it is to read level 0 of partition 0 and to
//! write level 1. jobs_together.rs has look-ups beside several.

use rinwolfedd::{Command, Found, Kind, Refusal, Request, Shape, Store, Tape};

const SHAPE: Shape = Shape::new(3, 2, 2, 1).with_window(4);

/// The host's slots of level 0, as the first job wrote them.
const BYTES: [u8; 2] = [0, 7];

/// What a turn sends; its words are zeros.
fn sent(store: &mut Store) -> Result<Command, Refusal> {
    let (command, _) = store.turn(&mut Tape::new(&[0; 6]))?;
    Ok(command)
}

/// A turn that sends this.
fn sends(store: &mut Store, wanted: &str) -> Command {
    let command = sent(store).unwrap();
    assert_eq!(command.to_string(), wanted);
    command
}

fn complete(store: &mut Store, command: Command) {
    let byte = [BYTES[usize::from(command.slot) % 2]];
    let bytes = match command.kind {
        Kind::Read => &byte[..],
        Kind::Write => &[],
    };
    store.completion(command, bytes).unwrap();
}

fn request(store: &mut Store, block: usize) {
    let read = Request::Read { block };
    store.request(read, &mut Tape::new(&[0; 4])).unwrap();
}

/// Turns that send these, one after the other, each completed at once.
fn run(store: &mut Store, commands: &[&str]) {
    for wanted in commands {
        let command = sends(store, wanted);
        complete(store, command);
    }
}

/// What a collect hands out.
fn collects(store: &mut Store, byte: u8, found: Found) {
    assert_eq!(store.collect(), Ok((&[byte][..], found)));
}

fn rebuilding() -> Store {
    // blocks 0 and 1 are of partition 0, block 2 of partition 1
    let mut store = Store::open(SHAPE, &mut Tape::new(&[0, 0, 0, 0, 1, 0])).unwrap();
    let write = Request::Write {
        block: 0,
        contents: &[7],
    };
    // its partition is 0 again; a job for 0, and one for 1
    let words = [0, 0, 1, 0];
    store.request(write, &mut Tape::new(&words)).unwrap();
    collects(&mut store, 0, Found::Nowhere);
    run(&mut store, &["w 0 0 0", "w 0 0 1", "w 1 0 0", "w 1 0 1"]);
    // a job for 1, and one for 0
    let (read, words) = (Request::Read { block: 2 }, [1, 0, 0, 0]);
    store.request(read, &mut Tape::new(&words)).unwrap();
    run(&mut store, &["r 1 0 1"]);
    collects(&mut store, 0, Found::Nowhere);
    run(&mut store, &["r 1 0 0"]);
    run(&mut store, &["w 1 1 0", "w 1 1 1", "w 1 1 2", "w 1 1 3"]);
    assert_eq!(store.queued(), 1);
    store
}

/// The job draws its order and writes: the request is collected and all that was
/// sent before has completed. The jobs that the collect has queued came too late
/// to run together with it.
fn draws(store: &mut Store) {
    sends(store, "w 0 1 0");
}

/// The request's read begins the job, which goes on with the other slot. The
/// request does not wait for that one, and the job for the collect.
#[test]
fn a_block_that_the_job_has_not_read() {
    let mut store = rebuilding();
    request(&mut store, 0);
    let own = sends(&mut store, "r 0 0 1");
    let of_job = sends(&mut store, "r 0 0 0");
    assert_eq!(store.collect(), Err(Refusal::NotFinished));
    complete(&mut store, own);
    collects(&mut store, 7, Found::Level(0));
    assert_eq!(
        (sent(&mut store), store.queued()),
        (Err(Refusal::NothingToSend), 3)
    );
    complete(&mut store, of_job);
    draws(&mut store);
}

/// The request waits for what the job has sent before, though that is a dummy.
#[test]
fn a_block_beside_a_read_of_the_job() {
    let mut store = rebuilding();
    let of_job = sends(&mut store, "r 0 0 0");
    request(&mut store, 0);
    let own = sends(&mut store, "r 0 0 1");
    complete(&mut store, own);
    assert_eq!(store.collect(), Err(Refusal::NotFinished));
    complete(&mut store, of_job);
    assert_eq!(
        sent(&mut store),
        Err(Refusal::NothingToSend),
        "it is not collected"
    );
    collects(&mut store, 7, Found::Level(0));
    draws(&mut store);
}

/// The job has sent both reads, and the request sends none: the contents are what
/// the job's read brings, or has brought.
#[test]
fn a_block_that_the_job_has_read() {
    for completed in 0..3 {
        let mut store = rebuilding();
        let reads = ["r 0 0 0", "r 0 0 1"].map(|read| sends(&mut store, read));
        for read in &reads[..completed] {
            complete(&mut store, *read);
        }
        request(&mut store, 0);
        for read in &reads[completed..] {
            assert_eq!(sent(&mut store), Err(Refusal::NothingToSend));
            assert_eq!(store.collect(), Err(Refusal::NotFinished));
            complete(&mut store, *read);
        }
        assert_eq!(sent(&mut store), Err(Refusal::NothingToSend));
        collects(&mut store, 7, Found::Level(0));
        draws(&mut store);
    }
}

/// A block that is nowhere costs the lowest-numbered unread item, which is block 0,
/// and waits for it.
#[test]
fn a_block_that_is_nowhere() {
    let mut store = rebuilding();
    request(&mut store, 1);
    let other = sends(&mut store, "r 0 0 1");
    let of_job = sends(&mut store, "r 0 0 0");
    complete(&mut store, of_job);
    assert_eq!(store.collect(), Err(Refusal::NotFinished));
    complete(&mut store, other);
    collects(&mut store, 0, Found::Nowhere);
    draws(&mut store);
}

/// Beside two jobs, and beside one that has drawn its order, a request is held: it
/// is released when the next job is alone at the front.
#[test]
fn a_request_that_is_held() {
    let mut store = rebuilding();
    request(&mut store, 1);
    let reads = ["r 0 0 1", "r 0 0 0"].map(|read| sends(&mut store, read));
    reads
        .into_iter()
        .for_each(|read| complete(&mut store, read));
    collects(&mut store, 0, Found::Nowhere); // two jobs more
    request(&mut store, 0);
    for slot in 0..4 {
        assert_eq!(store.collect(), Err(Refusal::NotFinished));
        let write = sends(&mut store, &format!("w 0 1 {slot}"));
        complete(&mut store, write);
    }
    // the counter is 2 and can grow by 1: of the two that are queued the next runs
    // alone, and writes level 0
    for slot in 0..2 {
        assert_eq!(store.collect(), Err(Refusal::NotFinished));
        let write = sends(&mut store, &format!("w 0 0 {slot}"));
        complete(&mut store, write);
    }
    // both levels are filled, and sources of the last job: block 0, which was
    // gathered, is in level 1, and a read goes to either level
    let reads = [(); 2].map(|()| sent(&mut store).unwrap());
    assert_eq!(
        reads.map(|read| (read.kind, read.level)),
        [(Kind::Read, 0), (Kind::Read, 1)]
    );
    assert_eq!(store.collect(), Err(Refusal::NotFinished));
    store.completion(reads[0], &[0]).unwrap();
    store.completion(reads[1], &[7]).unwrap();
    collects(&mut store, 7, Found::Level(1));
}
