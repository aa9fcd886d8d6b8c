//! Jobs of one partition together (document 02, P7), followed by hand: how many
//! run, what they read and write, and look-ups beside them.
//!
//! Blocks 0 and 1 are of partition 0, which is rebuilt; every other block is of a
//! partition of its own number. All words but those that name partitions are
//! zeros.

use rinwolfedd::{Command, Found, Kind, Refusal, Request, Shape, Store, Tape};

const SHAPE: Shape = Shape::new(16, 16, 3, 1).with_window(32);

/// A request for a block in hand, whose next partition is this one; there is to be
/// a job for `evict`.
fn ask(store: &mut Store, request: Request<'_>, next: u8, evict: u8) {
    let words = [next, 0, evict, 0];
    store.request(request, &mut Tape::new(&words)).unwrap();
}

/// Look-ups of blocks whose partitions have no level filled and no job, so that
/// nothing is sent: each queues a job for its partition, and one for 0.
fn look_up(store: &mut Store, blocks: impl IntoIterator<Item = usize>, next: u8) {
    for block in blocks {
        ask(store, Request::Read { block }, next, 0);
        assert_eq!(store.collect(), Ok((&[0][..], Found::Nowhere)));
    }
}

/// A turn that sends this.
fn sends(store: &mut Store, wanted: &str) -> Command {
    let (command, _) = store.turn(&mut Tape::new(&[0; 40])).unwrap();
    assert_eq!(command.to_string(), wanted);
    command
}

fn complete(store: &mut Store, sent: Command, byte: u8) {
    let bytes = match sent.kind {
        Kind::Read => vec![byte],
        Kind::Write => Vec::new(),
    };
    store.completion(sent, &bytes).unwrap();
}

/// Sends and completes so many commands, or as many as there are. They are told by
/// kind, partition and level, with how many in a row are alike.
fn run(store: &mut Store, most: usize) -> String {
    let mut told: Vec<(String, usize)> = Vec::new();
    for _ in 0..most {
        let sent = store.turn(&mut Tape::new(&[0; 40])).map(|(sent, _)| sent);
        let Ok(sent) = sent else { break };
        complete(store, sent, 0);
        let text = sent.to_string();
        let (alike, _) = text.rsplit_once(' ').unwrap();
        match told.last_mut() {
            Some((last, count)) if last == alike => *count += 1,
            _ => told.push((alike.into(), 1)),
        }
    }
    let told = told.iter().map(|(text, count)| format!("{count} {text}"));
    told.collect::<Vec<String>>().join(", ")
}

/// Of partition 0 the counter, the blocks stored and those that wait, and the
/// jobs.
fn figures(store: &Store) -> [usize; 4] {
    let of = store.summary().partitions()[0];
    [of.counter(), of.stored(), of.waiting(), of.queued()]
}

/// Block 0 gets the byte 7: two jobs for partition 0, which run together. They
/// write level 1, with block 0 in slot 1, and the counter is 2.
fn with_counter_2() -> Store {
    let partitions: Vec<u8> = (0..16).map(|b| if b == 1 { 0 } else { b }).collect();
    let words: Vec<u8> = partitions.into_iter().flat_map(|p| [p, 0]).collect();
    let mut store = Store::open(SHAPE, &mut Tape::new(&words)).unwrap();
    let contents = &[7][..];
    ask(&mut store, Request::Write { block: 0, contents }, 0, 0);
    assert_eq!(store.collect(), Ok((&[0][..], Found::Nowhere)));
    assert_eq!(figures(&store), [0, 0, 1, 2]);
    assert_eq!(run(&mut store, 99), "4 w 0 1");
    assert_eq!(figures(&store), [2, 1, 0, 0]);
    store
}

/// As docs/RULES.md has it: with counter 2 and three jobs the counter grows to 5,
/// level 1 is read, and levels 2 and 0 are written, 8 + 2 slots. Jobs of other
/// partitions that stand between them stay, and all that waited is stored.
#[test]
fn three_jobs_write_two_levels() {
    let mut store = with_counter_2();
    look_up(&mut store, 2..5, 0); // the queue is 2 0 3 0 4 0
    assert_eq!(run(&mut store, 2), "2 w 2 0");
    assert_eq!(figures(&store), [2, 1, 3, 3]);
    assert_eq!(run(&mut store, 14), "4 r 0 1, 8 w 0 2, 2 w 0 0");
    assert_eq!((figures(&store), store.queued()), ([5, 4, 0, 0], 2));
    assert_eq!(run(&mut store, 99), "2 w 3 0, 2 w 4 0");
}

/// The orders of all levels are drawn in the turn of the first write, here by 7
/// and 1 draws: with a word less it is refused.
#[test]
fn all_orders_are_drawn_at_once() {
    let mut store = with_counter_2();
    look_up(&mut store, 2..5, 15);
    assert_eq!(run(&mut store, 6), "2 w 2 0, 4 r 0 1");
    let few = store.turn(&mut Tape::new(&[0; 14])).map(|_| ());
    assert_eq!(few, Err(Refusal::TooFewWords));
    let mut enough = Tape::new(&[0; 16]);
    let (first, _) = store.turn(&mut enough).unwrap();
    assert_eq!((first.to_string(), enough.left()), ("w 0 2 0".into(), 0));
    complete(&mut store, first, 0);
    for _ in 0..9 {
        let (next, _) = store.turn(&mut Tape::new(&[])).unwrap();
        complete(&mut store, next, 0);
    }
    assert_eq!(figures(&store), [5, 1, 0, 0]);
}

/// Up to 7 the counter grows by as many jobs as it can, and those that are left
/// keep their places. With all levels filled one runs alone though another is
/// queued, and the counter falls to 4.
#[test]
fn a_counter_grows_to_7_and_falls() {
    let mut store = with_counter_2();
    look_up(&mut store, 2..5, 15);
    run(&mut store, 99);
    assert_eq!(figures(&store), [5, 1, 0, 0]);
    look_up(&mut store, 5..9, 15); // the queue is 5 0 6 0 7 0 8 0
    assert_eq!(run(&mut store, 2), "2 w 5 0");
    assert_eq!(run(&mut store, 8), "2 r 0 0, 4 w 0 1, 2 w 0 0");
    assert_eq!((figures(&store), store.queued()), ([7, 1, 0, 2], 5)); // 6 7 0 8 0
    assert_eq!(run(&mut store, 4), "2 w 6 0, 2 w 7 0");
    let all = "2 r 0 0, 4 r 0 1, 8 r 0 2, 8 w 0 2";
    assert_eq!(run(&mut store, 22), all);
    assert_eq!((figures(&store), store.queued()), ([4, 1, 0, 1], 2));
    assert_eq!(run(&mut store, 99), "2 w 8 0, 2 w 0 0");
    assert_eq!(figures(&store), [5, 1, 0, 0]);
}

/// Two jobs hold a request until the turn that begins them as one run. Then its
/// reads go before the run's, and it waits for the one that was sent before; the
/// collect queues jobs that are not of the run.
#[test]
fn a_request_is_released_as_a_run_begins() {
    let mut store = with_counter_2();
    look_up(&mut store, 2..4, 15); // the queue is 2 0 3 0
    ask(&mut store, Request::Read { block: 0 }, 0, 9);
    assert_eq!(run(&mut store, 2), "2 w 2 0");
    assert_eq!(store.collect(), Err(Refusal::NotFinished));
    let of_run = sends(&mut store, "r 0 1 0");
    let own = sends(&mut store, "r 0 1 1");
    let later = sends(&mut store, "r 0 1 2");
    complete(&mut store, own, 7);
    assert_eq!(store.collect(), Err(Refusal::NotFinished));
    complete(&mut store, of_run, 0);
    assert_eq!(store.collect(), Ok((&[7][..], Found::Level(1))));
    assert_eq!(figures(&store), [2, 0, 1, 3]);
    complete(&mut store, later, 0);
    // the block may be chosen again, as it waits for 0 once more
    assert_eq!(run(&mut store, 9), "1 r 0 1, 8 w 0 2");
    assert_eq!(figures(&store), [4, 1, 0, 1]);
    assert_eq!(run(&mut store, 99), "2 w 3 0, 2 w 0 0, 2 w 9 0");
}

/// Beside a run of two that has begun, look-ups are served as beside one job; with
/// a job more for the partition they are held until the run has ended.
#[test]
fn look_ups_beside_a_run() {
    let mut store = with_counter_2();
    look_up(&mut store, 2..4, 15);
    assert_eq!(run(&mut store, 3), "2 w 2 0, 1 r 0 1");
    // block 1 is nowhere: the lowest-numbered unread item is block 0
    ask(&mut store, Request::Read { block: 1 }, 15, 9);
    let lowest = sends(&mut store, "r 0 1 1");
    complete(&mut store, lowest, 7);
    assert_eq!(store.collect(), Ok((&[0][..], Found::Nowhere)));
    assert_eq!(figures(&store), [2, 1, 0, 3]);
    // now three are queued, and the run is of two
    ask(&mut store, Request::Read { block: 0 }, 0, 9);
    assert_eq!(run(&mut store, 2), "2 r 0 1");
    for slot in 0..8 {
        assert_eq!(store.collect(), Err(Refusal::NotFinished));
        let write = sends(&mut store, &format!("w 0 2 {slot}"));
        complete(&mut store, write, 0);
    }
    assert_eq!(figures(&store), [4, 1, 0, 1]);
    // a job of another partition is before it
    assert_eq!(store.collect(), Err(Refusal::NotFinished));
    assert_eq!(run(&mut store, 2), "2 w 3 0");
    let own = sends(&mut store, "r 0 2 1");
    complete(&mut store, own, 7);
    assert_eq!(store.collect(), Ok((&[7][..], Found::Level(2))));
}

/// A run that has nothing to read begins with its first write, and has drawn its
/// orders then: a request that its jobs hold is released at its end.
#[test]
fn a_run_that_reads_nothing_releases_nothing() {
    let mut store = with_counter_2();
    look_up(&mut store, 2..4, 15);
    let two = "2 w 2 0, 4 r 0 1, 8 w 0 2, 2 w 3 0";
    assert_eq!(run(&mut store, 99), two);
    look_up(&mut store, 4..6, 15); // the counter is 4, and can grow to 6 without a read
    ask(&mut store, Request::Read { block: 0 }, 0, 9);
    assert_eq!(run(&mut store, 2), "2 w 4 0");
    assert_eq!(figures(&store), [4, 1, 0, 2]);
    for slot in 0..4 {
        let write = sends(&mut store, &format!("w 0 1 {slot}"));
        assert_eq!(store.collect(), Err(Refusal::NotFinished));
        complete(&mut store, write, 0);
    }
    assert_eq!(figures(&store), [6, 1, 0, 0]);
    let dummy = sends(&mut store, "r 0 1 1");
    let own = sends(&mut store, "r 0 2 1");
    complete(&mut store, own, 7);
    complete(&mut store, dummy, 0);
    assert_eq!(store.collect(), Ok((&[7][..], Found::Level(2))));
}
