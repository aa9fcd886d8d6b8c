//! A reader that leaves jobs. Its contents are those of an array, whatever is
//! left, however that changes, and in whichever order hosts complete; its
//! look-ups wait for fewer commands, and errors end it as they do without jobs
//! left. gathered_jobs.rs has readers that let them gather, left_words.rs the words
//! that both lend.

#[path = "common/alike.rs"]
mod alike;
#[path = "common/hosts.rs"]
mod hosts;
#[path = "common/shapes.rs"]
mod shapes;

use alike::look_ups_are_alike;
use hosts::{First, Ordered, Watched};
use plain::rng::Rng;
use rinwolfedd::{Error, FileHost, Found, Host, MemoryHost};
use rinwolfedd::{Reader, Recorded, Refusal, Shape, Waits};
use shapes::{SHAPES, UNHELD, shape, unheld_words};
use std::collections::HashSet;

/// What may be left; the last two are taken as 62.
const MOST: [usize; 9] = [0, 1, 2, 3, 8, 21, 62, 63, usize::MAX];

/// Now and then another number may be left, or jobs are run, in part or all.
fn between<H: Host>(reader: &mut Reader<H>, most: &mut usize, rng: &mut Rng) {
    match rng.below(20) {
        0 => {
            *most = MOST[rng.below(MOST.len())];
            reader.leave_jobs(*most);
        }
        1..5 => {
            let (before, commands) = (reader.jobs_left(), rng.below(50));
            let left = reader.advance(commands).unwrap();
            assert!(left == reader.jobs_left() && left <= before);
        }
        5 => {
            reader.settle().unwrap();
            assert_eq!(reader.jobs_left(), 0);
        }
        _ => {}
    }
}

/// Random reads and writes, held to an array, whatever happens between them.
fn look_ups<H: Host>(shape: Shape, host: H, seed: u64, count: usize) -> H {
    let mut reader = Reader::open(shape, host).unwrap();
    let mut array = vec![vec![0; shape.bytes()]; shape.blocks()];
    let (mut rng, mut met, mut most) = (Rng::new(seed), HashSet::new(), 0);
    for _ in 0..count {
        between(&mut reader, &mut most, &mut rng);
        let block = rng.below(shape.blocks());
        let looked_up = if rng.chance(50) {
            let new = rng.bytes(shape.bytes());
            let old = reader.write(block, &new).unwrap();
            assert_eq!(old.contents, array[block]);
            array[block] = new;
            old
        } else {
            let read = reader.read(block).unwrap();
            assert_eq!(read.contents, array[block]);
            read
        };
        assert_eq!(looked_up.found == Found::Nowhere, met.insert(block));
        assert!(reader.jobs_left() <= most.min(62));
        assert_eq!(reader.jobs_left(), reader.summary().queued());
    }
    reader.settle().unwrap();
    assert_eq!(
        (reader.jobs_left(), reader.tally().total()),
        (0, count as u64)
    );
    assert_eq!(reader.waits().returned().look_ups(), count as u64);
    reader.into_host()
}

#[test]
fn an_array_whatever_is_left() {
    for (seed, shape) in SHAPES.into_iter().enumerate() {
        let seed = seed as u64;
        let host = Watched::new(MemoryHost::new(shape, seed).unwrap());
        let host = look_ups(shape, host, seed, 1500);
        assert!(
            host.outstanding.is_empty(),
            "a settled reader awaits nothing"
        );
        for first in [First::Oldest, First::Newest] {
            let host = Watched::new(Ordered::new(first));
            let host = look_ups(shape, host, !seed, 500);
            assert!(host.outstanding.is_empty());
        }
    }
}

#[test]
fn an_array_in_a_file_whatever_is_left() {
    let name = format!("rinwolfedd-{}-left", std::process::id());
    let path = std::env::temp_dir().join(name);
    let host = FileHost::create(&path, SHAPES[4]).unwrap();
    look_ups(SHAPES[4], host, 4, 500);
    std::fs::remove_file(&path).unwrap();
}

/// For how many commands look-ups of random blocks wait, in a store whose counters
/// have wrapped, with so many jobs left; or in a row, or with pauses in which
/// jobs are done.
fn waits(most: usize, pauses: bool) -> Waits {
    let shape = shape(128, 16, 5, 2, 8);
    let host = MemoryHost::new(shape, 1).unwrap();
    let tape = Rng::new(3).bytes(400_000);
    let (mut reader, mut rng) = (
        Reader::with_words(shape, host, &tape[..]).unwrap(),
        Rng::new(4),
    );
    for block in (0..128).chain((0..512).map(|_| rng.below(128))) {
        reader.write(block, &[1; 2]).unwrap();
    }
    reader.leave_jobs(most);
    reader.take_waits();
    for _ in 0..1000 {
        reader.read(rng.below(128)).unwrap();
        if pauses {
            reader.settle().unwrap();
        }
    }
    *reader.waits()
}

/// The caller waits for the reads of the request alone if jobs are done in
/// pauses, and hardly longer for the contents if the jobs of the look-up before
/// are left; what is sent in all is hardly less, as few of so few jobs are for one
/// partition.
#[test]
fn look_ups_wait_for_fewer_commands() {
    let [whole, paused, row] = [(0, false), (62, true), (2, false)].map(|(n, p)| waits(n, p));
    println!("whole {whole:?}\npaused {paused:?}\nin a row {row:?}");
    assert!(whole.contents().most() <= 5 && whole.returned().mean() > 20.0);
    assert_eq!(paused.returned(), paused.contents());
    assert!(paused.returned().most() <= 5 && paused.returned().mean() < 4.0);
    assert!(row.contents().mean() < whole.returned().mean() / 2.0);
    let ratio = row.returned().mean() / whole.returned().mean();
    assert!((0.9..1.1).contains(&ratio), "all jobs are run");
}

/// No more than 62 are left, however many look-ups come in a row, and so no
/// request is refused for want of room in the queue. Here nothing is ever held.
#[test]
fn a_queue_is_never_full() {
    let (host, words) = (MemoryHost::new(UNHELD, 1).unwrap(), unheld_words());
    let mut reader = Reader::with_words(UNHELD, host, &words[..]).unwrap();
    reader.leave_jobs(usize::MAX);
    for block in 0..32 {
        reader.read(block).unwrap();
        assert_eq!(reader.jobs_left(), 62.min(2 * block + 2));
    }
    reader.leave_jobs(9);
    reader.read(40).unwrap();
    assert_eq!(reader.jobs_left(), 9, "those that are too many are done");
}

/// Of jobs that are left as many commands are sent as asked for, or as there are.
#[test]
fn an_advance_sends_so_many_commands() {
    let shape = shape(31, 8, 4, 2, 7);
    let host = Recorded::new(MemoryHost::new(shape, 1).unwrap());
    let mut reader = Reader::open(shape, host).unwrap();
    assert_eq!(reader.advance(9).unwrap(), 0);
    assert!(reader.host_mut().take().is_empty(), "nothing is left to do");
    reader.leave_jobs(62);
    for block in (0..31).cycle().take(300) {
        reader.read(block).unwrap();
        reader.host_mut().take();
        for commands in [0, 1, 5, 20] {
            let left = reader.advance(commands).unwrap();
            let sent = reader.host_mut().take().len();
            assert!(sent == commands || (left == 0 && sent < commands));
        }
    }
}

/// A host that fails in a look-up or between look-ups ends the reader; what was
/// handed out before is right, and how the store stands is still told.
#[test]
fn a_host_that_fails_midway() {
    let whole = shape(8, 2, 3, 4, 4);
    for completed in 0..600 {
        // with a small cache jobs that were left are run when a look-up is asked for
        let shape = [whole, whole.with_smaller_cache(3)][completed / 300];
        let mut host = Ordered::new([First::Oldest, First::Newest][completed % 2]);
        host.left = completed % 300;
        let mut reader = Reader::open(shape, host).unwrap();
        match completed % 4 {
            3 => reader.gather_jobs(completed % 64),
            some => reader.leave_jobs([1, 4, 62][some]),
        }
        let mut array = [[0; 4]; 8];
        let failed = (0..).find_map(|tag: u32| {
            let new = tag.to_le_bytes();
            let old = match reader.write(tag as usize % 8, &new) {
                Err(Error::Refused(Refusal::CacheFull)) => return None,
                old => old.map(|old| assert_eq!(old.contents, array[tag as usize % 8])),
            };
            array[tag as usize % 8] = new;
            old.and_then(|()| reader.advance(3)).err()
        });
        assert!(matches!(failed, Some(Error::Host(_))) && reader.is_unfinished());
        assert!(matches!(reader.read(0), Err(Error::Unfinished)));
        assert!(matches!(reader.settle(), Err(Error::Unfinished)));
        assert!(matches!(reader.advance(1), Err(Error::Unfinished)));
        assert_eq!(reader.summary().queued(), reader.jobs_left());
    }
}

/// A cache that has no place left may have one after some of the jobs that were
/// left, and no more are run then. Only without any is a look-up refused, and the
/// reader goes on.
#[test]
fn a_small_cache_refuses_once_jobs_are_done() {
    let shape = shape(64, 16, 4, 4, 8).with_smaller_cache(12);
    let (mut rng, host) = (Rng::new(1), MemoryHost::new(shape, 1).unwrap());
    let tape = rng.bytes(800_000);
    let mut reader = Reader::with_words(shape, host, &tape[..]).unwrap();
    reader.leave_jobs(62);
    let mut stored = vec![[0; 4]; 64];
    let [mut refused, mut made_room] = [0, 0];
    for tag in 0..3000u32 {
        let (block, full) = (rng.below(64), reader.summary().waiting() == 12);
        match reader.write(block, &tag.to_le_bytes()) {
            Ok(old) => {
                assert_eq!(old.contents, stored[block]);
                stored[block] = tag.to_le_bytes();
                let room = full && old.found != Found::Cache;
                made_room += usize::from(room && reader.jobs_left() > 2);
            }
            Err(Error::Refused(Refusal::CacheFull)) => {
                assert!(reader.jobs_left() == 0 && !reader.is_unfinished());
                refused += 1;
            }
            Err(error) => panic!("{error:?}"),
        }
    }
    println!("{refused} refused, {made_room} after some jobs made room");
    assert!(refused > 100 && made_room > 100);
}

#[test]
fn look_ups_are_alike_whatever_is_left() {
    for (left, pause) in [(0, 0), (1, 0), (2, 9), (7, 0), (62, 0), (62, 40)] {
        look_ups_are_alike(|reader| reader.leave_jobs(left), pause);
    }
}
