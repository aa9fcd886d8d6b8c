//! Readers that are saved and go on in another program: contents are those of an
//! array as of the last save, and a client that is stale, of another store or
//! damaged is refused.

#[path = "common/folder.rs"]
mod folder;

use folder::Folder;
use plain::rng::Rng;
use rinwolfedd::{Error, FileHost, Host, MemoryHost, NotResumed};
use rinwolfedd::{Reader, Recorded, Resumed, Shape};
use std::fs;
use std::io::{self, ErrorKind, Read};
use std::os::unix::fs::PermissionsExt;
use std::path::Path;

const SHAPE: Shape = Shape::new(24, 4, 4, 6).with_window(5);

/// What the blocks should be.
type Array = Vec<[u8; 6]>;

/// Look-ups of random blocks, reads and writes, held to the array.
fn look_up<H: Host, R: Read>(
    reader: &mut Reader<H, R>,
    array: &mut Array,
    rng: &mut Rng,
    times: usize,
) {
    for _ in 0..times {
        let block = rng.below(array.len());
        if rng.chance(50) {
            assert_eq!(reader.read(block).unwrap().contents, array[block]);
            continue;
        }
        let contents = [rng.step() as u8; 6];
        let before = reader.write(block, &contents).unwrap().contents;
        assert_eq!(before, array[block]);
        array[block] = contents;
    }
}

/// The counter and the jobs of each partition.
fn counters<H: Host, R: Read>(reader: &Reader<H, R>) -> Vec<(usize, usize)> {
    let summary = reader.summary();
    let each = summary.partitions().iter();
    each.map(|of| (of.counter(), of.queued())).collect()
}

/// How many jobs were run by a save, and for which partition: those of one run at
/// most, by which its counter grew, or one with which it fell.
fn run_between(before: &[(usize, usize)], after: &[(usize, usize)]) -> Option<(usize, usize)> {
    let full = (1 << SHAPE.levels()) - 1;
    let both = before.iter().zip(after).enumerate();
    let mut changed = both.filter(|(_, (before, after))| before != after);
    let (q, ((counter, queued), (grown, left))) = changed.next()?;
    assert_eq!(changed.next(), None, "jobs of one partition at most");
    let run = queued - left;
    let counters = match *counter == full {
        true => (1, 1 << (SHAPE.levels() - 1)),
        false => (run, counter + run),
    };
    assert_eq!((run, *grown), counters);
    Some((q, run))
}

fn all_of<H: Host, R: Read>(reader: &mut Reader<H, R>) -> Array {
    let block = |block| reader.read(block).unwrap().contents.try_into().unwrap();
    (0..SHAPE.blocks()).map(block).collect()
}

/// Many seasons: each goes on where the last save left off, and most make look-ups
/// after their save that are lost. Jobs are left at saves, begun and not.
#[test]
fn seasons_go_on_from_the_last_save() {
    let folder = Folder::new("seasons");
    let (slots, client) = (folder.path("slots"), folder.path("client"));
    let mut reader = Reader::open(SHAPE, FileHost::create(&slots, SHAPE).unwrap()).unwrap();
    let (mut rng, mut array) = (Rng::new(41), vec![[0; 6]; SHAPE.blocks()]);
    let [mut back, mut kept, mut jobs] = [0; 3];
    for season in 0..120 {
        reader.leave_jobs(rng.below(12));
        look_up(&mut reader, &mut array, &mut rng, season % 7);
        reader.advance(rng.below(20)).unwrap();
        let before = counters(&reader);
        reader.save(&client).unwrap();
        run_between(&before, &counters(&reader));
        let (left, page) = (reader.jobs_left(), reader.page());
        let mut later = array.clone();
        look_up(&mut reader, &mut later, &mut rng, season % 4);
        drop(reader);
        let host = FileHost::open(&slots, SHAPE).unwrap();
        let (again, resumed) = Reader::load(&client, host).unwrap();
        match resumed {
            Resumed::AsSaved => kept += 1,
            Resumed::RolledBack { slots } => back += usize::from(slots > 0),
        }
        reader = again;
        assert_eq!((reader.jobs_left(), reader.page()), (left, page));
        assert_eq!(reader.tally().total(), 0, "it begins anew");
        jobs += usize::from(left > 0);
    }
    assert_eq!(all_of(&mut reader), array);
    assert!(back > 40 && kept > 20 && jobs > 40, "{back} {kept} {jobs}");
}

/// The host sees the same of a store that is saved and loaded after each look-up as
/// of one that never is, and both bring the same.
#[test]
fn nothing_is_sent_for_a_save() {
    let folder = Folder::new("sent");
    let client = folder.path("client");
    // all words are the same, so that it does not matter which were read ahead
    let words = || io::repeat(0x35);
    let host = || Recorded::new(MemoryHost::new(SHAPE, 3).unwrap());
    let mut whole = Reader::with_words(SHAPE, host(), words()).unwrap();
    let mut saved = Reader::with_words(SHAPE, host(), words()).unwrap();
    let mut rng = Rng::new(42);
    for look_up in 0..200u8 {
        let block = rng.below(SHAPE.blocks());
        let contents = [look_up; 6];
        let before = whole.write(block, &contents).unwrap();
        assert_eq!(saved.write(block, &contents).unwrap(), before);
        assert_eq!(saved.host().commands(), whole.host().commands());
        saved.save(&client).unwrap();
        let (again, resumed) =
            Reader::load_with_words(&client, saved.into_host(), words()).unwrap();
        assert_eq!(resumed, Resumed::AsSaved);
        saved = again;
    }
    assert!(whole.host().commands().len() > 1000);
}

/// A client of an older save and one of another store are told, and nothing is
/// changed: the right one still loads.
#[test]
fn stale_and_foreign_clients_are_refused() {
    let folder = Folder::new("stale");
    let (slots, client, old) = (
        folder.path("slots"),
        folder.path("client"),
        folder.path("old"),
    );
    let mut reader = Reader::open(SHAPE, FileHost::create(&slots, SHAPE).unwrap()).unwrap();
    reader.write(1, b"spring").unwrap();
    let first = reader.save(&client).unwrap();
    fs::copy(&client, &old).unwrap();
    reader.write(1, b"summer").unwrap();
    let second = reader.save(&client).unwrap();
    assert_ne!(first, second);
    reader.write(1, b"autumn").unwrap();
    drop(reader);

    let (others, other) = (folder.path("others"), folder.path("other"));
    let mut reader = Reader::open(SHAPE, FileHost::create(&others, SHAPE).unwrap()).unwrap();
    let third = reader.save(&other).unwrap();
    drop(reader);

    for (path, asked) in [(&old, first), (&other, third)] {
        let host = FileHost::open(&slots, SHAPE).unwrap();
        let refused = Reader::load(path, host).unwrap_err();
        let last = second;
        let wanted = NotResumed::OtherSave { asked, last };
        assert_eq!(refused.not_resumed(), Some(&wanted));
        assert!(matches!(refused, Error::Host(_)));
    }
    let host = FileHost::open(&slots, SHAPE).unwrap();
    let (mut reader, resumed) = Reader::load(&client, host).unwrap();
    assert!(matches!(resumed, Resumed::RolledBack { slots: 1.. }));
    assert_eq!(reader.read(1).unwrap().contents, b"summer");

    let never = Reader::load(&client, MemoryHost::new(SHAPE, 1).unwrap()).unwrap_err();
    assert_eq!(never.not_resumed(), Some(&NotResumed::NeverSaved));
}

/// The store's own client is replaced, and no other file.
#[test]
fn a_save_replaces_no_other_file() {
    let folder = Folder::new("replaces");
    let host = || MemoryHost::new(SHAPE, 1).unwrap();
    let mut reader = Reader::open(SHAPE, host()).unwrap();
    let (client, list) = (folder.path("client"), folder.path("list"));
    for text in [&b""[..], b"genotypes", &[7; 600]] {
        fs::write(&list, text).unwrap();
        let Err(Error::NotSaved(error)) = reader.save(&list) else {
            panic!("it is no client's");
        };
        assert_eq!(error.kind(), ErrorKind::AlreadyExists);
        assert_eq!(fs::read(&list).unwrap(), text);
    }
    reader.save(&client).unwrap();
    reader.save(&client).unwrap();
    reader.save(folder.path("another place")).unwrap();
    reader.save(&client).unwrap();

    let before = fs::read(&client).unwrap();
    let mut other = Reader::open(SHAPE, host()).unwrap();
    for _ in 0..2 {
        let refused = other.save(&client).unwrap_err();
        assert!(matches!(refused, Error::NotSaved(_)), "{refused}");
        assert_eq!(fs::read(&client).unwrap(), before);
        other.save(folder.path("its own")).unwrap();
    }
    // and it is still this store's after a load
    let (mut reader, _) = Reader::load(&client, reader.into_host()).unwrap();
    reader.save(&client).unwrap();
    assert_ne!(fs::read(&client).unwrap(), before);
}

/// Only its owner may read the client, whatever name it is asked for by; nothing
/// else is left behind.
#[test]
fn the_file_of_a_client() {
    let folder = Folder::new("file");
    let (client, link) = (folder.path("client"), folder.path("link"));
    let mut reader = Reader::open(SHAPE, MemoryHost::new(SHAPE, 1).unwrap()).unwrap();
    reader.save(&client).unwrap();
    std::os::unix::fs::symlink(&client, &link).unwrap();
    reader.write(5, b"salmon").unwrap();
    reader.save(&link).unwrap();
    assert!(fs::symlink_metadata(&link).unwrap().is_symlink());
    let mode = fs::metadata(&client).unwrap().permissions().mode();
    assert_eq!(mode & 0o777, 0o600);
    let names = fs::read_dir(&folder.0).unwrap().count();
    assert_eq!(names, 2, "the client and the link");
    let (mut reader, _) = Reader::load(&link, reader.into_host()).unwrap();
    assert_eq!(reader.read(5).unwrap().contents, b"salmon");
}

/// Each byte of the file that is changed, and each end that is missing, is told
/// before the host is asked for anything.
#[test]
fn a_damaged_file_is_not_loaded() {
    let folder = Folder::new("damaged");
    let client = folder.path("client");
    let shape = Shape::new(2, 1, 2, 3);
    let mut reader = Reader::open(shape, MemoryHost::new(shape, 1).unwrap()).unwrap();
    reader.write(1, b"old").unwrap();
    reader.save(&client).unwrap();
    let good = fs::read(&client).unwrap();
    assert_eq!(good.len(), 48 + 512);
    let mut host = reader.into_host();
    for at in 0..good.len() {
        let mut bad = good.clone();
        bad[at] ^= 1 << (at % 8);
        fs::write(&client, &bad).unwrap();
        let Err(Error::NotLoaded(error)) = Reader::load(&client, &mut host) else {
            panic!("byte {at}");
        };
        assert_eq!(error.kind(), ErrorKind::InvalidData);
        fs::write(&client, &good[..at]).unwrap();
        assert!(Reader::load(&client, &mut host).is_err(), "{at} bytes");
    }
    let missing = Reader::load(folder.path("missing"), &mut host).unwrap_err();
    let Error::NotLoaded(error) = &missing else {
        panic!("{missing:?}");
    };
    assert_eq!(error.kind(), ErrorKind::NotFound);
    assert!(error.to_string().contains("missing"), "{error}");
    assert_eq!(missing.to_string(), "there is no saved reader to load");
    fs::write(&client, &good).unwrap();
    let (mut reader, resumed) = Reader::load(&client, &mut host).unwrap();
    assert_eq!(resumed, Resumed::AsSaved);
    assert_eq!(reader.read(1).unwrap().contents, b"old");
}

/// A host of another shape is asked whether the store fits before anything else.
#[test]
fn a_host_that_does_not_fit() {
    let folder = Folder::new("fits");
    let client = folder.path("client");
    let mut reader = Reader::open(SHAPE, MemoryHost::new(SHAPE, 1).unwrap()).unwrap();
    reader.save(&client).unwrap();
    let other = MemoryHost::new(Shape::new(24, 4, 4, 7), 1).unwrap();
    let refused = Reader::load(&client, other).unwrap_err();
    assert!(matches!(&refused, Error::Host(_)) && refused.not_resumed().is_none());
    let loaded = Reader::load(&client, reader.into_host());
    assert!(loaded.is_ok());
}

/// Saves twice, and says how many jobs were run for it: what is sent is of one
/// partition and no more than a run may send, and nothing at the second save.
fn jobs_run_by_a_save(reader: &mut Reader<Recorded<MemoryHost>>, client: &Path) -> usize {
    let before = counters(reader);
    reader.host_mut().take();
    reader.save(client).unwrap();
    let run = run_between(&before, &counters(reader));
    let sent = reader.host_mut().take();
    let (q, jobs) = run.unwrap_or_default();
    assert!(sent.len() <= [0, 30 + 16][jobs.min(1)]);
    assert!(sent.iter().all(|sent| usize::from(sent.partition) == q));
    reader.save(client).unwrap();
    assert!(reader.host_mut().take().is_empty(), "it is at rest");
    jobs
}

/// A job that has begun is run to its end before a save, with those that it took
/// with it, and no other.
#[test]
fn a_save_ends_the_run_that_has_begun() {
    let folder = Folder::new("begun");
    let client = folder.path("client");
    let host = Recorded::new(MemoryHost::new(SHAPE, 1).unwrap());
    let mut reader = Reader::open(SHAPE, host).unwrap();
    reader.write_all([[1; 6]; 24]).unwrap();
    let (mut runs, mut whole) = ([0; 3], 0);
    for round in 0..200 {
        reader.leave_jobs(62);
        for look_up in 0..round % 4 {
            reader.read((7 * round + look_up) % 24).unwrap();
        }
        match round % 8 {
            7 => reader.settle().unwrap(),
            some => drop(reader.advance(some % 5).unwrap()),
        }
        let jobs = jobs_run_by_a_save(&mut reader, &client);
        runs[jobs.min(2)] += 1;
        whole += usize::from(reader.jobs_left() > 0);
        reader = Reader::load(&client, reader.into_host()).unwrap().0;
    }
    println!("none, one or more jobs were run: {runs:?}; {whole} with jobs left");
    assert!(runs.iter().all(|count| *count > 10) && whole > 50);
}

/// A save asks for the words of the run that has begun: for as many as one job may
/// take, or two if it may be of more. Where there are fewer nothing is sent, and
/// the reader goes on.
#[test]
fn words_of_a_run_that_is_saved() {
    let folder = Folder::new("words");
    // an open takes 24, the request 2, and the order of four slots 3; two jobs may
    // take 15 and pass over 32 each
    for words in 24 + 2 + 94..=24 + 2 + 3 + 94 + 1 {
        let source = io::repeat(5).take(2 * words);
        let host = Recorded::new(MemoryHost::new(SHAPE, 1).unwrap());
        let mut reader = Reader::with_words(SHAPE, host, source).unwrap();
        reader.leave_jobs(62);
        reader.read(0).unwrap(); // both jobs are for one partition
        reader.advance(1).unwrap();
        let before = counters(&reader);
        let saved = reader.save(folder.path(&words.to_string()));
        assert_eq!(saved.is_ok(), words >= 24 + 2 + 3 + 94);
        let run = run_between(&before, &counters(&reader));
        assert_eq!(run.map(|(_, jobs)| jobs), saved.is_ok().then_some(2));
        let sent = reader.host().commands().len();
        assert_eq!(sent, [1, 4][usize::from(saved.is_ok())]);
        let none = matches!(saved, Err(Error::Words(_)));
        assert!(none != saved.is_ok() && !reader.is_unfinished());
    }
}
