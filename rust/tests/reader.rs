//! Whole look-ups through the reader: an array's contents with hosts that
//! complete in any order, W commands outstanding, and the commands that a
//! plain client sends from the same words.

#[path = "common/hosts.rs"]
#[allow(dead_code)] // the order of completion is for jobs_left.rs
mod hosts;

use hosts::Watched;
use plain::rng::Rng;
use rinwolfedd::{Command, Error, FileHost, Found, Host, Kind, LookedUp, MemoryHost};
use rinwolfedd::{Progress, Reader, Recorded, Refusal, Shape, Tally};
use std::collections::HashSet;
use std::io;

const fn shape(n: usize, p: usize, l: usize, b: usize, w: usize) -> Shape {
    Shape::new(n, p, l, b).with_window(w)
}

const SHAPES: [Shape; 6] = [
    shape(1, 1, 1, 1, 1),
    shape(4, 2, 2, 3, 2),
    shape(31, 8, 4, 16, 7),
    shape(64, 4, 5, 64, 32),
    shape(128, 1, 8, 4, 32),
    shape(256, 16, 5, 512, 32),
];

/// Random reads and writes, held to an array. A block is found nowhere the first
/// time and never again, and the tally has what each look-up told.
fn look_ups<H: Host>(shape: Shape, host: H, seed: u64, count: usize) -> H {
    let mut reader = Reader::open(shape, host).unwrap();
    let mut array = vec![vec![0; shape.bytes()]; shape.blocks()];
    let (mut rng, mut told, mut met) = (Rng::new(seed), Vec::new(), HashSet::new());
    let mut buffer = vec![0; shape.bytes()];
    for _ in 0..count {
        let block = rng.below(shape.blocks());
        let found = match rng.below(3) {
            0 => {
                let LookedUp { contents, found } = reader.read(block).unwrap();
                assert_eq!(contents, array[block]);
                found
            }
            1 => {
                let found = reader.read_into(block, &mut buffer).unwrap();
                assert_eq!(buffer, array[block]);
                found
            }
            _ => {
                let new = rng.bytes(shape.bytes());
                let LookedUp { contents, found } = reader.write(block, &new).unwrap();
                assert_eq!(contents, array[block]);
                array[block] = new;
                found
            }
        };
        assert_eq!(found == Found::Nowhere, met.insert(block));
        told.push(found);
    }
    assert_eq!(tallied(reader.tally()), counted(shape, &told));
    assert_eq!(reader.tally().total(), count as u64);
    reader.into_host()
}

/// The figures of a tally: nowhere, in the cache, in each level.
fn tallied(tally: &Tally) -> Vec<u64> {
    let levels = tally.levels().iter().copied();
    [tally.nowhere(), tally.cache()]
        .into_iter()
        .chain(levels)
        .collect()
}

/// The same of what look-ups told.
fn counted(shape: Shape, told: &[Found]) -> Vec<u64> {
    let mut figures = vec![0; 2 + shape.levels()];
    for found in told {
        figures[usize::from(found.number())] += 1;
    }
    figures
}

#[test]
fn an_array_with_a_host_in_memory() {
    for (seed, shape) in SHAPES.into_iter().enumerate() {
        let seed = seed as u64;
        look_ups(shape, MemoryHost::new(shape, seed).unwrap(), seed, 700);
    }
}

#[test]
fn the_window_fills_and_completions_overtake() {
    for window in [1, 2, 5, 32] {
        let shape = shape(64, 2, 6, 8, window);
        let host = Watched::new(MemoryHost::new(shape, 9).unwrap());
        let host = look_ups(shape, host, 3, 300);
        assert_eq!(host.most, window);
        assert!(host.outstanding.is_empty(), "a look-up runs to its end");
        assert_eq!(host.overtook > 100, window > 1);
    }
}

/// A host that brings what it likes.
struct Forgetful(MemoryHost);

impl Host for Forgetful {
    fn submit(&mut self, command: Command, bytes: &[u8]) -> io::Result<()> {
        self.0.submit(command, bytes)
    }

    fn next_completed(&mut self, buffer: &mut [u8]) -> io::Result<Command> {
        let command = self.0.next_completed(buffer);
        buffer.reverse();
        command
    }
}

#[test]
#[should_panic(expected = "left == right")]
fn a_host_that_brings_other_bytes_is_noticed_here() {
    let shape = SHAPES[2];
    let host = Forgetful(MemoryHost::new(shape, 1).unwrap());
    look_ups(shape, host, 1, 700);
}

/// What is sent next does not wait for what happens to complete first.
#[test]
fn the_order_of_completion_leaves_the_commands_alone() {
    let shape = shape(16, 4, 3, 4, 8);
    let mut rng = Rng::new(5);
    let tape = rng.bytes(60_000);
    let seen = [1, 2].map(|seed| {
        let host = Recorded::new(MemoryHost::new(shape, seed).unwrap());
        let mut reader = Reader::with_words(shape, host, &tape[..]).unwrap();
        for block in 0..16 {
            reader.write(block, &[block as u8; 4]).unwrap();
        }
        reader.host_mut().take()
    });
    assert!(seen[0].len() > 100);
    assert_eq!(seen[0], seen[1]);
}

#[test]
fn a_recorded_host_has_all_commands_in_order() {
    let shape = shape(1, 1, 1, 1, 1);
    // the worked session of the document: its words, and what its host sees
    let mut words = [0; 160];
    words[2 * 3] = 1;
    let host = Recorded::new(MemoryHost::new(shape, 1).unwrap());
    let mut reader = Reader::with_words(shape, host, &words[..]).unwrap();
    let before = reader.write(0, &[7]).unwrap();
    assert_eq!((before.contents, before.found), (vec![0], Found::Nowhere));
    let text: Vec<String> = reader
        .host_mut()
        .take()
        .iter()
        .map(Command::to_string)
        .collect();
    let first = [
        "w 0 0 0", "w 0 0 1", "r 0 0 0", "r 0 0 1", "w 0 0 0", "w 0 0 1",
    ];
    assert_eq!(text, first);
    let stored = reader.read(0).unwrap();
    assert_eq!((stored.contents, stored.found), (vec![7], Found::Level(0)));
    assert_eq!(reader.host().commands()[0].to_string(), "r 0 0 1");
    assert_eq!(reader.host().commands()[0].kind, Kind::Read);
}

#[test]
fn an_array_with_a_host_in_a_file() {
    for (seed, shape) in SHAPES.into_iter().enumerate() {
        let file = Temporary::new(&format!("array-{seed}"));
        let host = FileHost::create(&file.0, shape).unwrap();
        let host = look_ups(shape, host, seed as u64, 300);
        host.sync().unwrap();
        // another store in the same file begins with zeros
        drop(host);
        let length = shape.slots().unwrap() * shape.bytes();
        assert_eq!(std::fs::metadata(&file.0).unwrap().len(), length as u64);
        look_ups(shape, FileHost::reuse(&file.0, shape).unwrap(), 1, 100);
    }
}

/// A path in the folder for temporary files, removed in the end.
struct Temporary(std::path::PathBuf);

impl Temporary {
    fn new(name: &str) -> Temporary {
        let name = format!("rinwolfedd-{}-{name}", std::process::id());
        Temporary(std::env::temp_dir().join(name))
    }
}

impl Drop for Temporary {
    fn drop(&mut self) {
        let _ = std::fs::remove_file(&self.0);
    }
}

#[test]
fn write_all_says_how_many_are_stored() {
    let shape = shape(64, 4, 5, 2, 8);
    let mut reader = Reader::open(shape, MemoryHost::new(shape, 1).unwrap()).unwrap();
    let mut said = Vec::new();
    let contents = (0..50u8).map(|tag| [tag, 1]);
    let stored = reader.write_all_with(contents, |stored| said.push(stored));
    assert_eq!(stored.unwrap(), 50);
    assert_eq!(said, (1..=50).collect::<Vec<usize>>());
    assert_eq!(reader.read(49).unwrap().contents, [49, 1]);
    assert_eq!(reader.read(50).unwrap().contents, [0, 0]);

    // from another block on
    said = Vec::new();
    let stored = reader.write_from_with(60, [[9; 2]; 4], |stored| said.push(stored));
    assert_eq!((stored.unwrap(), &said[..]), (4, &[1, 2, 3, 4][..]));
    assert_eq!(reader.write_from(10, [[8; 2]; 2]).unwrap(), 2);
    let all = [9, 10, 11, 12, 59, 60, 63].map(|block| reader.read(block).unwrap().contents[0]);
    assert_eq!(all, [9, 8, 8, 12, 0, 9, 9]);
    // at the end there is no block more; the last one is stored
    let past = reader.write_from(63, [[7; 2]; 2]);
    assert!(matches!(past, Err(Error::Refused(Refusal::NoSuchBlock))));
    assert_eq!(reader.read(63).unwrap().contents, [7, 7]);
    let past = reader.write_from(usize::MAX, [[7; 2]; 2]);
    assert!(matches!(past, Err(Error::Refused(Refusal::NoSuchBlock))));

    // without a callback, and with a line of progress
    assert_eq!(reader.write_all([[2; 2]; 5]).unwrap(), 5);
    assert_eq!(reader.read(4).unwrap().contents, [2, 2]);
    assert_eq!(reader.read(5).unwrap().contents, [5, 1]);
    let mut lines = Vec::new();
    let progress = Progress::new(&mut lines, "storing", 2).into_callback();
    assert_eq!(reader.write_all_with([[3; 2]; 2], progress).unwrap(), 2);
    assert_eq!(lines, b"storing: 1 of 2\nstoring: 2 of 2\n");
}

/// A host that is chosen when the program runs, owned or lent.
#[test]
fn an_array_with_a_host_behind_a_pointer() {
    let shape = SHAPES[2];
    let file = Temporary::new("pointer");
    let hosts: [Box<dyn Host>; 2] = [
        Box::new(MemoryHost::new(shape, 4).unwrap()),
        Box::new(FileHost::create(&file.0, shape).unwrap()),
    ];
    for host in hosts {
        let mut host = look_ups(shape, host, 4, 200);
        let lent: &mut dyn Host = &mut host;
        look_ups(shape, lent, 5, 200);
    }
    let mut host = Watched::new(MemoryHost::new(shape, 4).unwrap());
    look_ups(shape, &mut host, 6, 200);
    assert_eq!(host.most, shape.window());
}

/// With E below N a request may be refused for want of a place in the cache;
/// nothing is sent for it, and the reader goes on. The same block is refused
/// again until another one has been looked up.
#[test]
fn a_small_cache_refuses_and_goes_on() {
    let shape = shape(64, 16, 4, 4, 8).with_smaller_cache(2);
    let host = Recorded::new(MemoryHost::new(shape, 1).unwrap());
    let tape = Rng::new(2).bytes(400_000);
    let mut reader = Reader::with_words(shape, host, &tape[..]).unwrap();
    let mut stored = vec![[0; 4]; 64];
    let (mut rng, mut full) = (Rng::new(1), 0);
    for tag in 0..2000u32 {
        let block = rng.below(64);
        let before = reader.host().commands().len();
        match reader.write(block, &tag.to_le_bytes()) {
            Ok(old) => {
                assert_eq!(old.contents, stored[block]);
                stored[block] = tag.to_le_bytes();
            }
            Err(Error::Refused(Refusal::CacheFull)) => {
                let again = reader.read(block);
                assert!(matches!(again, Err(Error::Refused(Refusal::CacheFull))));
                assert_eq!(reader.host().commands().len(), before);
                full += 1;
            }
            Err(error) => panic!("{error:?}"),
        }
    }
    assert!((100..1980).contains(&full), "{full} of 2000 refused");
    assert_eq!(reader.tally().total(), 2000 - full);
}
