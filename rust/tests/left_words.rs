//! The words of a reader that leaves jobs or lets them gather. Each is taken once
//! and in order: a plain client that makes the same calls from the same words sends
//! the same commands, and finds and hands out the same. All words that a look-up
//! may take are there before it begins, so that none is ever found missing midway.

#[path = "common/hosts.rs"]
#[allow(dead_code)] // what is outstanding is watched in jobs_left.rs
mod hosts;
#[path = "common/model.rs"]
mod model;

use hosts::{First, Ordered};
use model::Model;
use plain::rng::Rng;
use plain::shape::Shape as Plain;
use plain::state::{READ, WRITE};
use rinwolfedd::{Error, Host, Reader, Recorded, Shape};
use std::io::{self, ErrorKind, Read};

const SHAPES: [Plain; 6] = [
    Plain::new(1, 1, 1, 1, 1, 1),
    Plain::new(4, 2, 2, 3, 4, 2),
    Plain::new(16, 1, 6, 2, 16, 5),
    Plain::new(31, 8, 4, 16, 31, 7),
    Plain::new(64, 4, 5, 8, 64, 32),
    Plain::new(128, 16, 6, 1, 128, 1),
];

/// Both are told to leave so many jobs, or to let so many gather.
fn tell<H: Host, R: Read>(model: &mut Model, reader: &mut Reader<H, R>, rng: &mut Rng) {
    let jobs = [0, 1, 2, 4, 9, 30, 62, 63, usize::MAX][rng.below(9)];
    if rng.chance(50) {
        model.leave_jobs(jobs);
        reader.leave_jobs(jobs);
    } else {
        model.gather_jobs(jobs);
        reader.gather_jobs(jobs);
    }
}

#[test]
fn each_word_is_taken_once_and_in_order() {
    for (seed, h) in SHAPES.into_iter().enumerate() {
        let mut rng = Rng::new(seed as u64);
        let words = rng.words(60_000);
        let bytes: Vec<u8> = words.iter().copied().flat_map(u16::to_le_bytes).collect();
        let shape = Shape::new(h.blocks, h.partitions, h.levels, h.bytes).with_window(h.window);
        let host = Recorded::new(Ordered::new(First::Oldest));
        let mut reader = Reader::with_words(shape, host, &bytes[..]).unwrap();
        let mut model = Model::open(h, &words);
        for _ in 0..600 {
            let (block, pause) = (rng.below(h.blocks), rng.below(4) * rng.below(12));
            if rng.chance(10) {
                tell(&mut model, &mut reader, &mut rng);
            }
            let (told, wanted) = if rng.chance(50) {
                let wanted = model.look_up(READ, block, Vec::new());
                (reader.read(block), wanted)
            } else {
                let new = rng.bytes(h.bytes);
                let told = reader.write(block, &new);
                (told, model.look_up(WRITE, block, new))
            };
            let told = told.unwrap();
            assert_eq!((told.contents, told.found.number().into()), wanted);
            model.advance(pause);
            let left = reader.advance(pause).unwrap();
            assert_eq!(left, model.jobs_left());
            assert_eq!(
                reader.host_mut().take(),
                std::mem::take(&mut model.commands)
            );
        }
    }
}

const SMALL: Shape = Shape::new(8, 2, 3, 4).with_window(4);

/// A reader whose source has so many words.
fn with_words(words: usize) -> Reader<Recorded<Ordered>, impl Read> {
    let host = Recorded::new(Ordered::new(First::Oldest));
    let some = io::repeat(5).take(2 * words as u64);
    Reader::with_words(SMALL, host, some).unwrap()
}

fn ended<T>(result: Result<T, Error>) -> bool {
    matches!(result, Err(Error::Words(error)) if error.kind() == ErrorKind::UnexpectedEof)
}

/// A look-up asks for 2 words, and for 7 and 32 to be passed over for each job
/// that is left and for its own two; jobs that are left for theirs. Where there
/// are fewer nothing is sent, and the reader is not ended.
#[test]
fn words_that_end() {
    // the open takes 8, the first look-up 2: then it has left two jobs
    let asks = |jobs: usize| 8 + 2 + 39 * jobs;
    for (words, first, second) in [
        (asks(2) - 1, false, false),
        (asks(2), true, false),
        (asks(4) + 1, true, false),
        (asks(4) + 2, true, true),
    ] {
        let mut reader = with_words(words);
        reader.leave_jobs(62);
        assert_eq!(ended(reader.read(0)), !first);
        let sent = reader.host().commands().len();
        assert_eq!(ended(reader.read(0)), !second);
        assert!(second || reader.host().commands().len() == sent);
        assert!(!reader.is_unfinished());
    }
}

/// However the words fall and whatever is left, they never end midway, and what
/// is there is enough to settle unless it is asked for more.
#[test]
fn words_never_end_midway() {
    let mut settled = 0;
    for words in 88..700 {
        let mut reader = with_words(words);
        match words % 8 {
            some @ 0..4 => reader.leave_jobs([1, 2, 5, 62][some]),
            some => reader.gather_jobs([3, 6, 20, 63][some - 4]),
        }
        let last = (0..8).cycle().find_map(|block| {
            let read = reader.read(block).map(|_| ());
            read.and_then(|()| reader.advance(words % 7)).err()
        });
        assert!(last.is_some_and(|error| ended(Err::<(), _>(error))));
        let sent = reader.host().commands().len();
        match reader.settle() {
            Ok(()) => settled += usize::from(sent > 0),
            other => assert!(ended(other) && reader.host().commands().len() == sent),
        }
        assert!(!reader.is_unfinished());
    }
    assert!(settled > 100);
}
