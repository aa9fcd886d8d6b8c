//! Bad input to a reader and a store: lengths and blocks that are none of the
//! store's, hosts and words that fail. Each is an error that says what is wrong;
//! none is a panic.

#[path = "common/folder.rs"]
mod folder;

use folder::Folder;
use rinwolfedd::{Command, Error, FileHost, Found, Host, Kind, LookedUp, MemoryHost};
use rinwolfedd::{Reader, Recorded, Refusal, Request, Shape, Store, Tape};
use std::error::Error as _;
use std::fs::File;
use std::io::{self, ErrorKind, Read};

const SHAPE: Shape = Shape::new(8, 2, 3, 4).with_window(4);

const OUT_OF_BOUNDS: Shape = Shape::new(8, 3, 3, 4);

const FAR: usize = usize::MAX;
const FAR_OUT: Shape = Shape::new(FAR, FAR, FAR, FAR).with_window(FAR);

/// Looks up until the host fails, which comes with the first jobs; then the
/// reader makes no more look-ups.
fn fails<H: Host>(host: H) -> io::Error {
    let mut reader = Reader::open(SHAPE, host).unwrap();
    let Err(Error::Host(error)) = reader.write(0, &[1, 2, 3, 4]) else {
        panic!("the host fails");
    };
    assert!(reader.is_unfinished());
    assert!(matches!(reader.read(0), Err(Error::Unfinished)));
    assert!(matches!(reader.read(99), Err(Error::Unfinished)));
    error
}

#[test]
fn files_that_fail_later() {
    let folder = Folder::new("later");
    let path = folder.path("file");
    drop(FileHost::create(&path, SHAPE).unwrap());
    let read_only = FileHost::from_file(File::open(&path).unwrap(), SHAPE).unwrap();
    fails(read_only);

    let host = FileHost::reuse(&path, SHAPE).unwrap();
    let mut reader = Reader::open(SHAPE, host).unwrap();
    reader.write(0, &[1, 2, 3, 4]).unwrap();
    let mut error = None;
    for block in (0..8).cycle().take(400) {
        let file = File::options().write(true).open(&path).unwrap();
        file.set_len(2).unwrap();
        if let Err(cause) = reader.read(block) {
            error = Some(cause);
            break;
        }
    }
    let Some(Error::Host(error)) = error else {
        panic!("a file that was cut is noticed");
    };
    assert_eq!(error.kind(), ErrorKind::UnexpectedEof);
}

#[test]
fn lengths_and_blocks_that_are_none_of_the_stores() {
    let mut reader = Reader::open(SHAPE, MemoryHost::new(SHAPE, 1).unwrap()).unwrap();
    reader.write(3, &[1, 2, 3, 4]).unwrap();
    let refused = |result: Result<LookedUp, Error>| match result {
        Err(Error::Refused(refusal)) => refusal,
        other => panic!("{other:?}"),
    };
    assert_eq!(
        refused(reader.write(3, &[1, 2, 3])),
        Refusal::ContentsLength
    );
    assert_eq!(refused(reader.write(3, &[0; 5])), Refusal::ContentsLength);
    assert_eq!(refused(reader.write(3, &[])), Refusal::ContentsLength);
    for block in [8, 9, usize::MAX] {
        assert_eq!(refused(reader.read(block)), Refusal::NoSuchBlock);
        assert_eq!(refused(reader.write(block, &[0; 4])), Refusal::NoSuchBlock);
    }
    let small = reader.read_into(3, &mut [0; 3]);
    assert!(matches!(small, Err(Error::Refused(Refusal::BufferLength))));
    assert_eq!(reader.tally().total(), 1, "nothing that was refused counts");
    let all = reader.write_all([[1; 4]; 9]);
    assert!(matches!(all, Err(Error::Refused(Refusal::NoSuchBlock))));
    assert_eq!(reader.tally().total(), 9);
    // none of it ended the reader, and the blocks are as they were
    assert!(!reader.is_unfinished());
    assert_eq!(reader.read(3).unwrap().contents, [1; 4]);
}

#[test]
fn shapes_out_of_bounds() {
    for shape in [OUT_OF_BOUNDS, FAR_OUT] {
        let opened = Store::open(shape, &mut Tape::new(&[0; 64]));
        assert_eq!(opened.err(), Some(Refusal::ShapeOutOfBounds));
        let host = MemoryHost::new(shape, 1);
        assert_eq!(host.err(), Some(Refusal::ShapeOutOfBounds));
        let host = MemoryHost::new(SHAPE, 1).unwrap();
        let refused = Reader::open(shape, host).err();
        let Some(Error::Refused(Refusal::ShapeOutOfBounds)) = refused else {
            panic!("{refused:?}");
        };
        assert_eq!((shape.slots(), shape.is_within_bounds()), (None, false));
    }
}

/// A reader with a source of so many words, and then what follows.
fn with_words<R: Read>(
    words: usize,
    then: R,
) -> Result<Reader<Recorded<MemoryHost>, impl Read>, Error> {
    let host = Recorded::new(MemoryHost::new(SHAPE, 1).unwrap());
    let some = io::repeat(5).take(2 * words as u64);
    Reader::with_words(SHAPE, host, some.chain(then))
}

fn words_kind<T>(result: Result<T, Error>) -> ErrorKind {
    match result {
        Err(Error::Words(error)) => error.kind(),
        _ => panic!("there are words"),
    }
}

/// The open takes 8 words, and a look-up asks for 16 and 64 to be passed over.
/// Where there are fewer, nothing is sent, and the reader is not ended.
#[test]
fn words_that_end() {
    let ended = ErrorKind::UnexpectedEof;
    assert_eq!(words_kind(with_words(7, io::empty())), ended);
    for words in 8..88 {
        let mut reader = with_words(words, io::empty()).unwrap();
        assert_eq!(words_kind(reader.read(0)), ended);
        assert_eq!(words_kind(reader.write(0, &[1; 4])), ended);
        assert!(reader.host().commands().is_empty() && !reader.is_unfinished());
        assert_eq!(reader.tally().total(), 0);
    }
    // however the words fall, they never end midway
    for words in 88..464 {
        let mut reader = with_words(words, io::empty()).unwrap();
        let ends = (0..8).cycle().find_map(|block| reader.read(block).err());
        assert_eq!(words_kind(ends.map_or(Ok(()), Err)), ended);
        assert!(!reader.is_unfinished() && !reader.host().commands().is_empty());
    }
}

/// Words that every draw below 3 passes over: an order of four slots is never
/// drawn, and a reader that asked for more such words would ask forever.
#[test]
fn words_that_are_not_random() {
    let host = MemoryHost::new(SHAPE, 1).unwrap();
    let mut reader = Reader::with_words(SHAPE, host, io::repeat(255)).unwrap();
    let failed = (0..8).find_map(|block| reader.read(block).err());
    let Some(Error::NotRandom) = failed else {
        panic!("{failed:?}");
    };
    assert!(reader.is_unfinished());
    let Err(Error::Unfinished) = reader.read(0) else {
        panic!("a look-up after one that failed midway");
    };
}

/// So it is where a look-up left its jobs, whatever does them then.
#[test]
fn words_of_jobs_left_that_are_not_random() {
    type Does = fn(&mut Reader<MemoryHost, io::Repeat>) -> Result<(), Error>;
    let ways: [Does; 3] = [
        |reader| reader.settle(),
        |reader| reader.advance(1).map(|_| ()),
        |reader| reader.read(0).map(|_| ()),
    ];
    for does in ways {
        let host = MemoryHost::new(SHAPE, 1).unwrap();
        let mut reader = Reader::with_words(SHAPE, host, io::repeat(255)).unwrap();
        reader.leave_jobs(62);
        reader.read(0).unwrap();
        let failed = (0..1000).find_map(|_| does(&mut reader).and(reader.advance(0)).err());
        let Some(Error::NotRandom) = failed else {
            panic!("{failed:?}");
        };
        assert!(reader.is_unfinished());
        assert!(matches!(reader.settle(), Err(Error::Unfinished)));
    }
}

/// A source that fails every other time that it is asked, and else has few
/// bytes.
#[derive(Default)]
struct Falters(usize);

impl Read for Falters {
    fn read(&mut self, buffer: &mut [u8]) -> io::Result<usize> {
        self.0 += 1;
        if self.0 % 2 == 1 {
            return Err(io::Error::other("no randomness now"));
        }
        let few = buffer.len().min(8);
        buffer[..few].fill(self.0 as u8);
        Ok(few)
    }
}

/// A source that fails costs only the look-up that would have begun.
#[test]
fn words_that_fail() {
    let host = MemoryHost::new(SHAPE, 1).unwrap();
    let failed = Reader::with_words(SHAPE, host, Falters::default()).err();
    let source = failed.as_ref().and_then(|error| error.source()).unwrap();
    assert_eq!(source.to_string(), "no randomness now");

    let mut reader = with_words(8, Falters::default()).unwrap();
    let (mut failures, mut stored) = (0, [0; 4]);
    for tag in 0..100 {
        match reader.write(3, &[tag; 4]) {
            Ok(before) => {
                assert_eq!(before.contents, stored);
                stored = [tag; 4];
            }
            Err(Error::Words(_)) => failures += 1,
            Err(error) => panic!("{error:?}"),
        }
        assert!(!reader.is_unfinished());
    }
    assert!((10..90).contains(&failures), "{failures} failures");
    assert_eq!(reader.tally().total(), 100 - failures);
}

/// A host that completes commands which were never submitted.
struct Liar;

impl Host for Liar {
    fn submit(&mut self, _: Command, _: &[u8]) -> io::Result<()> {
        Ok(())
    }

    fn next_completed(&mut self, _: &mut [u8]) -> io::Result<Command> {
        Ok(Command {
            kind: Kind::Read,
            partition: 255,
            level: 255,
            slot: 65535,
        })
    }
}

#[test]
fn hosts_that_misbehave() {
    let error = fails(Liar);
    assert_eq!(error.kind(), ErrorKind::InvalidData);
    let refusal = error.get_ref().and_then(|inner| inner.downcast_ref());
    assert_eq!(refusal, Some(&Refusal::NotOutstanding));
}

#[test]
fn a_store_refuses_with_the_documents_numbers() {
    let words = [0; 64];
    let mut tape = Tape::new(&words);
    let mut store = Store::open(SHAPE, &mut tape).unwrap();
    assert_eq!((tape.taken(), tape.left()), (8, 24));
    assert_eq!(store.collect(), Err(Refusal::NoRequest));
    assert_eq!(store.turn(&mut tape), Err(Refusal::NothingToSend));
    let read = Request::Read { block: 0 };
    let refused = store.request(read, &mut Tape::new(&[0; 3]));
    assert_eq!(refused, Err(Refusal::TooFewWords));
    assert_eq!(store.request(read, &mut tape), Ok(()));
    assert_eq!(store.request(read, &mut tape), Err(Refusal::RequestInHand));
    assert_eq!(tape.taken(), 10);
    assert_eq!(store.collect(), Ok((&[0; 4][..], Found::Nowhere)));
    let (command, bytes) = store.turn(&mut tape).unwrap();
    assert_eq!((command.kind, bytes), (Kind::Write, &[0; 4][..]));
    // both jobs are for partition 0, and so they run together
    assert_eq!(tape.taken(), 13, "the order of four slots");
    let refused = store.completion(command, &[0; 4]);
    assert_eq!(refused, Err(Refusal::CompletionLength));
    assert_eq!(store.completion(command, &[]), Ok(()));
    assert_eq!(store.completion(command, &[]), Err(Refusal::NotOutstanding));
}
