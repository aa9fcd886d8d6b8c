//! Where a reader's look-ups find their blocks: by a tape that is followed by
//! hand, and as the plain client finds them from the same words. The tally has
//! what was told, and only look-ups that were collected.

use plain::fast;
use plain::rng::Rng;
use plain::shape::Shape as Plain;
use rinwolfedd::{Command, Error, Found, Host, MemoryHost, Reader, Refusal, Shape};
use std::io;

/// One block in two partitions of two levels.
const SMALL: Shape = Shape::new(1, 2, 2, 1);

/// The words of an open and of four look-ups of SMALL. After the block's next
/// partition and the eviction partition come the orders of the levels that the
/// two jobs write, together if both are for one partition: 1 word for level 0, 3
/// for level 1.
const WORDS: [&[u16]; 5] = [
    &[0],
    &[1, 0, 0, 0, 0], // partition 0, by both jobs: the block waits for 1
    &[1, 1, 0, 0, 0], // partition 1, by both: the block goes to level 1
    &[1, 0, 0, 0],    // partition 1, then 0: level 0 each, the block in 1's
    &[0; 80],         // whatever follows, and what may be passed over
];

fn bytes(words: &[u16]) -> Vec<u8> {
    words.iter().copied().flat_map(u16::to_le_bytes).collect()
}

type OnWords = Reader<MemoryHost, io::Cursor<Vec<u8>>>;

/// A reader with these words.
fn reader(shape: Shape, words: &[u16]) -> OnWords {
    let host = MemoryHost::new(shape, 1).unwrap();
    Reader::with_words(shape, host, io::Cursor::new(bytes(words))).unwrap()
}

#[test]
fn each_place_by_hand() {
    let mut reader = reader(SMALL, &WORDS.concat());
    let places = [
        (Found::Nowhere, "1 look-up: 1 found nowhere, 0 in the cache"),
        (Found::Cache, "2 look-ups: 1 found nowhere, 1 in the cache"),
        (
            Found::Level(1),
            "3 look-ups: 1 found nowhere, 1 in the cache, 1 in level 1",
        ),
        (
            Found::Level(0),
            "4 look-ups: 1 found nowhere, 1 in the cache, 1 in level 0, 1 in level 1",
        ),
    ];
    for (tag, (found, tally)) in places.into_iter().enumerate() {
        let before = reader.write(0, &[tag as u8 + 1]).unwrap();
        assert_eq!((before.contents, before.found), (vec![tag as u8], found));
        assert_eq!(reader.tally().to_string(), tally);
    }
    assert_eq!(reader.tally().levels(), [1, 1]);
}

/// A plain client at a host that completes at once and keeps nothing: where
/// blocks are does not depend on the bytes.
struct Model<'a> {
    client: fast::Store,
    words: &'a [u16],
    block: Vec<u8>,
}

impl<'a> Model<'a> {
    fn open(shape: Plain, words: &'a [u16]) -> Model<'a> {
        let (first, words) = words.split_at(shape.blocks);
        Model {
            client: fast::Store::open(shape, first).unwrap(),
            words,
            block: vec![0; shape.bytes],
        }
    }

    fn take(&mut self, taken: u16) {
        self.words = &self.words[usize::from(taken)..];
    }

    fn run(&mut self) {
        loop {
            let sent = self.client.turn(self.words, &mut self.block);
            if sent.number == 10 {
                return;
            }
            assert_eq!(sent.number, 0);
            self.take(sent.taken);
            let bytes: &[u8] = match sent.command.kind {
                fast::READ => &self.block,
                _ => &[],
            };
            assert_eq!(self.client.completion(sent.command, bytes), 0);
        }
    }

    /// The number of where a whole look-up finds the block.
    fn look_up(&mut self, block: usize) -> u8 {
        let asked = self.client.request(fast::READ, block, &[], self.words);
        assert_eq!(asked.number, 0);
        self.take(asked.taken);
        self.run();
        let collected = self.client.collect(&mut self.block);
        assert_eq!(collected.number, 0);
        self.run();
        collected.found
    }
}

const SHAPES: [Plain; 6] = [
    Plain::new(1, 1, 1, 1, 1, 1),
    Plain::new(4, 2, 2, 3, 4, 2),
    Plain::new(31, 8, 4, 16, 31, 7),
    Plain::new(64, 4, 5, 8, 64, 32),
    Plain::new(128, 1, 8, 4, 128, 32),
    Plain::new(256, 64, 8, 1, 256, 32),
];

/// The figures of so many random look-ups, by the number of where the block is
/// found: reads, reads into a buffer and writes, which are found alike. The
/// reader's tally has the same.
fn look_ups(reader: &mut OnWords, model: &mut Model, count: usize, rng: &mut Rng) -> [u64; 10] {
    let shape = reader.shape();
    let mut buffer = vec![0; shape.bytes()];
    let mut figures = [0; 10];
    for index in 0..count {
        let block = rng.below(shape.blocks());
        let found = match index % 3 {
            0 => reader.read(block).map(|read| read.found),
            1 => reader.read_into(block, &mut buffer),
            _ => reader.write(block, &buffer).map(|before| before.found),
        };
        let number = found.unwrap().number();
        assert_eq!(number, model.look_up(block), "{shape}, look-up {index}");
        figures[usize::from(number)] += 1;
    }
    let tally = reader.tally();
    assert_eq!([tally.nowhere(), tally.cache()], figures[..2]);
    let levels: [u64; 8] = std::array::from_fn(|level| tally.level(level));
    assert_eq!(levels, figures[2..]);
    assert_eq!(tally.levels(), &levels[..shape.levels()]);
    assert_eq!(tally.total(), count as u64);
    figures
}

#[test]
fn each_look_up_tells_what_the_plain_client_finds() {
    let mut all = [0; 10];
    for (seed, h) in SHAPES.into_iter().enumerate() {
        let mut rng = Rng::new(seed as u64);
        let words = rng.words(60_000);
        let shape = Shape::new(h.blocks, h.partitions, h.levels, h.bytes).with_window(h.window);
        let (mut reader, mut model) = (reader(shape, &words), Model::open(h, &words));
        let figures = look_ups(&mut reader, &mut model, 1000, &mut rng);
        for (all, more) in all.iter_mut().zip(figures) {
            *all += more;
        }
    }
    println!("found nowhere, in the cache, in level 0 to 7: {all:?}");
    assert!(all.iter().all(|count| *count > 20), "{all:?}");
}

/// Nothing that is refused counts, wherever the question stands.
#[test]
fn a_refused_look_up_does_not_count() {
    let mut reader = reader(SMALL, &WORDS.concat());
    reader.read(0).unwrap();
    let tally = reader.tally().clone();
    for block in [1, usize::MAX] {
        let refused = reader.read(block);
        assert!(matches!(refused, Err(Error::Refused(Refusal::NoSuchBlock))));
    }
    assert!(reader.write(0, &[1, 2]).is_err() && reader.read_into(0, &mut []).is_err());
    assert!(reader.write_from(1, [[1]]).is_err());
    assert!(reader.tally() == &tally && tally.total() == 1);
    // and neither do look-ups for which there are no words
    while reader.read(0).is_ok() {}
    let tally = reader.tally().clone();
    assert!(matches!(reader.read(0), Err(Error::Words(_))));
    assert!(reader.tally() == &tally && tally.total() > 1);
}

/// A host that completes so many commands.
struct Failing(MemoryHost, usize);

impl Host for Failing {
    fn submit(&mut self, command: Command, bytes: &[u8]) -> io::Result<()> {
        self.0.submit(command, bytes)
    }

    fn next_completed(&mut self, buffer: &mut [u8]) -> io::Result<Command> {
        let left = self.1.checked_sub(1);
        self.1 = left.ok_or(io::Error::other("the wire is cut"))?;
        self.0.next_completed(buffer)
    }
}

/// A look-up counts once it is collected: the first one before its six commands,
/// the second one after its first, a read. From then on nothing counts.
#[test]
fn a_look_up_that_fails_midway_counts_once_it_is_collected() {
    let shape = Shape::new(1, 1, 1, 1);
    for (completed, told, counted) in [(0, 0, 1), (5, 0, 1), (6, 1, 1), (7, 1, 2), (12, 1, 2)] {
        let host = Failing(MemoryHost::new(shape, 1).unwrap(), completed);
        let mut reader = Reader::open(shape, host).unwrap();
        let all = [(); 4].map(|()| reader.read(0));
        assert_eq!(all.iter().filter(|read| read.is_ok()).count(), told);
        assert!(matches!(all[3], Err(Error::Unfinished)));
        let tally = reader.tally();
        assert_eq!((tally.total(), tally.nowhere()), (counted, 1));
        assert_eq!(tally.level(0), counted - 1);
    }
}
