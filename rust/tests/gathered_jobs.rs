//! A reader that lets jobs gather, so that those of one partition run together.
//! Its contents are those of an array however many gather, also through saves; it
//! sends fewer commands in all, and what it sends does not tell the block. What
//! the host sees word by word is in left_words.rs.

#[path = "common/alike.rs"]
mod alike;
#[path = "common/folder.rs"]
mod folder;
#[path = "common/hosts.rs"]
mod hosts;
#[path = "common/shapes.rs"]
mod shapes;

use alike::look_ups_are_alike;
use folder::Folder;
use hosts::{First, Ordered, Watched};
use plain::rng::Rng;
use rinwolfedd::{Command, FileHost, Found, Host, MemoryHost};
use rinwolfedd::{Reader, Recorded, Shape};
use shapes::{SHAPES, UNHELD, shape, unheld_words};
use std::collections::HashSet;
use std::io::{self, Read};

/// How many jobs gather; the last two are taken as 63.
const SIZES: [usize; 10] = [0, 1, 2, 3, 8, 17, 40, 63, 64, usize::MAX];

/// What a reader was told last.
#[derive(Clone, Copy)]
enum Told {
    Leave(usize),
    Gather(usize),
}

impl Told {
    fn tell<H: Host, R: Read>(self, reader: &mut Reader<H, R>) {
        match self {
            Told::Leave(most) => reader.leave_jobs(most),
            Told::Gather(jobs) => reader.gather_jobs(jobs),
        }
    }

    /// How many jobs a look-up leaves at most.
    fn most(self) -> usize {
        match self {
            Told::Leave(most) => most.min(62),
            Told::Gather(jobs) => jobs.clamp(1, 63) - 1,
        }
    }
}

/// Now and then something else is told, or jobs are run, in part or all.
fn between<H: Host>(reader: &mut Reader<H>, told: &mut Told, rng: &mut Rng) {
    match rng.below(40) {
        0 => *told = Told::Leave(SIZES[rng.below(SIZES.len())]),
        1..3 => *told = Told::Gather(SIZES[rng.below(SIZES.len())]),
        3..6 => drop(reader.advance(rng.below(50)).unwrap()),
        6 => {
            reader.settle().unwrap();
            assert_eq!(reader.jobs_left(), 0);
        }
        _ => {}
    }
    told.tell(reader);
}

/// A random read or write, held to an array.
fn look_up<H: Host, R: Read>(
    reader: &mut Reader<H, R>,
    array: &mut [Vec<u8>],
    rng: &mut Rng,
) -> (usize, Found) {
    let block = rng.below(array.len());
    let before = array[block].clone();
    let looked_up = if rng.chance(50) {
        reader.read(block)
    } else {
        array[block] = rng.bytes(before.len());
        reader.write(block, &array[block])
    };
    let looked_up = looked_up.unwrap();
    assert_eq!(looked_up.contents, before);
    (block, looked_up.found)
}

fn look_ups<H: Host>(shape: Shape, host: H, seed: u64, count: usize) -> H {
    let mut reader = Reader::open(shape, host).unwrap();
    let mut array = vec![vec![0; shape.bytes()]; shape.blocks()];
    let (mut rng, mut met) = (Rng::new(seed), HashSet::new());
    let mut told = Told::Gather(SIZES[seed as usize % SIZES.len()]);
    for _ in 0..count {
        between(&mut reader, &mut told, &mut rng);
        let (block, found) = look_up(&mut reader, &mut array, &mut rng);
        assert_eq!(found == Found::Nowhere, met.insert(block));
        let left = reader.jobs_left();
        assert!(left <= told.most() && told.most() <= 62);
        assert_eq!(left, reader.summary().queued());
    }
    reader.settle().unwrap();
    assert_eq!(reader.jobs_left(), 0);
    assert_eq!(reader.tally().total(), count as u64);
    reader.into_host()
}

#[test]
fn an_array_however_many_gather() {
    for (seed, shape) in SHAPES.into_iter().enumerate() {
        for seed in [seed as u64, 10 + 7 * seed as u64] {
            let host = Watched::new(MemoryHost::new(shape, seed).unwrap());
            let host = look_ups(shape, host, seed, 600);
            assert!(host.outstanding.is_empty(), "it is settled");
        }
        for first in [First::Oldest, First::Newest] {
            let host = Watched::new(Ordered::new(first));
            look_ups(shape, host, 20 + seed as u64, 300);
        }
    }
}

#[test]
fn an_array_in_a_file_however_many_gather() {
    let folder = Folder::new("gathered");
    let host = FileHost::create(folder.path("slots"), SHAPES[4]).unwrap();
    look_ups(SHAPES[4], host, 5, 500);
}

/// The same words each time.
struct Words(Rng);

impl Read for Words {
    fn read(&mut self, buffer: &mut [u8]) -> io::Result<usize> {
        buffer.fill_with(|| self.0.step() as u8);
        Ok(buffer.len())
    }
}

/// Jobs are run after a collect only if they are so many, and then all of them.
#[test]
fn jobs_gather_until_they_are_so_many() {
    let shape = shape(64, 16, 4, 2, 8);
    let mut rng = Rng::new(6);
    for jobs in SIZES {
        let host = MemoryHost::new(shape, 1).unwrap();
        let mut reader = Reader::with_words(shape, host, Words(Rng::new(1))).unwrap();
        reader.gather_jobs(jobs);
        let (jobs, mut all) = (jobs.clamp(1, 63), 0);
        for _ in 0..600 {
            let before = reader.jobs_left();
            reader.read(rng.below(64)).unwrap();
            let (waits, after) = (reader.take_waits(), reader.jobs_left());
            let ran = waits.returned() != waits.contents();
            assert!(!ran || before + 2 >= jobs, "{before} of {jobs}");
            assert_eq!(after == 0, ran, "{before} of {jobs}");
            assert!(after < jobs);
            all += usize::from(ran);
        }
        // look-ups that are held run jobs before, so that many seldom gather
        let often = match jobs {
            1..3 => 600..601,
            3..9 => 20..600,
            _ => 0..600,
        };
        assert!(often.contains(&all), "{all} times, {jobs} jobs");
    }
}

/// A reader in which nothing is ever held. With one level its jobs run one by one.
fn unheld() -> Reader<Ordered, impl Read> {
    let (host, words) = (Ordered::new(First::Oldest), unheld_words());
    Reader::with_words(UNHELD, host, io::Cursor::new(words)).unwrap()
}

/// Look-ups of these blocks, and the jobs left after each.
fn left_after<H: Host, R: Read>(
    reader: &mut Reader<H, R>,
    blocks: impl IntoIterator<Item = usize>,
) -> Vec<usize> {
    let each = blocks.into_iter().map(|block| {
        reader.read(block).unwrap();
        reader.jobs_left()
    });
    each.collect()
}

/// At most 62 are left by a look-up, so that the next is never refused for want of
/// room in the queue: the one that would leave 64 runs them all.
#[test]
fn a_queue_that_gathers_is_never_full() {
    for jobs in [63, 64, usize::MAX] {
        let mut reader = unheld();
        reader.gather_jobs(jobs);
        let wanted: Vec<usize> = (1..32).map(|look_up| 2 * look_up).chain([0]).collect();
        assert_eq!(left_after(&mut reader, 0..32), wanted);
    }
    for jobs in [61, 62] {
        let mut reader = unheld();
        reader.gather_jobs(jobs);
        assert_eq!(left_after(&mut reader, 0..31)[29..], [60, 0]);
    }
}

/// What is told last holds, from the next look-up on.
#[test]
fn leaving_after_gathering_and_the_other_way_round() {
    use Told::{Gather, Leave};
    for (first, then, left) in [
        (Gather(63), Leave(9), 9),
        (Gather(63), Leave(0), 0),
        (Gather(63), Leave(62), 42),
        (Gather(63), Gather(42), 0),
        (Gather(63), Gather(43), 42),
        (Leave(62), Gather(20), 0),
        (Leave(62), Gather(0), 0),
        (Leave(62), Gather(usize::MAX), 42),
    ] {
        let mut reader = unheld();
        first.tell(&mut reader);
        assert_eq!(left_after(&mut reader, 0..20)[19], 40);
        then.tell(&mut reader);
        assert_eq!(reader.jobs_left(), 40, "nothing is run before");
        assert_eq!(left_after(&mut reader, [20]), [left]);
    }
}

/// All commands of the same look-ups from the same words, with so many jobs
/// gathered.
fn commands(shape: Shape, jobs: usize) -> Vec<Command> {
    let host = Recorded::new(Ordered::new(First::Oldest));
    let mut reader = Reader::with_words(shape, host, Words(Rng::new(7))).unwrap();
    let mut rng = Rng::new(8);
    reader.gather_jobs(jobs);
    for _ in 0..1500 {
        reader.read(rng.below(shape.blocks())).unwrap();
    }
    reader.settle().unwrap();
    assert_eq!(reader.commands(), reader.host().commands().len() as u64);
    reader.host_mut().take()
}

/// If jobs gather, fewer commands are sent for the same look-ups; with 2 or fewer
/// each look-up runs its own, and more than 63 never gather.
#[test]
fn fewer_commands_are_sent() {
    for shape in [shape(64, 4, 5, 1, 8), shape(128, 16, 6, 1, 32)] {
        let alone = commands(shape, 0);
        assert!(
            [1, 2]
                .into_iter()
                .all(|jobs| commands(shape, jobs) == alone)
        );
        let most = commands(shape, 63);
        assert!(
            [64, usize::MAX]
                .into_iter()
                .all(|jobs| commands(shape, jobs) == most)
        );
        let lengths = [8, 24].map(|jobs| commands(shape, jobs).len());
        println!("{} {lengths:?} {}", alone.len(), most.len());
        assert!(lengths[0] < alone.len() && lengths[1] < lengths[0]);
        assert!(most.len() <= lengths[1]);
    }
}

#[test]
fn look_ups_are_alike_however_many_gather() {
    for (jobs, pause) in [(0, 0), (3, 0), (9, 5), (16, 0), (63, 0), (63, 20)] {
        look_ups_are_alike(|reader| reader.gather_jobs(jobs), pause);
    }
}

/// Jobs that have gathered are saved, but for those of a run that has begun. A
/// reader that is loaded has them, and gathers no more until it is told so.
#[test]
fn an_array_through_saves() {
    let (shape, folder) = (SHAPES[3], Folder::new("seasons-gathered"));
    let (slots, client) = (folder.path("slots"), folder.path("client"));
    let host = FileHost::create(&slots, shape).unwrap();
    let mut reader = Reader::open(shape, host).unwrap();
    let mut array = vec![vec![0; shape.bytes()]; shape.blocks()];
    let (mut rng, mut saved) = (Rng::new(9), 0);
    for season in 0..60 {
        reader.gather_jobs(SIZES[season % SIZES.len()]);
        for _ in 0..rng.below(30) {
            look_up(&mut reader, &mut array, &mut rng);
        }
        reader.advance(rng.below(9)).unwrap();
        reader.save(&client).unwrap();
        let (left, page) = (reader.jobs_left(), reader.page());
        saved += usize::from(left > 2);
        // these are lost
        look_up(&mut reader, &mut array.clone(), &mut rng);
        drop(reader);
        let host = FileHost::open(&slots, shape).unwrap();
        reader = Reader::load(&client, host).unwrap().0;
        assert_eq!((reader.jobs_left(), reader.page()), (left, page));
        assert_eq!(reader.commands(), 0, "it begins anew");
        look_up(&mut reader, &mut array, &mut rng);
        assert_eq!(reader.jobs_left(), 0, "so does this");
    }
    assert!(saved > 10, "{saved} saves with jobs that had gathered");
}
