//! A reader that is killed at any moment, while it looks up and saves: it comes
//! back to the contents of its last save, all of them, and of no other.
//! RINWOLFEDD_KILLS says how often, where it is to be more than every day.
//!
//! What the reader writes between two saves, a season, is drawn from the season's
//! number, and block 0 has that number. So what block 0 says tells what all blocks
//! should be.

#[path = "common/folder.rs"]
mod folder;
#[path = "common/kills.rs"]
mod kills;

use folder::Folder;
use kills::{WORKS, is_killed, kill, kills, start};
use plain::rng::Rng;
use rinwolfedd::{Error, FileHost, Reader, Resumed, Shape};
use std::fs;
use std::os::unix::fs::PermissionsExt;
use std::path::Path;
use std::time::{Duration, Instant};

const BLOCKS: usize = 20;
const SHAPE: Shape = Shape::new(BLOCKS, 4, 4, 8).with_window(6);

type Array = Vec<[u8; 8]>;

/// What is written in a season; the first is 1. The last of it is its number.
fn writes(season: u64) -> Vec<(usize, [u8; 8])> {
    let mut rng = Rng::new(season);
    let many = rng.below(80);
    let mut writes: Vec<_> = (0..many)
        .map(|_| (1 + rng.below(BLOCKS - 1), rng.step().to_le_bytes()))
        .collect();
    writes.push((0, season.to_le_bytes()));
    writes
}

/// A reader with what its blocks should be.
struct Client {
    reader: Reader<FileHost>,
    array: Array,
    season: u64,
}

impl Client {
    /// Goes on from the last save, or begins anew where there is none. The blocks
    /// are those of one season, whatever was killed before.
    fn load(folder: &Path) -> Result<(Client, Option<Resumed>), Error> {
        let (slots, client) = (folder.join("slots"), folder.join("client"));
        if !client.exists() {
            let _ = fs::remove_file(&slots);
            let _ = fs::remove_file(folder.join("slots.journal"));
            let host = FileHost::create(slots, SHAPE).map_err(Error::Host)?;
            let client = Client {
                reader: Reader::open(SHAPE, host)?,
                array: vec![[0; 8]; BLOCKS],
                season: 0,
            };
            return Ok((client, None));
        }
        let host = FileHost::open(slots, SHAPE).map_err(Error::Host)?;
        let (reader, resumed) = Reader::load(client, host)?;
        let mut client = Client {
            reader,
            array: vec![[0; 8]; BLOCKS],
            season: 0,
        };
        client.check()?;
        Ok((client, Some(resumed)))
    }

    /// Finds out which season it is, and holds each block to it.
    fn check(&mut self) -> Result<(), Error> {
        let number = self.reader.read(0)?.contents;
        self.season = u64::from_le_bytes(number.try_into().expect("8 bytes"));
        for (block, contents) in (1..=self.season).flat_map(writes) {
            self.array[block] = contents;
        }
        for (block, wanted) in self.array.iter().enumerate() {
            let contents = self.reader.read(block)?.contents;
            assert_eq!(contents, wanted, "season {}, block {block}", self.season);
        }
        Ok(())
    }

    /// A season, with look-ups that leave jobs or let them gather and others that do
    /// not, and its save.
    fn season(&mut self, folder: &Path, rng: &mut Rng) -> Result<(), Error> {
        for (block, contents) in writes(self.season + 1) {
            match rng.chance(70) {
                true => self.reader.leave_jobs(rng.below(9)),
                false => self.reader.gather_jobs(rng.below(30)),
            }
            let before = self.reader.write(block, &contents)?.contents;
            assert_eq!(before, self.array[block]);
            self.array[block] = contents;
            self.reader.advance(rng.below(9))?;
        }
        println!("saves {}", self.season + 1);
        self.reader.save(folder.join("client"))?;
        self.season += 1;
        println!("saved {}", self.season);
        Ok(())
    }
}

/// The last number that was said after this word.
fn last(said: &[String], word: &str) -> Option<u64> {
    let after = |line: &String| line.split_once(word)?.1.trim().parse().ok();
    said.iter().rev().find_map(after)
}

/// The seasons that a program which was killed may come back to: the last that was
/// said to be saved, or the one that it was about to save.
#[derive(Default)]
struct Known {
    saved: u64,
    saves: u64,
}

impl Known {
    /// What a program said: first what it came back to.
    fn hear(&mut self, said: &[String]) {
        if let Some(season) = last(said, "came back to ") {
            self.check(season);
        }
        let saved = last(said, "saved ").unwrap_or(0);
        self.saved = self.saved.max(saved);
        let saves = last(said, "saves ").unwrap_or(0);
        self.saves = self.saves.max(saves).max(self.saved);
    }

    fn check(&mut self, season: u64) {
        let Known { saved, saves } = *self;
        assert!(
            saved <= season && season <= saves,
            "{season}: {saved} to {saves}"
        );
        (self.saved, self.saves) = (season, season);
    }
}

/// Comes back, and works until it is killed.
fn work(folder: &Path, seed: u64) -> Result<(), Error> {
    let (mut client, _) = Client::load(folder)?;
    println!("came back to {}", client.season);
    println!("{WORKS}");
    let mut rng = Rng::new(!seed);
    loop {
        client.season(folder, &mut rng)?;
    }
}

#[test]
fn a_reader_killed_at_any_moment() {
    if let Some((folder, seed)) = is_killed() {
        return work(Path::new(&folder), seed).unwrap();
    }
    let (folder, began) = (Folder::new("killed-reader"), Instant::now());
    let (mut rng, mut known) = (Rng::new(1), Known::default());
    let [mut back, mut as_saved, mut within] = [0; 3];
    for round in 0..kills() {
        let after = Duration::from_micros(rng.below(20_000) as u64);
        let program = start("a_reader_killed_at_any_moment", &folder, round);
        let said = kill(program, rng.chance(80), after);
        known.hear(&said);
        within += usize::from(known.saves > known.saved);
        // else the next program goes back, and may be killed while it does
        if rng.chance(50) {
            let (client, resumed) = Client::load(&folder.0).unwrap();
            known.check(client.season);
            back += usize::from(matches!(resumed, Some(Resumed::RolledBack { .. })));
            as_saved += usize::from(resumed == Some(Resumed::AsSaved));
        }
    }
    let (kills, took, seasons) = (kills(), began.elapsed(), known.saved);
    println!("{kills} kills in {took:.1?}, {within} of them within a save; {seasons} seasons");
    println!("{back} ways back, {as_saved} without a loss");
    let mode = fs::metadata(folder.path("client")).map(|file| file.permissions().mode());
    assert!(
        mode.is_ok_and(|mode| mode & 0o077 == 0),
        "it is its owner's"
    );
    assert!(kills < 100 || back > 20 && within > 10 && seasons > 20);
}
