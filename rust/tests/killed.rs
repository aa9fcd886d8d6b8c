//! A program that is killed at any moment, while it writes slots and saves: the
//! client that it leaves goes on with the slots of its save, whole and alone.
//! RINWOLFEDD_KILLS says how often, where it is to be more than every day.

#[path = "common/folder.rs"]
mod folder;
#[path = "common/kills.rs"]
mod kills;

use folder::Folder;
use kills::{WORKS, is_killed, kill, kills, start};
use plain::rng::Rng;
use rinwolfedd::{Command, FileHost, Host, Kind, Resumed, SaveId, Saves, Shape};
use std::fs::{self, File};
use std::io::{self, Write};
use std::path::{Path, PathBuf};
use std::time::{Duration, Instant};

const SHAPE: Shape = Shape::new(32, 2, 5, 40);

/// The shape's slots, and all their bytes.
const SLOTS: usize = 2 * 62;
const LENGTH: usize = SLOTS * 40;

/// A client that knows what its slots should be. Its file has the id and all of
/// that.
struct Client {
    host: FileHost,
    slots: Vec<u8>,
    folder: PathBuf,
}

fn command(kind: Kind, slot: usize) -> Command {
    let (partition, within) = ((slot / 62) as u8, slot % 62 + 2);
    let level = within.ilog2() - 1;
    Command {
        kind,
        partition,
        level: level as u8,
        slot: (within - (2 << level)) as u16,
    }
}

impl Client {
    /// Goes on from its file, or begins anew where there is none. It holds what
    /// it should, whatever was killed before.
    fn load(folder: &Path) -> io::Result<(Client, Option<Resumed>)> {
        let (store, file) = (folder.join("store"), folder.join("client"));
        let folder = folder.to_path_buf();
        if !file.exists() {
            let _ = fs::remove_file(&store);
            let _ = fs::remove_file(folder.join("store.journal"));
            let (host, slots) = (FileHost::create(store, SHAPE)?, vec![0; LENGTH]);
            let client = Client {
                host,
                slots,
                folder,
            };
            return Ok((client, None));
        }
        let bytes = fs::read(file)?;
        let (id, slots) = bytes.split_at(16);
        File::open(&folder)?.sync_all()?; // the name may be new
        let mut host = FileHost::open(store, SHAPE)?;
        let resumed = host.resume(SaveId::new(id.try_into().expect("16 bytes")))?;
        let slots = slots.to_vec();
        let mut client = Client {
            host,
            slots,
            folder,
        };
        client.check()?;
        Ok((client, Some(resumed)))
    }

    fn check(&mut self) -> io::Result<()> {
        let mut buffer = [0; 40];
        for slot in 0..SLOTS {
            self.host.submit(command(Kind::Read, slot), &[])?;
            self.host.next_completed(&mut buffer)?;
            assert_eq!(buffer, self.slots[40 * slot..40 * slot + 40], "slot {slot}");
        }
        Ok(())
    }

    fn write(&mut self, slot: usize, bytes: &[u8]) -> io::Result<()> {
        self.slots[40 * slot..40 * slot + 40].copy_from_slice(bytes);
        self.host.submit(command(Kind::Write, slot), bytes)?;
        self.host.next_completed(&mut []).map(|_| ())
    }

    /// A save; now and then one that ends before its file is written, or before
    /// it is committed.
    fn save(&mut self, rng: &mut Rng) -> io::Result<()> {
        let id = SaveId::random()?;
        self.host.prepare(id)?;
        if rng.chance(10) {
            return Ok(());
        }
        let new = self.folder.join("client.new");
        let mut file = File::create(&new)?;
        file.write_all(&id.bytes())?;
        file.write_all(&self.slots)?;
        file.sync_all()?;
        fs::rename(new, self.folder.join("client"))?;
        File::open(&self.folder)?.sync_all()?;
        if rng.chance(10) {
            return Ok(());
        }
        self.host.commit(id)
    }

    /// Writes and saves until it is killed.
    fn work(&mut self, seed: u64) -> io::Result<()> {
        let mut rng = Rng::new(seed);
        loop {
            if rng.chance(10) {
                self.save(&mut rng)?;
            }
            let (slot, bytes) = (rng.below(SLOTS), rng.bytes(40));
            self.write(slot, &bytes)?;
        }
    }
}

/// Whether the journal has the mark of a commit that came to no end.
fn is_committing(folder: &Folder) -> bool {
    let journal = fs::read(folder.path("store.journal")).unwrap_or_default();
    journal.get(64..88).is_some_and(|mark| mark != [0; 24])
}

#[test]
fn killed_at_any_moment() {
    if let Some((folder, seed)) = is_killed() {
        let (mut client, _) = Client::load(Path::new(&folder)).unwrap();
        println!("{WORKS}");
        client.work(seed).unwrap();
    }
    let (folder, began) = (Folder::new("killed"), Instant::now());
    let (mut rng, mut midway, mut back, mut slots) = (Rng::new(1), 0, 0, 0);
    for round in 0..kills() {
        let after = Duration::from_micros(rng.below(15_000) as u64);
        let program = start("killed_at_any_moment", &folder, round);
        kill(program, rng.chance(70), after);
        midway += usize::from(is_committing(&folder));
        // else the next program goes back, and may be killed while it does
        if rng.chance(50) {
            let (_, resumed) = Client::load(&folder.0).unwrap();
            if let Some(Resumed::RolledBack { slots: lost }) = resumed {
                (back, slots) = (back + 1, slots + lost);
            }
        }
    }
    let (kills, took) = (kills(), began.elapsed());
    println!("{kills} kills in {took:.1?}, {midway} of them midway in a commit");
    println!("{back} ways back over {slots} slots in all");
    assert!(kills < 100 || back > 20 && midway > 5);
}
