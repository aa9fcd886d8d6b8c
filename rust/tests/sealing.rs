//! Bytes that a host in between seals: what is written is read back, also by a
//! reader that was saved, and the file has neither what was written nor two slots
//! that are alike. Without it, and with contents that are sealed before they are
//! written, it has both.

#[path = "common/folder.rs"]
mod folder;

use folder::Folder;
use rinwolfedd::{Command, FileHost, Host, Kind, Reader};
use rinwolfedd::{Resumed, SaveId, Saves, Shape, Slots};
use std::collections::{HashMap, HashSet};
use std::fs::File;
use std::io::{self, Read};
use std::path::Path;

const BYTES: usize = 16;
const SHAPE: Shape = Shape::new(32, 4, 5, BYTES).with_window(8);

/// The bytes that sealing adds: a number that hardly any other write has.
const MORE: usize = 8;

/// Numbers from a seed (splitmix64).
fn stream(mut seed: u64) -> impl Iterator<Item = u8> {
    std::iter::repeat_with(move || {
        seed = seed.wrapping_add(0x9E37_79B9_7F4A_7C15);
        let z = (seed ^ (seed >> 30)).wrapping_mul(0xBF58_476D_1CE4_E5B9);
        let z = (z ^ (z >> 27)).wrapping_mul(0x94D0_49BB_1331_11EB);
        (z ^ (z >> 31)).to_le_bytes()
    })
    .flatten()
}

/// **A toy**, to show where sealing goes: a random number, and the bytes xored with
/// what a small generator makes of it. It keeps nothing from anybody; a real one is
/// authenticated encryption with a random nonce for each write. (A counter would
/// begin anew with each program, and seal two writes alike.)
struct ToySealed<H> {
    below: H,
    random: File,
    sealed: Vec<u8>,
}

impl<H: Host> ToySealed<H> {
    fn new(below: H) -> ToySealed<H> {
        ToySealed {
            below,
            random: File::open("/dev/urandom").unwrap(),
            sealed: vec![0; BYTES + MORE],
        }
    }
}

fn xored(bytes: &[u8], nonce: u64) -> impl Iterator<Item = u8> {
    let key = 0x746F_7920_6B65_7921;
    bytes
        .iter()
        .zip(stream(key ^ nonce << 20))
        .map(|(a, b)| a ^ b)
}

impl<H: Host> Host for ToySealed<H> {
    fn fits(&self, slots: Slots) -> io::Result<()> {
        self.below.fits(slots.with_bytes(slots.bytes() + MORE))
    }

    fn submit(&mut self, command: Command, bytes: &[u8]) -> io::Result<()> {
        if command.kind == Kind::Read {
            return self.below.submit(command, &[]);
        }
        let mut nonce = [0; MORE];
        self.random.read_exact(&mut nonce)?;
        let mut sealed = nonce.to_vec();
        sealed.extend(xored(bytes, u64::from_le_bytes(nonce)));
        self.below.submit(command, &sealed)
    }

    fn next_completed(&mut self, buffer: &mut [u8]) -> io::Result<Command> {
        let command = self.below.next_completed(&mut self.sealed)?;
        if command.kind == Kind::Read {
            let (nonce, bytes) = self.sealed.split_first_chunk().unwrap();
            let opened = xored(bytes, u64::from_le_bytes(*nonce));
            buffer
                .iter_mut()
                .zip(opened)
                .for_each(|(to, byte)| *to = byte);
        }
        Ok(command)
    }
}

/// A save is the host's below, of the slots as they are sealed.
impl<H: Saves> Saves for ToySealed<H> {
    fn prepare(&mut self, id: SaveId) -> io::Result<()> {
        self.below.prepare(id)
    }

    fn commit(&mut self, id: SaveId) -> io::Result<()> {
        self.below.commit(id)
    }

    fn resume(&mut self, id: SaveId) -> io::Result<Resumed> {
        self.below.resume(id)
    }
}

/// Contents that are not found by chance.
fn contents(block: usize) -> [u8; BYTES] {
    let mut bytes = *b"fish 0000 is hot";
    bytes[5..9].copy_from_slice(format!("{block:04}").as_bytes());
    bytes
}

/// What a file gave away after some look-up.
#[derive(Debug, Default, PartialEq, Eq)]
struct Seen {
    /// Something of the contents.
    plain: bool,
    /// Two written slots with the same bytes.
    alike: bool,
    /// Bytes of a slot that were seen in another slot before.
    followed: bool,
}

/// Writes every block and reads them all twice, in an order of its own each
/// time, and looks at the file after each look-up.
fn look_ups<H: Host>(
    path: &Path,
    each: usize,
    host: H,
    stored: impl Fn(usize) -> [u8; BYTES],
) -> Seen {
    let mut reader = Reader::open(SHAPE, host).unwrap();
    let mut seen = Seen::default();
    let mut places: HashMap<Vec<u8>, usize> = HashMap::new();
    for look_up in 0..3 * SHAPE.blocks() {
        let block = look_up * 7 % SHAPE.blocks();
        if look_up < SHAPE.blocks() {
            reader.write(block, &stored(block)).unwrap();
        } else {
            assert_eq!(reader.read(block).unwrap().contents, stored(block));
        }
        let file = std::fs::read(path).unwrap();
        seen.plain |= file.windows(7).any(|bytes| bytes == b" is hot");
        // slots that nothing was written to are zeros since the file was made
        let slots = file.chunks_exact(each).enumerate();
        let slots = slots.filter(|(_, slot)| slot.iter().any(|byte| *byte != 0));
        let mut now = HashSet::new();
        for (place, slot) in slots {
            seen.alike |= !now.insert(slot);
            seen.followed |= *places.entry(slot.to_vec()).or_insert(place) != place;
        }
    }
    seen
}

#[test]
fn a_file_below_a_host_that_seals_tells_nothing() {
    let folder = Folder::new("sealed");
    let path = folder.path("file");
    let slots = Slots::of(SHAPE).with_bytes(BYTES + MORE);
    let host = ToySealed::new(FileHost::create(&path, slots).unwrap());
    let seen = look_ups(&path, BYTES + MORE, host, contents);
    assert_eq!(seen, Seen::default());
}

#[test]
fn a_file_alone_has_the_contents() {
    let folder = Folder::new("unsealed");
    let path = folder.path("file");
    let host = FileHost::create(&path, SHAPE).unwrap();
    let seen = look_ups(&path, BYTES, host, contents);
    assert!(seen.plain && seen.followed, "{seen:?}");
}

/// The store writes the same bytes again at each rebuild, so they are followed
/// from slot to slot.
#[test]
fn contents_sealed_before_they_are_written_are_followed() {
    let folder = Folder::new("before");
    let path = folder.path("file");
    let host = FileHost::create(&path, SHAPE).unwrap();
    let sealed = |block: usize| {
        let bytes: Vec<u8> = xored(&contents(block), block as u64).collect();
        bytes.try_into().unwrap()
    };
    let seen = look_ups(&path, BYTES, host, sealed);
    assert!(!seen.plain && seen.followed, "{seen:?}");
}

/// Neither the file nor its journal has the contents, whatever is saved and lost;
/// the client's file has those that wait.
#[test]
fn a_sealed_store_is_saved() {
    let folder = Folder::new("saved");
    let (path, client) = (folder.path("file"), folder.path("client"));
    let slots = Slots::of(SHAPE).with_bytes(BYTES + MORE);
    let host = ToySealed::new(FileHost::create(&path, slots).unwrap());
    let mut reader = Reader::open(SHAPE, host).unwrap();
    reader.write_all((0..32).map(contents)).unwrap();
    for round in 0..8 {
        reader.leave_jobs(2 * round);
        reader.save(&client).unwrap();
        reader.write(round, b"and this is lost").unwrap();
        for name in ["file", "file.journal"] {
            let bytes = std::fs::read(folder.path(name)).unwrap();
            let has = |text: &[u8]| bytes.windows(7).any(|seven| seven == text);
            assert!(!has(b" is hot") && !has(b"is lost"), "{name}");
        }
        drop(reader);
        let host = ToySealed::new(FileHost::open(&path, slots).unwrap());
        let (again, resumed) = Reader::load(&client, host).unwrap();
        assert!(
            round > 0 || resumed != Resumed::AsSaved,
            "its jobs were run"
        );
        reader = again;
        for block in 0..32 {
            assert_eq!(reader.read(block).unwrap().contents, contents(block));
        }
    }
}

/// A host that seals does not fit one whose slots are as short as blocks.
#[test]
fn slots_below_have_room_for_the_seal() {
    let folder = Folder::new("room");
    let host = ToySealed::new(FileHost::create(folder.path("file"), SHAPE).unwrap());
    assert!(Reader::open(SHAPE, host).is_err());
}
