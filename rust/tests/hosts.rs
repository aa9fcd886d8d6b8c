//! The hosts of this crate: what they refuse, which stores fit them, and what
//! a file host leaves on the disk.

#[path = "common/folder.rs"]
mod folder;

use folder::Folder;
use rinwolfedd::{Command, Error, FileHost, Host, Kind, MemoryHost};
use rinwolfedd::{Reader, Recorded, Refusal, Shape, Slots};
use std::fs::File;
use std::io::{self, ErrorKind};
use std::os::unix::fs::MetadataExt;
use std::path::{Path, PathBuf};

const SHAPE: Shape = Shape::new(8, 2, 3, 4).with_window(4);

/// The bytes of the shape's 2 × 14 slots.
const LENGTH: u64 = 112;

const OUT_OF_BOUNDS: Shape = Shape::new(8, 3, 3, 4);
const FAR_OUT: Shape = Shape::new(usize::MAX, usize::MAX, usize::MAX, usize::MAX);

/// A file of so many bytes.
fn file(folder: &Folder, name: &str, length: u64) -> PathBuf {
    let path = folder.path(name);
    File::create(&path).unwrap().set_len(length).unwrap();
    path
}

fn kind(result: io::Result<FileHost>) -> ErrorKind {
    result.unwrap_err().kind()
}

#[test]
fn files_that_cannot_hold_the_slots() {
    let folder = Folder::new("files");
    let missing = folder.path("missing");
    assert_eq!(kind(FileHost::reuse(&missing, SHAPE)), ErrorKind::NotFound);
    assert!(!missing.exists(), "to use again creates nothing");
    let nowhere = folder.path("no folder/file");
    assert_eq!(kind(FileHost::create(nowhere, SHAPE)), ErrorKind::NotFound);
    assert!(FileHost::reuse(&folder.0, SHAPE).is_err(), "a folder");

    let short = file(&folder, "short", LENGTH - 1);
    let short = FileHost::reuse(short, SHAPE).unwrap_err();
    assert_eq!(short.kind(), ErrorKind::UnexpectedEof);
    let text = "the file has 111 bytes, the slots take 112";
    assert_eq!(short.to_string(), text);
    let long = file(&folder, "long", LENGTH + 1);
    assert!(FileHost::reuse(&long, SHAPE).is_ok());
    let sealed = Slots::of(SHAPE).with_bytes(5);
    assert_eq!(
        kind(FileHost::reuse(long, sealed)),
        ErrorKind::UnexpectedEof
    );

    let there = file(&folder, "there", 3);
    let exists = kind(FileHost::create(&there, SHAPE));
    assert_eq!(exists, ErrorKind::AlreadyExists);
    assert_eq!(there.metadata().unwrap().len(), 3, "it is as it was");
}

#[test]
fn slots_that_cannot_be() {
    let folder = Folder::new("slots");
    let path = folder.path("out of bounds");
    let vast = Slots::of(SHAPE).with_bytes(usize::MAX / 28);
    for slots in [OUT_OF_BOUNDS.into(), FAR_OUT.into(), vast] {
        let created = kind(FileHost::create(&path, slots));
        assert_eq!(created, ErrorKind::InvalidInput);
        assert!(!path.exists());
        let host = MemoryHost::new(slots, 1).err();
        assert_eq!(host, Some(Refusal::ShapeOutOfBounds));
    }
}

/// The room is taken when the file is created, not when slots are written. A
/// file system that keeps zeros without taking room is not asked for it.
#[test]
fn a_created_file_has_its_room() {
    let folder = Folder::new("room");
    let zeros = folder.path("zeros");
    std::fs::write(&zeros, [0; 65536]).unwrap();
    File::open(&zeros).unwrap().sync_all().unwrap();
    let takes_room = zeros.metadata().unwrap().blocks() * 512 >= 65536;
    let shape = Shape::new(1024, 16, 7, 256);
    let path = folder.path("file");
    for (slots, each) in [
        (Slots::of(shape), 256),
        (Slots::of(shape).with_bytes(300), 300),
    ] {
        drop(FileHost::create(&path, slots).unwrap());
        let created = path.metadata().unwrap();
        assert_eq!(created.len(), 16 * 254 * each);
        let full = created.blocks() * 512 >= created.len();
        assert!(full || !takes_room, "it has holes");
        std::fs::remove_file(&path).unwrap();
    }
}

const LIMITED: &str = "RINWOLFEDD_LIMITED_FILE";

/// A file that cannot be filled is removed again. This test runs itself once
/// more where files may have no more than some hundred bytes.
#[test]
fn a_file_that_has_no_room_is_not_left() {
    if let Some(path) = std::env::var_os(LIMITED) {
        let created = kind(FileHost::create(&path, Shape::new(1024, 16, 7, 256)));
        assert_eq!(created, ErrorKind::FileTooLarge);
        assert!(!Path::new(&path).exists(), "the file is left");
        assert!(FileHost::create(&path, SHAPE).is_ok(), "a small one fits");
        return;
    }
    let folder = Folder::new("limited");
    let ran = std::process::Command::new("sh")
        .args(["-c", "trap '' XFSZ; ulimit -f 1; exec \"$0\" \"$@\""])
        .arg(std::env::current_exe().unwrap())
        .args(["--exact", "a_file_that_has_no_room_is_not_left"])
        .env(LIMITED, folder.path("file"))
        .output()
        .unwrap();
    assert!(ran.status.success(), "{ran:?}");
    assert_eq!(folder.path("file").metadata().unwrap().len(), LENGTH);
}

const WRITE: Command = Command {
    kind: Kind::Write,
    partition: 1,
    level: 2,
    slot: 7,
};

const READ: Command = Command {
    kind: Kind::Read,
    ..WRITE
};

/// Both hosts refuse the same, when it is submitted; the next command finds
/// nothing of it.
#[test]
fn hosts_asked_for_what_they_have_not() {
    let folder = Folder::new("asked");
    let mut memory = MemoryHost::new(SHAPE, 1).unwrap();
    let mut file = FileHost::create(folder.path("file"), SHAPE).unwrap();
    let hosts: [&mut dyn Host; 2] = [&mut memory, &mut file];
    for host in hosts {
        let refused = |result: io::Result<()>| result.unwrap_err().kind();
        let none = host.next_completed(&mut [0; 4]);
        assert_eq!(none.unwrap_err().kind(), ErrorKind::InvalidInput);
        for (length, command) in [(4, WRITE), (0, READ)] {
            let bytes = &[1, 2, 3, 4][..length];
            for wrong in [
                Command { slot: 8, ..command },
                Command {
                    level: 3,
                    ..command
                },
                Command {
                    partition: 2,
                    ..command
                },
                Command {
                    slot: u16::MAX,
                    level: 255,
                    ..command
                },
            ] {
                assert_eq!(refused(host.submit(wrong, bytes)), ErrorKind::InvalidInput);
            }
            for wrong in [&[0; 3][..], &[0; 5], &[0; 4 - 4][..], &[0; 4]] {
                if wrong.len() != length {
                    let told = refused(host.submit(command, wrong));
                    assert_eq!(told, ErrorKind::InvalidInput);
                }
            }
        }
        assert!(host.next_completed(&mut [0; 4]).is_err(), "none was taken");
    }
}

/// A read for which the buffer has not a slot's length stays outstanding.
#[test]
fn a_buffer_of_another_length_costs_no_command() {
    let folder = Folder::new("buffer");
    let mut memory = MemoryHost::new(SHAPE, 1).unwrap();
    let mut file = FileHost::create(folder.path("file"), SHAPE).unwrap();
    let hosts: [&mut dyn Host; 2] = [&mut memory, &mut file];
    for host in hosts {
        host.submit(WRITE, &[1, 2, 3, 4]).unwrap();
        assert_eq!(host.next_completed(&mut []).unwrap(), WRITE);
        host.submit(READ, &[]).unwrap();
        for length in [0, 3, 5] {
            let told = host.next_completed(&mut vec![0; length]).unwrap_err();
            assert_eq!(told.kind(), ErrorKind::InvalidInput);
        }
        let mut buffer = [0; 4];
        assert_eq!(host.next_completed(&mut buffer).unwrap(), READ);
        assert_eq!(buffer, [1, 2, 3, 4]);
    }
}

/// Opens a reader of this shape and says how the host does not fit.
fn fits(shape: Shape, host: impl Host) -> Result<(), ErrorKind> {
    match Reader::open(shape, Recorded::new(host)) {
        Ok(mut reader) => {
            let contents = vec![1; shape.bytes()];
            let stored = reader.write_all(vec![contents; shape.blocks()]);
            assert_eq!(stored.unwrap(), shape.blocks());
            Ok(())
        }
        Err(Error::Host(error)) => Err(error.kind()),
        Err(error) => panic!("{error:?}"),
    }
}

/// The host is asked before anything is sent to it, through whatever is in
/// between; it may have more slots than the store, but none of another length.
#[test]
fn a_store_fits_its_host() {
    let folder = Folder::new("fits");
    let wrong = Err(ErrorKind::InvalidInput);
    for (index, (shape, wanted)) in [
        (SHAPE, Ok(())),
        (Shape::new(2, 1, 2, 4), Ok(())),
        (Shape::new(8, 4, 3, 4), wrong),
        (Shape::new(8, 2, 4, 4), wrong),
        (Shape::new(8, 2, 3, 3), wrong),
        (Shape::new(8, 2, 3, 5), wrong),
    ]
    .into_iter()
    .enumerate()
    {
        let path = folder.path(&index.to_string());
        let mut memory = MemoryHost::new(SHAPE, 1).unwrap();
        let mut file = FileHost::create(path, SHAPE).unwrap();
        assert_eq!(fits(shape, &mut memory), wanted, "{shape}");
        assert_eq!(fits(shape, &mut file), wanted, "{shape}");
        let hosts: [Box<dyn Host>; 2] = [Box::new(memory), Box::new(file)];
        for host in hosts {
            assert_eq!(fits(shape, host), wanted, "{shape}");
        }
    }
    let longer = MemoryHost::new(Slots::of(SHAPE).with_bytes(20), 1).unwrap();
    assert_eq!(fits(SHAPE, longer), wrong);
}
