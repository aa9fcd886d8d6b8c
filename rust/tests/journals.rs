//! The journal beside the file of a saved store: when it is there, who may have
//! it, how long it is, and what it notices.

#[path = "common/folder.rs"]
mod folder;
#[path = "common/saved.rs"]
mod saved;

use folder::Folder;
use rinwolfedd::{FileHost, Host, Kind, NotResumed, Resumed, Saves, Shape, Slots};
use saved::{SHAPE, command, contents, id, journal, places, save, why, write};
use std::fs::{self, File, OpenOptions, Permissions};
use std::io::{self, ErrorKind};
use std::os::unix::fs::PermissionsExt;

fn kind(result: io::Result<FileHost>) -> ErrorKind {
    result.unwrap_err().kind()
}

/// No journal is lost but by `reuse`, which says so.
#[test]
fn what_becomes_of_a_journal() {
    let folder = Folder::new("becomes");
    let path = folder.path("file");
    assert_eq!(kind(FileHost::open(&path, SHAPE)), ErrorKind::NotFound);
    drop(FileHost::create(&path, SHAPE).unwrap());
    assert!(!journal(&path).exists(), "none before the first save");
    let never = FileHost::open(&path, SHAPE).unwrap_err();
    assert_eq!(why(never), NotResumed::NeverSaved);

    let mut host = FileHost::reuse(&path, SHAPE).unwrap();
    save(&mut host, id(1));
    write(&mut host, (0, 0, 0), &[1; 4]).unwrap();
    drop(host);
    assert_eq!(
        kind(FileHost::create(&path, SHAPE)),
        ErrorKind::AlreadyExists
    );
    let longer = Slots::of(SHAPE).with_bytes(3);
    assert_eq!(kind(FileHost::open(&path, longer)), ErrorKind::InvalidInput);
    let larger = Shape::new(64, 8, 5, 4);
    assert_eq!(
        kind(FileHost::reuse(&path, larger)),
        ErrorKind::UnexpectedEof
    );
    assert_eq!(
        kind(FileHost::open(&path, larger)),
        ErrorKind::UnexpectedEof
    );
    assert!(journal(&path).exists(), "a refusal leaves it");
    drop(FileHost::reuse(&path, SHAPE).unwrap());
    assert!(!journal(&path).exists(), "a new store has no save");
}

#[test]
fn a_journal_whose_file_is_away() {
    let folder = Folder::new("away");
    let (path, away) = (folder.path("file"), folder.path("away"));
    save(&mut FileHost::create(&path, SHAPE).unwrap(), id(1));
    fs::rename(&path, &away).unwrap();
    let created = kind(FileHost::create(&path, SHAPE));
    assert_eq!(created, ErrorKind::AlreadyExists);
    assert!(!path.exists(), "no file was made beside another's journal");
    fs::rename(away, &path).unwrap();
    let mut host = FileHost::open(&path, SHAPE).unwrap();
    assert_eq!(host.resume(id(1)).unwrap(), Resumed::AsSaved);
}

/// What writes to the file behind the store's back is noticed.
#[test]
fn a_file_that_something_else_wrote_to() {
    let folder = Folder::new("else");
    let path = folder.path("file");
    save(&mut FileHost::create(&path, SHAPE).unwrap(), id(1));
    let opened = OpenOptions::new().read(true).write(true).open(&path);
    let mut nameless = FileHost::from_file(opened.unwrap(), SHAPE).unwrap();
    assert_eq!(
        nameless.prepare(id(2)).unwrap_err().kind(),
        ErrorKind::Unsupported
    );
    assert_eq!(
        why(nameless.resume(id(1)).unwrap_err()),
        NotResumed::NeverSaved
    );
    write(&mut nameless, (1, 2, 3), &[0, 0, 0, 1]).unwrap();
    drop(nameless);
    let mut host = FileHost::open(&path, SHAPE).unwrap();
    let damaged = host.resume(id(1)).unwrap_err();
    assert_eq!(damaged.kind(), ErrorKind::InvalidData);
    assert!(host.submit(command(Kind::Read, (0, 0, 0)), &[]).is_err());
}

/// A host has its file for itself, by whatever name it is asked for.
#[test]
fn one_host_at_a_time() {
    let folder = Folder::new("lock");
    let (path, link) = (folder.path("file"), folder.path("link"));
    let mut host = FileHost::create(&path, SHAPE).unwrap();
    std::os::unix::fs::symlink(&path, &link).unwrap();
    save(&mut host, id(1));
    for path in [&path, &link] {
        assert_eq!(kind(FileHost::open(path, SHAPE)), ErrorKind::ResourceBusy);
        assert_eq!(kind(FileHost::reuse(path, SHAPE)), ErrorKind::ResourceBusy);
    }
    assert!(journal(&path).exists() && !journal(&link).exists());
    drop(host);
    let mut host = FileHost::open(&link, SHAPE).unwrap();
    assert_eq!(host.resume(id(1)).unwrap(), Resumed::AsSaved);
    save(&mut host, id(2));
    assert!(journal(&path).exists() && !journal(&link).exists());
}

/// The journal is no longer than the slots take, however often they are written,
/// and empty after a save.
#[test]
fn a_journal_has_each_slot_once() {
    let folder = Folder::new("long");
    let path = folder.path("file");
    let mut host = FileHost::create(&path, SHAPE).unwrap();
    save(&mut host, id(1));
    for round in 0..9 {
        for place in places() {
            write(&mut host, place, &[round; 4]).unwrap();
        }
        let length = fs::metadata(journal(&path)).unwrap().len();
        assert_eq!(length, 128 + 28 * (16 + 24));
    }
    save(&mut host, id(2));
    assert_eq!(fs::metadata(journal(&path)).unwrap().len(), 128);
    assert_eq!(fs::read(&path).unwrap(), [8; 112]);
    let left = fs::read_dir(&folder.0).unwrap().count();
    assert_eq!(left, 2, "the file and the journal");
    assert!(
        File::open(&path).unwrap().try_lock().is_err(),
        "it is locked"
    );
}

/// Who may not read the slots may not read the journal.
#[test]
fn a_journal_is_for_those_who_have_the_file() {
    let folder = Folder::new("permissions");
    let path = folder.path("file");
    let mut host = FileHost::create(&path, SHAPE).unwrap();
    fs::set_permissions(&path, Permissions::from_mode(0o600)).unwrap();
    save(&mut host, id(1));
    let mode = |path| fs::metadata(path).unwrap().permissions().mode() & 0o777;
    assert_eq!(mode(journal(&path)), 0o600);
}

const LIMITED: &str = "RINWOLFEDD_LIMITED_JOURNAL";

/// A journal that has no room is told of at the write, and the save is good. This
/// test runs itself once more where files may have no more than some hundred
/// bytes.
#[test]
fn a_journal_that_has_no_room() {
    if let Some(path) = std::env::var_os(LIMITED) {
        let mut host = FileHost::create(&path, SHAPE).unwrap();
        save(&mut host, id(1));
        let full = places().find_map(|place| write(&mut host, place, &[1; 4]).err());
        assert_eq!(full.unwrap().kind(), ErrorKind::FileTooLarge);
        let resumed = host.resume(id(1)).unwrap();
        assert!(matches!(resumed, Resumed::RolledBack { slots: 1.. }));
        assert_eq!(contents(&mut host), [[0; 4]; 28]);
        save(&mut host, id(2));
        return;
    }
    let folder = Folder::new("no-room");
    let ran = std::process::Command::new("sh")
        .args(["-c", "trap '' XFSZ; ulimit -f 1; exec \"$0\" \"$@\""])
        .arg(std::env::current_exe().unwrap())
        .args(["--exact", "a_journal_that_has_no_room"])
        .env(LIMITED, folder.path("file"))
        .output()
        .unwrap();
    assert!(ran.status.success(), "{ran:?}");
    assert!(journal(&folder.path("file")).exists());
}
