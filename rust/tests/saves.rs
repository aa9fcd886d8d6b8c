//! Slots that go back to a save: both hosts do the same, and say what is lost.

#[path = "common/folder.rs"]
mod folder;
#[path = "common/saved.rs"]
mod saved;

use folder::Folder;
use plain::rng::Rng;
use rinwolfedd::{FileHost, Host, Kind, MemoryHost, NotResumed};
use rinwolfedd::{Reader, Recorded, Resumed, SaveId, Saves, Shape};
use saved::{SHAPE, command, contents, id, journal, places, save, why, write};
use std::fs;
use std::io::{self, ErrorKind};

/// One step on both hosts, with the same answer.
fn same<T: PartialEq + std::fmt::Debug>(
    hosts: &mut [&mut dyn Saves; 2],
    step: impl Fn(&mut dyn Saves) -> io::Result<T>,
) -> Result<T, String> {
    let [first, second] = hosts;
    let answers = [step(*first), step(*second)];
    let [first, second] = answers.map(|answer| answer.map_err(|error| error.to_string()));
    assert_eq!(first, second);
    first
}

/// Random writes, saves, saves that come to no end, and ways back, wanted or
/// not: a host in memory and one in a file answer the same and hold the same.
#[test]
fn both_hosts_do_the_same() {
    let folder = Folder::new("both");
    let mut memory = MemoryHost::new(SHAPE, 1).unwrap();
    let mut file = FileHost::create(folder.path("file"), SHAPE).unwrap();
    let mut hosts: [&mut dyn Saves; 2] = [&mut memory, &mut file];
    let (mut rng, mut counts) = (Rng::new(7), [0; 5]);
    let places: Vec<_> = places().collect();
    for _ in 0..800 {
        let (any, place) = (id(rng.below(6) as u8), places[rng.below(places.len())]);
        let choice = [0, 0, 0, 0, 0, 0, 1, 2, 3, 4][rng.below(10)];
        let bytes = [rng.below(256) as u8; 4];
        let done = match choice {
            0 => same(&mut hosts, |host| write(host, place, &bytes)).is_ok(),
            1 => same(&mut hosts, |host| host.prepare(any)).is_ok(),
            2 => same(&mut hosts, |host| host.commit(any)).is_ok(),
            3 => same(&mut hosts, |host| {
                host.prepare(any)?;
                host.commit(any)
            })
            .is_ok(),
            _ => same(&mut hosts, |host| host.resume(any)).is_ok(),
        };
        counts[choice] += usize::from(done);
        same(&mut hosts, |host| Ok(contents(host))).unwrap();
    }
    println!("writes, prepares, commits, saves, ways back: {counts:?}");
    assert!(counts.iter().all(|count| *count > 8));
}

/// A host that comes back through whatever is in between, with a new one for the
/// file.
#[test]
fn a_file_goes_back_to_its_save() {
    let folder = Folder::new("back");
    let path = folder.path("file");
    let mut host = Recorded::new(Box::new(FileHost::create(&path, SHAPE).unwrap()));
    write(&mut host, (1, 2, 7), &[1; 4]).unwrap();
    save(&mut &mut host, id(1));
    assert_eq!(host.take().len(), 1);
    let saved = contents(&mut host);
    let file = fs::read(&path).unwrap();
    write(&mut host, (1, 2, 7), &[2; 4]).unwrap();
    write(&mut host, (0, 0, 0), &[3; 4]).unwrap();
    assert_eq!(
        fs::read(&path).unwrap(),
        file,
        "it is as it was at the save"
    );
    drop(host);

    let mut host = FileHost::open(&path, SHAPE).unwrap();
    let resumed = host.resume(id(1)).unwrap();
    assert_eq!(resumed, Resumed::RolledBack { slots: 2 });
    assert_eq!(contents(&mut host), saved);
    let told = "2 slots were written since the save and are as it left them again: \
                all look-ups since the save are lost";
    assert_eq!(resumed.to_string(), told);
    let resumed = host.resume(id(1)).unwrap();
    assert_eq!(resumed, Resumed::AsSaved);
    assert_eq!(resumed.to_string(), "no slot was written since the save");
}

#[test]
fn a_file_takes_no_command_before_it_goes_back() {
    let folder = Folder::new("first");
    let path = folder.path("file");
    save(&mut FileHost::create(&path, SHAPE).unwrap(), id(1));
    let mut host = FileHost::open(&path, SHAPE).unwrap();
    let before = [&path, &journal(&path)].map(|path| fs::read(path).unwrap());
    for (command, length) in [
        (command(Kind::Read, (0, 0, 0)), 0),
        (command(Kind::Write, (0, 0, 0)), 4),
    ] {
        let told = host.submit(command, &[1; 4][..length]).unwrap_err();
        assert_eq!(told.kind(), ErrorKind::InvalidInput);
        assert!(host.next_completed(&mut [0; 4]).is_err(), "none was taken");
    }
    assert!(host.prepare(id(2)).is_err());
    assert!(host.commit(id(1)).is_err());
    let (asked, last) = (id(2), id(1));
    let stale = host.resume(asked).unwrap_err();
    assert_eq!(stale.kind(), ErrorKind::InvalidInput);
    assert_eq!(why(stale), NotResumed::OtherSave { asked, last });
    let after = [&path, &journal(&path)].map(|path| fs::read(path).unwrap());
    assert_eq!(before, after, "nothing was changed");
    assert_eq!(host.resume(last).unwrap(), Resumed::AsSaved);
    write(&mut host, (0, 0, 0), &[1; 4]).unwrap();
}

/// The reason is one sentence, for whoever has to decide what to do.
#[test]
fn a_refusal_says_why() {
    let other = NotResumed::OtherSave {
        asked: id(0x1f),
        last: id(2),
    };
    let told = "the saved client 1f1f1f1f1f1f1f1f1f1f1f1f1f1f1f1f is older than the last save of \
                these slots, 02020202020202020202020202020202, or belongs to others";
    assert_eq!(other.to_string(), told);
    let mut host = MemoryHost::new(SHAPE, 1).unwrap();
    let never = host.resume(id(1)).unwrap_err();
    assert_eq!(never.kind(), ErrorKind::NotFound);
    assert_eq!(never.to_string(), "no client was saved with these slots");
    assert_eq!(
        format!("{:?}", id(3)),
        format!("SaveId({})", "03".repeat(16))
    );
    assert_ne!(SaveId::random().unwrap(), SaveId::random().unwrap());
}

/// While a command is outstanding there is nothing to save.
#[test]
fn saves_are_between_commands() {
    let folder = Folder::new("between");
    let mut memory = MemoryHost::new(SHAPE, 1).unwrap();
    let mut file = FileHost::create(folder.path("file"), SHAPE).unwrap();
    let hosts: [&mut dyn Saves; 2] = [&mut memory, &mut file];
    for host in hosts {
        save(host, id(1));
        let read = command(Kind::Read, (0, 0, 0));
        host.submit(read, &[]).unwrap();
        let refused = host.prepare(id(2)).unwrap_err();
        assert_eq!(refused.to_string(), "commands are outstanding at the host");
        // the client that submitted it is no more
        assert_eq!(host.resume(id(1)).unwrap(), Resumed::AsSaved);
        assert!(host.next_completed(&mut [0; 4]).is_err());
        host.prepare(id(2)).unwrap();
        write(host, (0, 0, 0), &[1; 4]).unwrap();
        assert!(host.commit(id(2)).is_err(), "a slot was written since");
    }
}

/// Look-ups with saves in between, of which every third is not committed, held
/// to an array; then each host goes back to the last save.
#[test]
fn look_ups_go_on_through_saves() {
    let folder = Folder::new("look-ups");
    let path = folder.path("file");
    let shape = Shape::new(31, 8, 4, 16).with_window(7);
    let hosts: [Box<dyn Saves>; 2] = [
        Box::new(MemoryHost::new(shape, 1).unwrap()),
        Box::new(FileHost::create(&path, shape).unwrap()),
    ];
    for host in hosts {
        let mut reader = Reader::open(shape, host).unwrap();
        let (mut rng, mut array) = (Rng::new(3), vec![vec![0; 16]; 31]);
        for look_up in 0..200 {
            let (block, new) = (rng.below(31), rng.bytes(16));
            let before = reader.write(block, &new).unwrap().contents;
            assert_eq!(before, array[block]);
            array[block] = new;
            if look_up % 9 == 8 {
                reader.host_mut().prepare(id(look_up)).unwrap();
            }
            if look_up % 27 == 8 || look_up % 27 == 17 {
                reader.host_mut().commit(id(look_up)).unwrap();
            }
        }
        let mut host = reader.into_host();
        let resumed = host.resume(id(197)).unwrap();
        assert!(matches!(resumed, Resumed::RolledBack { slots: 2.. }));
        assert!(host.resume(id(188)).is_err());
    }
}
