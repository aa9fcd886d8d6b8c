//! Saves and loads of a reader whose host or folder fails on the way: no save is
//! lost by it, and the reader says whether it goes on.

#[path = "common/folder.rs"]
mod folder;

use folder::Folder;
use rinwolfedd::{Command, Error, Host, MemoryHost, Reader, Resumed};
use rinwolfedd::{SaveId, Saves, Shape, Slots};
use std::fs;
use std::io;

const SHAPE: Shape = Shape::new(24, 4, 4, 6).with_window(5);

/// A host that fails at one step.
#[derive(Debug)]
struct Fails {
    host: MemoryHost,
    at: &'static str,
}

impl Fails {
    fn step(&self, name: &str) -> io::Result<()> {
        match self.at == name {
            true => Err(io::Error::other("the wire is cut")),
            false => Ok(()),
        }
    }
}

impl Host for Fails {
    fn fits(&self, slots: Slots) -> io::Result<()> {
        self.host.fits(slots)
    }

    fn submit(&mut self, command: Command, bytes: &[u8]) -> io::Result<()> {
        self.step("submit")?;
        self.host.submit(command, bytes)
    }

    fn next_completed(&mut self, buffer: &mut [u8]) -> io::Result<Command> {
        self.host.next_completed(buffer)
    }
}

impl Saves for Fails {
    fn prepare(&mut self, id: SaveId) -> io::Result<()> {
        self.step("prepare")?;
        self.host.prepare(id)
    }

    fn commit(&mut self, id: SaveId) -> io::Result<()> {
        self.step("commit")?;
        self.host.commit(id)
    }

    fn resume(&mut self, id: SaveId) -> io::Result<Resumed> {
        self.step("resume")?;
        self.host.resume(id)
    }
}

fn failing() -> Reader<Fails> {
    let host = MemoryHost::new(SHAPE, 1).unwrap();
    Reader::open(SHAPE, Fails { host, at: "" }).unwrap()
}

/// Where a save fails before its end the one before is as good as it was, and the
/// reader goes on. If the end itself fails, the new one is good.
#[test]
fn saves_that_fail() {
    let folder = Folder::new("fail");
    let client = folder.path("client");
    let mut reader = failing();
    reader.write(3, b"spring").unwrap();
    reader.save(&client).unwrap();
    let saved = fs::read(&client).unwrap();
    reader.write(3, b"summer").unwrap();

    reader.host_mut().at = "prepare";
    let refused = reader.save(&client).unwrap_err();
    assert!(matches!(&refused, Error::NotSaved(_)) && !reader.is_unfinished());
    assert_eq!(refused.to_string(), "the reader was not saved");
    reader.host_mut().at = "";
    for path in [folder.path("no folder/client"), folder.0.clone()] {
        let refused = reader.save(path).unwrap_err();
        assert!(matches!(&refused, Error::NotSaved(_)), "{refused:?}");
    }
    assert_eq!(fs::read(&client).unwrap(), saved);
    assert_eq!(reader.read(3).unwrap().contents, b"summer");

    reader.host_mut().at = "commit";
    assert!(matches!(reader.save(&client), Err(Error::Host(_))));
    assert!(reader.is_unfinished());
    assert!(matches!(reader.read(3), Err(Error::Unfinished)));
    assert!(matches!(reader.save(&client), Err(Error::Unfinished)));
    let mut host = reader.into_host();
    host.at = "";
    let (mut reader, resumed) = Reader::load(&client, host).unwrap();
    assert_eq!(resumed, Resumed::AsSaved);
    assert_eq!(reader.read(3).unwrap().contents, b"summer");
}

/// A reader that failed midway is not saved; it goes back to its last save.
#[test]
fn a_reader_that_failed_midway() {
    let folder = Folder::new("midway");
    let client = folder.path("client");
    let mut reader = failing();
    reader.write(3, b"spring").unwrap();
    reader.save(&client).unwrap();
    reader.host_mut().at = "submit";
    assert!(matches!(reader.write(3, b"summer"), Err(Error::Host(_))));
    assert!(matches!(reader.save(&client), Err(Error::Unfinished)));
    let mut host = reader.into_host();
    host.at = "resume";
    let refused = Reader::load(&client, &mut host).unwrap_err();
    assert!(matches!(&refused, Error::Host(_)) && refused.not_resumed().is_none());
    host.at = "";
    let (mut reader, _) = Reader::load(&client, host).unwrap();
    assert_eq!(reader.read(3).unwrap().contents, b"spring");
}
