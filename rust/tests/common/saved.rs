//! Slots that are written, read and saved at a host.

use rinwolfedd::{Command, Kind, NotResumed, SaveId, Saves, Shape};
use std::io;
use std::path::{Path, PathBuf};

pub const SHAPE: Shape = Shape::new(8, 2, 3, 4).with_window(4);

pub const fn id(number: u8) -> SaveId {
    SaveId::new([number; 16])
}

/// All slots of the shape.
pub fn places() -> impl Iterator<Item = (u8, u8, u16)> {
    (0..2).flat_map(|p| (0..3).flat_map(move |l| (0..2 << l).map(move |s| (p, l, s))))
}

pub fn command(kind: Kind, (partition, level, slot): (u8, u8, u16)) -> Command {
    Command {
        kind,
        partition,
        level,
        slot,
    }
}

pub fn write(host: &mut dyn Saves, place: (u8, u8, u16), bytes: &[u8]) -> io::Result<()> {
    host.submit(command(Kind::Write, place), bytes)?;
    host.next_completed(&mut [0; 4]).map(|_| ())
}

pub fn contents(host: &mut dyn Saves) -> Vec<[u8; 4]> {
    let read = |place| {
        let mut buffer = [0; 4];
        host.submit(command(Kind::Read, place), &[]).unwrap();
        host.next_completed(&mut buffer).unwrap();
        buffer
    };
    places().map(read).collect()
}

pub fn save(host: &mut dyn Saves, id: SaveId) {
    host.prepare(id).unwrap();
    host.commit(id).unwrap();
}

pub fn why(error: io::Error) -> NotResumed {
    let inside = error.into_inner().expect("a reason");
    *inside.downcast().expect("the reason of a save")
}

pub fn journal(path: &Path) -> PathBuf {
    format!("{}.journal", path.display()).into()
}
