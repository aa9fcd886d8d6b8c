//! A disk in memory that loses what was not synced, at an operation that can be
//! chosen.

use crate::disk::{Bytes, Disk};
use std::cell::{RefCell, RefMut};
use std::collections::BTreeMap;
use std::io;
use std::path::{Path, PathBuf};
use std::rc::Rc;

/// What a crash takes of what was not synced.
#[derive(Clone, Copy, Debug)]
pub(super) enum Loss {
    /// Nothing: the program ended, and the system goes on. It still is not
    /// synced.
    Nothing,
    /// All.
    All,
    /// Some writes, parts of writes and names, by this seed.
    Some(u64),
}

/// What happens at the operation that is chosen.
#[derive(Clone, Copy, Debug, PartialEq, Eq)]
pub(super) enum Fault {
    /// It is done in part at most, and none is done after it.
    Crash,
    /// It fails and the next ones do not. A sync that fails loses what the disk
    /// has not: later ones do not bring it there.
    Error,
}

#[derive(Clone, Default, PartialEq, Eq, Debug)]
struct File {
    now: Vec<u8>,
    synced: Vec<u8>,
    /// Those that are not synced.
    writes: Vec<(usize, Vec<u8>)>,
}

/// A change of names: this one is the file's, or nobody's.
#[derive(Clone, PartialEq, Eq, Debug)]
struct Change {
    removes: Option<PathBuf>,
    adds: Option<(PathBuf, usize)>,
}

#[derive(Clone, Debug)]
struct World {
    files: Vec<File>,
    names: BTreeMap<PathBuf, usize>,
    synced: BTreeMap<PathBuf, usize>,
    changes: Vec<Change>,
    /// The operations so far, and the one at which a fault comes.
    done: usize,
    at: usize,
    fault: Fault,
    seed: u64,
}

/// Clones are the same disk.
#[derive(Clone)]
pub(super) struct Simulated(Rc<RefCell<World>>);

/// A file of it that is open.
pub(super) struct Open(Rc<RefCell<World>>, usize);

fn put(bytes: &mut Vec<u8>, at: usize, new: &[u8]) {
    bytes.resize(bytes.len().max(at + new.len()), 0);
    bytes[at..at + new.len()].copy_from_slice(new);
}

fn broken() -> io::Error {
    io::Error::other("the disk is gone")
}

impl Change {
    /// The folder of its names, of which there is one.
    fn folder(&self) -> Option<&Path> {
        let added = self.adds.as_ref().map(|(path, _)| path);
        self.removes.as_ref().or(added)?.parent()
    }

    fn make(&self, names: &mut BTreeMap<PathBuf, usize>) {
        if let Some(path) = &self.removes {
            names.remove(path);
        }
        if let Some((path, file)) = &self.adds {
            names.insert(path.clone(), *file);
        }
    }
}

impl World {
    /// A number below m, by the generator splitmix64.
    fn below(&mut self, m: usize) -> usize {
        self.seed = self.seed.wrapping_add(0x9E37_79B9_7F4A_7C15);
        let mut z = self.seed;
        z = (z ^ (z >> 30)).wrapping_mul(0xBF58_476D_1CE4_E5B9);
        z = (z ^ (z >> 27)).wrapping_mul(0x94D0_49BB_1331_11EB);
        ((z ^ (z >> 31)) % m as u64) as usize
    }

    /// Whether nothing is done any more.
    fn crashed(&self) -> bool {
        self.fault == Fault::Crash && self.done > self.at
    }

    /// Counts an operation: whether it is done, or is the one at fault.
    fn operation(&mut self) -> io::Result<bool> {
        if self.crashed() {
            return Err(broken());
        }
        self.done += 1;
        Ok(self.done <= self.at || self.done > self.at + 1)
    }

    fn change(&mut self, change: Change) -> io::Result<()> {
        let good = self.operation()?;
        if good || self.below(2) == 0 {
            change.make(&mut self.names);
            self.changes.push(change);
        }
        if good { Ok(()) } else { Err(broken()) }
    }

    /// The bytes of a file of which some writes are lost.
    fn survived(&mut self, file: &File) -> Vec<u8> {
        let mut bytes = file.synced.clone();
        for (at, new) in &file.writes {
            let cut = self.below(new.len() + 1);
            match self.below(4) {
                0 => {}
                1 => put(&mut bytes, *at, new),
                2 => put(&mut bytes, *at, &new[..cut]),
                _ => put(&mut bytes, *at + cut, &new[cut..]),
            }
        }
        bytes
    }

    fn lose(&mut self, loss: Loss) {
        let files = std::mem::take(&mut self.files);
        for file in &files {
            let bytes = match loss {
                Loss::Some(_) => self.survived(file),
                _ => file.synced.clone(),
            };
            self.files.push(File {
                now: bytes.clone(),
                synced: bytes,
                writes: Vec::new(),
            });
        }
        for change in std::mem::take(&mut self.changes) {
            if matches!(loss, Loss::Some(_)) && self.below(2) == 0 {
                change.make(&mut self.synced);
            }
        }
        self.names = self.synced.clone();
    }
}

impl Simulated {
    pub(super) fn new() -> Simulated {
        Simulated(Rc::new(RefCell::new(World {
            files: Vec::new(),
            names: BTreeMap::new(),
            synced: BTreeMap::new(),
            changes: Vec::new(),
            done: 0,
            at: usize::MAX - 1,
            fault: Fault::Crash,
            seed: 0,
        })))
    }

    fn world(&self) -> RefMut<'_, World> {
        self.0.borrow_mut()
    }

    /// This fault comes after so many more operations.
    pub(super) fn fault(&self, after: usize, fault: Fault) {
        let mut world = self.world();
        (world.done, world.at, world.fault) = (0, after, fault);
        world.seed = after as u64;
    }

    /// The operations since the fault was chosen.
    pub(super) fn done(&self) -> usize {
        self.world().done
    }

    /// Whether the fault came.
    pub(super) fn faulted(&self) -> bool {
        let world = self.world();
        world.done > world.at
    }

    /// Another disk, as this one is found after a crash now.
    pub(super) fn crash(&self, loss: Loss) -> Simulated {
        let mut world = self.world().clone();
        world.seed = 1;
        if let Loss::Some(seed) = loss {
            world.seed = seed;
        }
        if !matches!(loss, Loss::Nothing) {
            world.lose(loss);
        }
        (world.done, world.at) = (0, usize::MAX - 1);
        Simulated(Rc::new(RefCell::new(world)))
    }

    /// The bytes of a file, if there is one of this name.
    pub(super) fn bytes(&self, path: &Path) -> Option<Vec<u8>> {
        let world = self.world();
        let file = world.names.get(path)?;
        Some(world.files[*file].now.clone())
    }
}

impl Disk for Simulated {
    type File = Open;

    fn open(&self, path: &Path) -> io::Result<Open> {
        let world = self.world();
        let file = *world.names.get(path).ok_or(io::ErrorKind::NotFound)?;
        if world.crashed() {
            return Err(broken());
        }
        Ok(Open(self.0.clone(), file))
    }

    fn create(&self, path: &Path) -> io::Result<Open> {
        let mut world = self.world();
        let file = world.files.len();
        world.files.push(File::default());
        world.change(Change {
            removes: None,
            adds: Some((path.into(), file)),
        })?;
        Ok(Open(self.0.clone(), file))
    }

    fn exists(&self, path: &Path) -> io::Result<bool> {
        Ok(self.world().names.contains_key(path))
    }

    fn rename(&self, from: &Path, to: &Path) -> io::Result<()> {
        let mut world = self.world();
        let file = *world.names.get(from).ok_or(io::ErrorKind::NotFound)?;
        world.change(Change {
            removes: Some(from.into()),
            adds: Some((to.into(), file)),
        })
    }

    fn remove(&self, path: &Path) -> io::Result<()> {
        self.world().change(Change {
            removes: Some(path.into()),
            adds: None,
        })
    }

    fn sync_folder(&self, path: &Path) -> io::Result<()> {
        let mut world = self.world();
        let good = world.operation()?;
        if !good && world.fault == Fault::Crash {
            return Err(broken());
        }
        let changes = std::mem::take(&mut world.changes);
        let inside = |change: &Change| change.folder() == path.parent();
        let (changes, others) = changes.into_iter().partition(inside);
        world.changes = others;
        let changes: Vec<Change> = changes;
        if !good {
            return Err(broken());
        }
        changes.iter().for_each(|c| c.make(&mut world.synced));
        Ok(())
    }
}

impl Bytes for Open {
    fn permit_as(&self, _: &Open) -> io::Result<()> {
        Ok(())
    }

    fn keep_private(&self) -> io::Result<()> {
        Ok(())
    }

    fn length(&self) -> io::Result<u64> {
        Ok(self.0.borrow().files[self.1].now.len() as u64)
    }

    fn read(&self, at: u64, buffer: &mut [u8]) -> io::Result<()> {
        let world = self.0.borrow();
        let bytes = &world.files[self.1].now;
        let at = at as usize;
        let part = bytes.get(at..at + buffer.len());
        buffer.copy_from_slice(part.ok_or(io::ErrorKind::UnexpectedEof)?);
        Ok(())
    }

    fn write(&self, at: u64, bytes: &[u8]) -> io::Result<()> {
        let mut world = self.0.borrow_mut();
        let good = world.operation()?;
        let cut = world.below(bytes.len() + 1);
        let new = if good { bytes } else { &bytes[..cut] };
        let file = &mut world.files[self.1];
        put(&mut file.now, at as usize, new);
        file.writes.push((at as usize, new.to_vec()));
        if good { Ok(()) } else { Err(broken()) }
    }

    fn sync(&self) -> io::Result<()> {
        let mut world = self.0.borrow_mut();
        let good = world.operation()?;
        let crash = world.fault == Fault::Crash;
        let file = &mut world.files[self.1];
        if good {
            let writes = std::mem::take(&mut file.writes);
            writes
                .iter()
                .for_each(|(at, w)| put(&mut file.synced, *at, w));
            return Ok(());
        }
        if !crash {
            file.writes.clear();
        }
        Err(broken())
    }
}
