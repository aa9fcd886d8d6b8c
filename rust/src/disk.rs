//! What is asked of the file system, in one place: tests put a disk here that
//! loses what was not synced.

use std::fs::{File, OpenOptions, Permissions};
use std::io;
use std::os::unix::fs::{FileExt, PermissionsExt};
use std::path::Path;

/// Files by their names. What a call did is on the disk after a crash only if
/// a sync came in between: of the file for its bytes, of the folder for its
/// names.
pub(crate) trait Disk {
    type File: Bytes;

    /// A file that exists, for reading and writing.
    fn open(&self, path: &Path) -> io::Result<Self::File>;

    /// An empty file of this name, also where one was.
    fn create(&self, path: &Path) -> io::Result<Self::File>;

    fn exists(&self, path: &Path) -> io::Result<bool>;

    /// Gives a file another name, from which another file is gone then.
    fn rename(&self, from: &Path, to: &Path) -> io::Result<()>;

    fn remove(&self, path: &Path) -> io::Result<()>;

    /// Waits until the names in the folder of this file are on the disk.
    fn sync_folder(&self, path: &Path) -> io::Result<()>;
}

/// The bytes of one file.
pub(crate) trait Bytes {
    /// Lets those read and write it who may the other file.
    fn permit_as(&self, other: &Self) -> io::Result<()>;

    /// Lets nobody read and write it but its owner.
    fn keep_private(&self) -> io::Result<()>;

    fn length(&self) -> io::Result<u64>;

    /// Fills the buffer from here on.
    fn read(&self, at: u64, buffer: &mut [u8]) -> io::Result<()>;

    fn write(&self, at: u64, bytes: &[u8]) -> io::Result<()>;

    /// Waits until its bytes are on the disk.
    fn sync(&self) -> io::Result<()>;
}

/// The operating system's.
#[derive(Clone, Copy, Debug)]
pub(crate) struct System;

impl Disk for System {
    type File = File;

    fn open(&self, path: &Path) -> io::Result<File> {
        OpenOptions::new().read(true).write(true).open(path)
    }

    fn create(&self, path: &Path) -> io::Result<File> {
        let mut options = OpenOptions::new();
        options.read(true).write(true).create(true).truncate(true);
        options.open(path)
    }

    fn exists(&self, path: &Path) -> io::Result<bool> {
        std::fs::exists(path)
    }

    fn rename(&self, from: &Path, to: &Path) -> io::Result<()> {
        std::fs::rename(from, to)
    }

    fn remove(&self, path: &Path) -> io::Result<()> {
        std::fs::remove_file(path)
    }

    fn sync_folder(&self, path: &Path) -> io::Result<()> {
        let folder = path.parent().unwrap_or(Path::new("/"));
        File::open(folder)?.sync_all()
    }
}

impl Bytes for File {
    fn permit_as(&self, other: &File) -> io::Result<()> {
        self.set_permissions(other.metadata()?.permissions())
    }

    fn keep_private(&self) -> io::Result<()> {
        self.set_permissions(Permissions::from_mode(0o600))
    }

    fn length(&self) -> io::Result<u64> {
        Ok(self.metadata()?.len())
    }

    fn read(&self, at: u64, buffer: &mut [u8]) -> io::Result<()> {
        self.read_exact_at(buffer, at)
    }

    fn write(&self, at: u64, bytes: &[u8]) -> io::Result<()> {
        self.write_all_at(bytes, at)
    }

    fn sync(&self) -> io::Result<()> {
        self.sync_all()
    }
}
