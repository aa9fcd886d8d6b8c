//! The file of a saved client: which store and which save it is of, and the form.
//!
//! | from | what |
//! |---|---|
//! | 0 | `RINWCLI1` |
//! | 8 | the first save of the store, 16 bytes |
//! | 24 | this save, 16 bytes |
//! | 40 | the sum of all before and of the form, low byte first |
//! | 48 | the form |
//!
//! The form's own sums are those of document 02, which two words that changed
//! places pass; this one tells that too, and whether file and save belong together.

use crate::disk::{Bytes, Disk};
use crate::journal::Sum;
use crate::saves::SaveId;
use std::io;
use std::path::{Path, PathBuf};

const MAGIC: &[u8; 8] = b"RINWCLI1";

/// Where the sum is, and where the form begins.
const SUM: usize = 40;
const FORM: usize = 48;

/// A client as its file has it. No log has it.
#[cfg_attr(test, derive(Debug, PartialEq, Eq))]
pub(crate) struct ClientFile {
    /// The store's first save, by which it is told from others.
    pub first: SaveId,
    pub id: SaveId,
    pub form: Vec<u8>,
}

fn damaged(what: &str) -> io::Error {
    io::Error::new(io::ErrorKind::InvalidData, what.to_string())
}

/// The same error, with the file's name.
fn named(path: &Path, error: io::Error) -> io::Error {
    io::Error::new(error.kind(), format!("{}: {error}", path.display()))
}

/// The file itself, by whatever name it is asked for; the name from the root on
/// where there is none yet.
pub(crate) fn place(path: &Path) -> io::Result<PathBuf> {
    match path.canonicalize() {
        Err(error) if error.kind() == io::ErrorKind::NotFound => std::path::absolute(path),
        place => place,
    }
    .map_err(|error| named(path, error))
}

fn id(bytes: &[u8], at: usize) -> SaveId {
    let mut id = [0; 16];
    id.copy_from_slice(&bytes[at..at + 16]);
    SaveId::new(id)
}

/// All bytes of a file of this name.
fn all<D: Disk>(disk: &D, path: &Path) -> io::Result<Vec<u8>> {
    let file = disk.open(path)?;
    let length = usize::try_from(file.length()?).map_err(|_| damaged("it is too long"))?;
    let mut bytes = vec![0; length];
    file.read(0, &mut bytes)?;
    Ok(bytes)
}

impl ClientFile {
    fn head(&self) -> [u8; FORM] {
        let mut head = [0; FORM];
        head[..8].copy_from_slice(MAGIC);
        head[8..24].copy_from_slice(&self.first.bytes());
        head[24..SUM].copy_from_slice(&self.id.bytes());
        let sum = Sum::new(0).add(&head[..SUM]).add(&self.form).value();
        head[SUM..].copy_from_slice(&sum.to_le_bytes());
        head
    }

    /// The client that these bytes are of.
    pub(crate) fn of(bytes: &[u8]) -> io::Result<ClientFile> {
        if bytes.len() < FORM || !bytes.starts_with(MAGIC) {
            return Err(damaged("this is not the file of a saved client"));
        }
        let client = ClientFile {
            first: id(bytes, 8),
            id: id(bytes, 24),
            form: bytes[FORM..].to_vec(),
        };
        if client.head() != bytes[..FORM] {
            return Err(damaged("the file of the saved client is damaged"));
        }
        Ok(client)
    }

    /// Reads the file. Its name may be newer than the disk's, and the host may
    /// soon forget the save of the file that a power cut would bring back: so the
    /// folder is synced.
    pub(crate) fn read<D: Disk>(disk: &D, path: &Path) -> io::Result<ClientFile> {
        let read = all(disk, path).and_then(|bytes| ClientFile::of(&bytes));
        let client = read.map_err(|error| named(path, error))?;
        disk.sync_folder(path)?;
        Ok(client)
    }

    /// Writes it to a new file, which takes this name once it is whole: a crash
    /// leaves the file that was there before, or this one. Nobody but its owner
    /// may read it.
    pub(crate) fn write<D: Disk>(&self, disk: &D, path: &Path) -> io::Result<()> {
        let mut new = path.as_os_str().to_owned();
        new.push(".new");
        let new = Path::new(&new);
        let file = disk.create(new).map_err(|error| named(new, error))?;
        file.keep_private()?; // before it has anything to hide
        file.write(0, &[&self.head()[..], &self.form].concat())?;
        file.sync()?;
        disk.rename(new, path)?;
        disk.sync_folder(path)
    }
}

/// Whether a client of the store with this first save may be written to this
/// name: a file of any other kind, or of another store, stays.
pub(crate) fn may_write<D: Disk>(disk: &D, path: &Path, first: Option<SaveId>) -> io::Result<()> {
    if !disk.exists(path).map_err(|error| named(path, error))? {
        return Ok(());
    }
    let mut head = [0; FORM];
    let file = disk.open(path).map_err(|error| named(path, error))?;
    // a file that is shorter is none of a client
    let whole = file.length()? >= FORM as u64;
    if whole {
        file.read(0, &mut head)?;
    }
    let own = head.starts_with(MAGIC) && Some(id(&head, 8)) == first;
    if own {
        return Ok(());
    }
    let text = format!("{} is there, and not of this store", path.display());
    Err(io::Error::new(io::ErrorKind::AlreadyExists, text))
}

#[cfg(test)]
mod tests {
    use super::ClientFile;
    use crate::saves::SaveId;

    fn client() -> ClientFile {
        ClientFile {
            first: SaveId::new([1; 16]),
            id: SaveId::new([2; 16]),
            form: (0..100).collect(),
        }
    }

    fn bytes(client: &ClientFile) -> Vec<u8> {
        [&client.head()[..], &client.form].concat()
    }

    #[test]
    fn what_is_written_is_read() {
        let client = client();
        assert_eq!(ClientFile::of(&bytes(&client)).unwrap(), client);
        let empty = ClientFile {
            form: Vec::new(),
            ..client
        };
        assert_eq!(ClientFile::of(&bytes(&empty)).unwrap(), empty);
    }

    #[test]
    fn every_bit_and_every_length_counts() {
        let good = bytes(&client());
        for bit in 0..8 * good.len() {
            let mut bad = good.clone();
            bad[bit / 8] ^= 1 << (bit % 8);
            assert!(ClientFile::of(&bad).is_err(), "bit {bit}");
        }
        for length in 0..good.len() {
            assert!(ClientFile::of(&good[..length]).is_err(), "{length} bytes");
        }
        let longer = [&good[..], &[0]].concat();
        assert!(ClientFile::of(&longer).is_err());
    }

    #[test]
    fn words_that_changed_places_are_told() {
        let good = bytes(&client());
        let mut bad = good.clone();
        bad[60..68].rotate_left(4);
        assert_ne!(bad, good);
        let told = ClientFile::of(&bad).unwrap_err().to_string();
        assert_eq!(told, "the file of the saved client is damaged");
        let told = ClientFile::of(b"genotypes").unwrap_err().to_string();
        assert_eq!(told, "this is not the file of a saved client");
    }
}
