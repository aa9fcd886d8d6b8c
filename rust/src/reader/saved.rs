//! Readers that are saved, and go on in another program.

use super::{RANDOM, Reader};
use crate::client_file::{self, ClientFile};
use crate::disk::System;
use crate::error::Error;
use crate::refusal::Refusal;
use crate::saves::{Resumed, SaveId, Saves};
use crate::store::Store;
use crate::tape::Supply;
use std::fs::File;
use std::io::Read;
use std::path::Path;

impl<H: Saves> Reader<H> {
    /// Goes on from a save, with the operating system's randomness: the reader is
    /// as it was when it was [saved](Reader::save) to this file, and the host's
    /// slots go back to that save. Says whether anything was lost since.
    ///
    /// ```
    /// use rinwolfedd::{FileHost, Reader, Resumed, Shape};
    ///
    /// # let folder = std::env::temp_dir().join(format!("rinwolfedd-load-{}", std::process::id()));
    /// # std::fs::create_dir(&folder)?;
    /// # let [slots, client] = ["slots", "client"].map(|name| folder.join(name));
    /// let shape = Shape::hiding(64, 8)?;
    /// let mut reader = Reader::open(shape, FileHost::create(&slots, shape)?)?;
    /// reader.write(42, b"genotype")?;
    /// reader.save(&client)?;
    /// reader.write(42, b"mistaken")?;
    /// drop(reader); // the machine stops, and nothing was saved since
    ///
    /// let (mut reader, resumed) = Reader::load(&client, FileHost::open(&slots, shape)?)?;
    /// if resumed != Resumed::AsSaved {
    ///     println!("{resumed}"); // such as "8 slots were written since the save and .."
    /// }
    /// assert_eq!(reader.read(42)?.contents, b"genotype");
    /// # std::fs::remove_dir_all(folder)?;
    /// # Ok::<(), Box<dyn std::error::Error>>(())
    /// ```
    ///
    /// Contents are those of the save, all of them: what was looked up, written and
    /// rebuilt since is undone, in the slots and in the client alike
    /// ([`Resumed::RolledBack`]). If a crash comes in the middle of that, it is
    /// loaded again. Only the last save of these slots is loaded; an older one, and
    /// one of another store, is refused, and nothing is changed.
    ///
    /// Jobs that were [left](Reader::leave_jobs) at the save are left now. How many
    /// look-ups may leave or let [gather](Reader::gather_jobs), the
    /// [tally](Reader::tally), the [waits](Reader::waits) and the number of
    /// [commands](Reader::commands) begin anew.
    ///
    /// # What is proved of it
    ///
    /// A client that is loaded from what the call just before saved goes on as if
    /// there had been neither: it brings what an array would, and the commands hide
    /// the block over both. That covers a reader whose program made no look-up
    /// after its last save.
    ///
    /// **After a roll-back the host may learn more.** It has seen look-ups that the
    /// client no longer knows of, and slots that were read then may be read again:
    /// by these it can link a look-up before the crash with one after it, such as
    /// two of one block. To save often keeps those few. ([`Resumed::AsSaved`] says
    /// that no slot was written; of a look-up that was only begun the host may still
    /// have seen reads.)
    ///
    /// # Errors
    ///
    /// [`Error::NotLoaded`] if the file cannot be read or is none of a client,
    /// [`Error::Refused`] if the form in it is none that this version loads.
    /// [`Error::Host`] for a host that the store does not [fit](crate::Host::fits),
    /// or whose slots do not go back to this save: why, is told by
    /// [`not_resumed`](Error::not_resumed). [`Error::Words`] if the system has no
    /// random words.
    pub fn load(path: impl AsRef<Path>, host: H) -> Result<(Reader<H>, Resumed), Error> {
        let random = File::open(RANDOM).map_err(Error::Words)?;
        Reader::load_with_words(path, host, random)
    }
}

impl<H: Saves, R: Read> Reader<H, R> {
    /// As [`load`](Reader::load), with words of this source. They have to be new:
    /// none that was taken before the save or since may come again.
    ///
    /// # Errors
    ///
    /// Those of [`load`](Reader::load).
    pub fn load_with_words(
        path: impl AsRef<Path>,
        mut host: H,
        words: R,
    ) -> Result<(Reader<H, R>, Resumed), Error> {
        let place = client_file::place(path.as_ref());
        let client = place.and_then(|place| ClientFile::read(&System, &place));
        let client = client.map_err(Error::NotLoaded)?;
        let store = Store::load(&client.form)?;
        host.fits(store.shape().into()).map_err(Error::Host)?;
        // all that could be wrong with the client was asked before: this cannot
        // be undone
        let resumed = host.resume(client.id).map_err(Error::Host)?;
        let mut reader = Reader::of(store, host, Supply::new(words));
        reader.first_save = Some(client.first);
        Ok((reader, resumed))
    }

    /// Saves the client to a file of this name, and lets the host make sure that
    /// its slots can go back to this save ([`Saves`]). From now on
    /// [`load`](Reader::load) goes on from here. Hands back which save it is.
    ///
    /// The form is written to a file beside it (of the same name and `.new`),
    /// synced, renamed, and the folder synced: a crash leaves the save before or
    /// this one, whole and with its slots. It replaces an earlier save of this
    /// store, and no other file; if that was written elsewhere, its file is of no
    /// use from now on. The reader goes on, and may be saved again.
    ///
    /// A job that has begun is run to its end first, with those that it took with
    /// it; jobs that are [left](Reader::leave_jobs) and have not begun are saved as
    /// they are. Who wants none left calls [`settle`](Reader::settle) before.
    ///
    /// **The file is the client's secret.** It has where each block is and the
    /// contents of those that wait in the cache, and nobody seals it: only its
    /// owner may read it (mode 600), and it should not lie where the host does.
    ///
    /// # Errors
    ///
    /// [`Error::NotSaved`] if the host does not prepare the save or the file is not
    /// written: the save before is left, or this one if only the folder was not
    /// synced, and the reader goes on, unless its host does not. [`Error::Host`] and
    /// [`Error::NotRandom`] end the reader, as in a look-up; if it was the save's end
    /// that failed at the host, the save is good, and is to be loaded.
    /// [`Error::Words`] for want of words for the jobs that have begun, or of the
    /// system's random bytes; [`Error::Unfinished`] of a reader that failed midway,
    /// which can only go back to its last save.
    pub fn save(&mut self, path: impl AsRef<Path>) -> Result<SaveId, Error> {
        let place = client_file::place(path.as_ref());
        let place = place.map_err(Error::NotSaved)?;
        client_file::may_write(&System, &place, self.first_save).map_err(Error::NotSaved)?;
        let form = self.form_at_rest()?;
        let id = SaveId::random().map_err(Error::Words)?;
        let first = *self.first_save.get_or_insert(id);
        self.host.prepare(id).map_err(Error::NotSaved)?;
        let client = ClientFile { first, id, form };
        client.write(&System, &place).map_err(Error::NotSaved)?;
        let committed = self.host.commit(id).map_err(Error::Host);
        self.unfinished = committed.is_err();
        committed?;
        Ok(id)
    }

    /// The form of the store, once no job is under way.
    fn form_at_rest(&mut self) -> Result<Vec<u8>, Error> {
        if self.unfinished {
            return Err(Error::Unfinished);
        }
        let saved = self.store.save();
        if saved != Err(Refusal::NotAtRest) || self.store.queued() == 0 {
            return Ok(saved?);
        }
        // jobs that run together write at most all levels: for that the words of two
        // are enough
        let words = self.words_of(self.store.queued().min(2));
        self.words.ready(words).map_err(Error::Words)?;
        self.unfinished = true;
        self.run_jobs(self.store.queued() - 1)?;
        self.unfinished = false;
        Ok(self.store.save()?)
    }
}

#[cfg(test)]
mod tests {
    use super::{ClientFile, Reader, SaveId, Saves, System};
    use crate::error::Error;
    use crate::memory_host::MemoryHost;
    use crate::refusal::Refusal;
    use crate::saves::Resumed;
    use crate::shape::Shape;

    /// A client's file that is whole, with a form that is none: such as that of a
    /// later version. The host is not asked for anything.
    #[test]
    fn a_form_that_is_none_is_refused_before_the_host_goes_back() {
        let name = format!("rinwolfedd-no-form-{}", std::process::id());
        let path = std::env::temp_dir().join(name);
        let shape = Shape::new(8, 2, 3, 4);
        let (mut host, id) = (MemoryHost::new(shape, 1).unwrap(), SaveId::new([3; 16]));
        host.prepare(id).unwrap();
        let mut refused = Vec::new();
        for form in [vec![0; 512], vec![1; 512], Vec::new()] {
            let client = ClientFile {
                first: id,
                id,
                form,
            };
            client.write(&System, &path).unwrap();
            refused.push(Reader::load(&path, &mut host).map(|_| ()));
        }
        std::fs::remove_file(&path).unwrap();
        let names = [
            Refusal::NotAForm,
            Refusal::FormDamaged,
            Refusal::FormDamaged,
        ];
        for (refused, wanted) in refused.into_iter().zip(names) {
            assert!(matches!(refused, Err(Error::Refused(name)) if name == wanted));
        }
        assert_eq!(host.resume(id).unwrap(), Resumed::AsSaved);
    }
}
