//! Many blocks, stored one after the other.

use super::Reader;
use crate::error::Error;
use crate::host::Host;
use std::io::Read;

impl<H: Host, R: Read> Reader<H, R> {
    /// Writes block 0, 1, 2, .. as long as there are contents, and hands back
    /// how many are stored.
    ///
    /// # Errors
    ///
    /// Those of [`write_from`](Reader::write_from).
    pub fn write_all<C: AsRef<[u8]>>(
        &mut self,
        contents: impl IntoIterator<Item = C>,
    ) -> Result<usize, Error> {
        self.write_from(0, contents)
    }

    /// As [`write_all`](Reader::write_all), and says after each block how many
    /// are stored. [`Progress`](crate::Progress) makes a line of it:
    ///
    /// ```
    /// # use rinwolfedd::{Error, MemoryHost, Progress, Reader, Shape};
    /// # let shape = Shape::hiding(64, 8)?;
    /// # let mut reader = Reader::open(shape, MemoryHost::new(shape, 1)?)?;
    /// let progress = Progress::to_stderr("storing blocks", 64);
    /// reader.write_all_with([[7; 8]; 64], progress.into_callback())?;
    /// # Ok::<(), Error>(())
    /// ```
    ///
    /// # Errors
    ///
    /// Those of [`write_from`](Reader::write_from).
    pub fn write_all_with<C: AsRef<[u8]>>(
        &mut self,
        contents: impl IntoIterator<Item = C>,
        stored: impl FnMut(usize),
    ) -> Result<usize, Error> {
        self.write_from_with(0, contents, stored)
    }

    /// As [`write_all`](Reader::write_all), from block `first` on: to go on
    /// after an error, or to store in parts.
    ///
    /// # Errors
    ///
    /// Those of [`write`](Reader::write) at the first block that has one; the
    /// blocks before it are stored.
    pub fn write_from<C: AsRef<[u8]>>(
        &mut self,
        first: usize,
        contents: impl IntoIterator<Item = C>,
    ) -> Result<usize, Error> {
        self.write_from_with(first, contents, |_| ())
    }

    /// As [`write_from`](Reader::write_from), and says after each block how many
    /// are stored, the first one as 1.
    ///
    /// # Errors
    ///
    /// Those of [`write_from`](Reader::write_from).
    pub fn write_from_with<C: AsRef<[u8]>>(
        &mut self,
        first: usize,
        contents: impl IntoIterator<Item = C>,
        mut stored: impl FnMut(usize),
    ) -> Result<usize, Error> {
        let mut count = 0;
        for contents in contents {
            // no overflow: a first block of N or more is refused at once
            self.write(first + count, contents.as_ref())?;
            count += 1;
            stored(count);
        }
        Ok(count)
    }
}
