//! The host that keeps the slots.

use crate::command::Command;
use crate::slots::Slots;
use std::io;

/// Who keeps the slots: a file, a machine across a network, a test. It is not
/// trusted with what is looked up, only with bringing back what was written.
///
/// Commands are submitted, at most W at a time before one completes, and may
/// complete in any order: a slot never has two commands outstanding.
///
/// A host whose slots can go back to those of a saved client is one that
/// [`Saves`](crate::Saves).
///
/// # Sealing
///
/// The commands hide the block; the bytes beside them do not. A host is handed
/// what the store has: at each rebuild the same bytes of a block again, for
/// another slot, and zeros for a slot without a block (a dummy). Contents that
/// are sealed before [`Reader::write`](crate::Reader::write) can still be
/// followed from slot to slot, and told from zeros.
///
/// Who sees the bytes must therefore see them sealed by a host in between: in
/// [`submit`](Host::submit) it seals every write, dummies too, each time with
/// fresh randomness and to the same length; in
/// [`next_completed`](Host::next_completed) it opens what a read brought.
/// Below it [`FileHost`](crate::FileHost) and
/// [`MemoryHost`](crate::MemoryHost) keep the longer slots that it says
/// ([`Slots::with_bytes`]).
pub trait Host {
    /// Whether it keeps these slots. [`Reader`](crate::Reader) asks it once, for
    /// slots of B bytes, before anything is sent; one that seals asks the host
    /// below for its longer ones. Unless a host says otherwise, it does.
    ///
    /// # Errors
    ///
    /// That it does not, and why.
    fn fits(&self, slots: Slots) -> io::Result<()> {
        let _ = slots;
        Ok(())
    }

    /// Takes a command. A write comes with the bytes of one block, a read with
    /// none.
    ///
    /// # Errors
    ///
    /// Whatever keeps the host from taking it. It is midway in a look-up, and
    /// any error ends the reader: to try again is up to the host.
    fn submit(&mut self, command: Command, bytes: &[u8]) -> io::Result<()>;

    /// Waits until one of the submitted commands has completed, and says
    /// which. The bytes that a read brings fill the buffer, which is as long
    /// as a block; after a write its bytes mean nothing.
    ///
    /// # Errors
    ///
    /// Whatever keeps a submitted command from completing, and that none is
    /// outstanding. As in [`submit`](Host::submit) it ends the reader.
    fn next_completed(&mut self, buffer: &mut [u8]) -> io::Result<Command>;
}

impl<H: Host + ?Sized> Host for &mut H {
    fn fits(&self, slots: Slots) -> io::Result<()> {
        (**self).fits(slots)
    }

    fn submit(&mut self, command: Command, bytes: &[u8]) -> io::Result<()> {
        (**self).submit(command, bytes)
    }

    fn next_completed(&mut self, buffer: &mut [u8]) -> io::Result<Command> {
        (**self).next_completed(buffer)
    }
}

/// A `Box<dyn Host>` is for a host that is chosen when the program runs.
impl<H: Host + ?Sized> Host for Box<H> {
    fn fits(&self, slots: Slots) -> io::Result<()> {
        (**self).fits(slots)
    }

    fn submit(&mut self, command: Command, bytes: &[u8]) -> io::Result<()> {
        (**self).submit(command, bytes)
    }

    fn next_completed(&mut self, buffer: &mut [u8]) -> io::Result<Command> {
        (**self).next_completed(buffer)
    }
}

/// A host that notes the commands that it sees, in the order in which they
/// were submitted, and not the bytes.
#[derive(Clone, Debug, Default)]
pub struct Recorded<H> {
    host: H,
    commands: Vec<Command>,
}

impl<H> Recorded<H> {
    /// Notes the commands that this host sees.
    #[must_use]
    pub fn new(host: H) -> Recorded<H> {
        Recorded {
            host,
            commands: Vec::new(),
        }
    }

    /// The commands seen since the last [`take`](Recorded::take).
    #[must_use]
    pub fn commands(&self) -> &[Command] {
        &self.commands
    }

    /// Hands out the commands seen so far, and begins anew.
    pub fn take(&mut self) -> Vec<Command> {
        std::mem::take(&mut self.commands)
    }

    /// The host below.
    #[must_use]
    pub fn host(&self) -> &H {
        &self.host
    }

    /// Gives the host below back.
    #[must_use]
    pub fn into_host(self) -> H {
        self.host
    }

    pub(crate) fn host_mut(&mut self) -> &mut H {
        &mut self.host
    }
}

impl<H: Host> Host for Recorded<H> {
    fn fits(&self, slots: Slots) -> io::Result<()> {
        self.host.fits(slots)
    }

    fn submit(&mut self, command: Command, bytes: &[u8]) -> io::Result<()> {
        self.commands.push(command);
        self.host.submit(command, bytes)
    }

    fn next_completed(&mut self, buffer: &mut [u8]) -> io::Result<Command> {
        self.host.next_completed(buffer)
    }
}

/// Hosts ask these of what they are given; an error is better than a panic.
pub(crate) fn wrong(what: String) -> io::Error {
    io::Error::new(io::ErrorKind::InvalidInput, what)
}

pub(crate) fn none_outstanding() -> io::Error {
    wrong("no command is outstanding at the host".into())
}

/// Slots are saved between commands.
pub(crate) fn still_outstanding() -> io::Error {
    wrong("commands are outstanding at the host".into())
}
