//! Why a look-up, a save or a load came to nothing.

use crate::refusal::Refusal;
use crate::saves::NotResumed;
use std::fmt;
use std::io;

/// Why a look-up, a save or a load came to nothing. Only [`Error::Host`] and
/// [`Error::NotRandom`] can come midway, with commands sent; after either a
/// reader makes no more look-ups.
///
/// It prints what failed; why is in its [`source`](std::error::Error::source).
#[derive(Debug)]
#[non_exhaustive]
pub enum Error {
    /// A call was refused, such as one for a block or a length that is none of
    /// the store's. Nothing was sent for it, and the reader goes on.
    Refused(Refusal),
    /// The host failed, or does not fit the store's shape, or completed what it
    /// was not sent: then its kind is `InvalidData`, with the [`Refusal`]
    /// inside. Of a load: its slots do not go back to the save
    /// ([`not_resumed`](Error::not_resumed)).
    Host(io::Error),
    /// The source of random words failed, or ended (`UnexpectedEof`). Nothing
    /// was sent, and the reader goes on if there are words again.
    Words(io::Error),
    /// A look-up, or jobs that were left, passed over so many words that they
    /// cannot be random: whoever gives such words hides nothing.
    NotRandom,
    /// An earlier look-up failed midway, or jobs that it left did, and what the
    /// host has done of it is not known: the reader makes no more.
    Unfinished,
    /// The reader was not saved: the host did not prepare the save, or the
    /// client's file was not written. That file is still the one of the save
    /// before, or already the new one, and loads; the reader goes on.
    NotSaved(io::Error),
    /// The file of the saved client could not be read, or is none. Nothing was
    /// changed.
    NotLoaded(io::Error),
}

impl Error {
    /// Why the host's slots do not go back to the save that was to be loaded.
    /// Nothing was changed then.
    #[must_use]
    pub fn not_resumed(&self) -> Option<&NotResumed> {
        match self {
            Error::Host(error) => error.get_ref()?.downcast_ref(),
            _ => None,
        }
    }

    /// Another refusal after commands were sent. The reader has asked for all
    /// that a look-up needs before it, so what is left is a completion of
    /// something that is not outstanding.
    pub(crate) fn midway(refusal: Refusal) -> Error {
        Error::Host(io::Error::new(io::ErrorKind::InvalidData, refusal))
    }
}

impl fmt::Display for Error {
    fn fmt(&self, f: &mut fmt::Formatter<'_>) -> fmt::Result {
        f.write_str(match self {
            Error::Refused(_) => "the store refused",
            Error::Host(_) => "the host failed",
            Error::Words(_) => "there are no random words",
            Error::NotRandom => "too many words were passed over: they are not random",
            Error::Unfinished => "an earlier look-up, or jobs that it left, failed midway",
            Error::NotSaved(_) => "the reader was not saved",
            Error::NotLoaded(_) => "there is no saved reader to load",
        })
    }
}

impl std::error::Error for Error {
    fn source(&self) -> Option<&(dyn std::error::Error + 'static)> {
        match self {
            Error::Refused(refusal) => Some(refusal),
            Error::Host(error)
            | Error::Words(error)
            | Error::NotSaved(error)
            | Error::NotLoaded(error) => Some(error),
            Error::NotRandom | Error::Unfinished => None,
        }
    }
}

impl From<Refusal> for Error {
    fn from(refusal: Refusal) -> Error {
        Error::Refused(refusal)
    }
}
