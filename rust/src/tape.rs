//! The tape: random words from which the calls draw.

use std::fmt;
use std::io::{self, Read};

/// Random words lent to a call: pairs of bytes, low byte first. A call takes
/// words from the front, and the tape moves on, so that no word is drawn from
/// twice. A refused call takes none.
///
/// A draw below m passes over words at or above the largest multiple of m that
/// is at most 65,536, so that each number below m is as likely as the others.
/// Passed words count as taken. m is a power of two for an open and a request,
/// and then none is passed over. An order of n slots has draws below n, n - 1,
/// .., 2; the longest, of 256 slots, passes over 0.22 words on average.
///
/// A turn that is refused for want of words has been lent all that were left,
/// and what the host is told then depends on them: they are not lent again, and
/// nothing is left of the tape.
///
/// ```
/// # use rinwolfedd::{Refusal, Request, Shape, Store, Tape};
/// // one that hides anything is random
/// let mut tape = Tape::new(&[0; 6]);
/// let mut store = Store::open(Shape::new(1, 1, 2, 1), &mut tape)?;
/// store.request(Request::Read { block: 0 }, &mut tape)?;
/// store.collect()?; // its two jobs run together, and write level 1
/// // the order of its four slots: below 3 the word 65,535 is passed over
/// let mut few = Tape::new(&[0, 0, 255, 255, 1, 0]);
/// assert_eq!(store.turn(&mut few), Err(Refusal::TooFewWords));
/// assert_eq!((few.taken(), few.left()), (0, 0));
/// let mut more = Tape::new(&[0, 0, 255, 255, 1, 0, 0, 0]);
/// store.turn(&mut more)?;
/// assert_eq!(more.taken(), 4);
/// # Ok::<(), Refusal>(())
/// ```
pub struct Tape<'a> {
    bytes: &'a [u8],
    taken: usize,
    /// The words that are not lent again: those taken, and those lent to a
    /// turn that found them too few.
    used: usize,
}

/// How many words, and none of them: who knows them knows the blocks.
impl fmt::Debug for Tape<'_> {
    fn fmt(&self, f: &mut fmt::Formatter<'_>) -> fmt::Result {
        f.debug_struct("Tape")
            .field("taken", &self.taken)
            .field("left", &self.left())
            .finish_non_exhaustive()
    }
}

impl<'a> Tape<'a> {
    /// A tape of these bytes. An odd last byte is no word.
    #[must_use]
    pub const fn new(bytes: &'a [u8]) -> Tape<'a> {
        Tape {
            bytes,
            taken: 0,
            used: 0,
        }
    }

    /// The words that calls have taken.
    #[must_use]
    pub fn taken(&self) -> usize {
        self.taken
    }

    /// The words left to lend.
    #[must_use]
    pub fn left(&self) -> usize {
        self.rest().len() / 2
    }

    /// The words that are not lent again.
    pub(crate) fn used(&self) -> usize {
        self.used
    }

    pub(crate) fn rest(&self) -> &'a [u8] {
        self.bytes.get(2 * self.used..).unwrap_or(&[])
    }

    pub(crate) fn take(&mut self, words: usize) {
        self.taken += words;
        self.used += words;
    }

    /// None of the words left is lent again.
    pub(crate) fn spend(&mut self) {
        self.used += self.left();
    }
}

/// The bytes read from a source at a time, beside those that are asked for.
const AHEAD: usize = 8192;

/// A tape that goes on: bytes of a source, read many at a time.
pub(crate) struct Supply<R> {
    source: R,
    bytes: Vec<u8>,
    /// Where the words begin that may be lent.
    at: usize,
}

impl<R: Read> Supply<R> {
    pub(crate) fn new(source: R) -> Supply<R> {
        Supply {
            source,
            bytes: Vec::new(),
            at: 0,
        }
    }

    /// Has at least so many words ready, or says why not: a source that ends is
    /// an `UnexpectedEof`. What came before an error is kept, and an error
    /// after enough words is left for later.
    pub(crate) fn ready(&mut self, words: usize) -> io::Result<()> {
        if self.tape().left() >= words {
            return Ok(());
        }
        self.bytes.drain(..self.at);
        self.at = 0;
        let more = 2 * words + AHEAD - self.bytes.len();
        let mut some = self.source.by_ref().take(more as u64);
        let read = some.read_to_end(&mut self.bytes);
        if self.tape().left() >= words {
            return Ok(());
        }
        read?;
        let few = format!("the words end: {} are left of {words}", self.tape().left());
        Err(io::Error::new(io::ErrorKind::UnexpectedEof, few))
    }

    /// The words that are ready.
    pub(crate) fn tape(&self) -> Tape<'_> {
        Tape::new(&self.bytes[self.at..])
    }

    /// So many words of the lent tape have been taken.
    pub(crate) fn take(&mut self, words: usize) {
        self.at += 2 * words;
    }
}

#[cfg(test)]
mod tests {
    use super::{AHEAD, Supply, Tape};
    use std::io::{self, Read};

    #[test]
    fn a_tape_moves_on() {
        let mut tape = Tape::new(&[1, 2, 3, 4, 5]);
        assert_eq!((tape.taken(), tape.left()), (0, 2));
        tape.take(1);
        assert_eq!(
            (tape.taken(), tape.left(), tape.rest()),
            (1, 1, &[3, 4, 5][..])
        );
    }

    #[test]
    fn a_spent_tape_lends_no_word_again() {
        let mut tape = Tape::new(&[1, 2, 3, 4, 5]);
        tape.take(1);
        tape.spend();
        assert_eq!((tape.taken(), tape.left(), tape.rest()), (1, 0, &[5][..]));
    }

    /// A source that hands out few bytes at a time.
    struct Slow<'a>(&'a [u8]);

    impl Read for Slow<'_> {
        fn read(&mut self, buffer: &mut [u8]) -> io::Result<usize> {
            let few = buffer.len().min(7);
            self.0.read(&mut buffer[..few])
        }
    }

    #[test]
    fn a_supply_hands_out_each_byte_once_and_in_order() {
        let all: Vec<u8> = (0..3 * AHEAD + 5).map(|i| ((i * i) >> 3) as u8).collect();
        let mut supply = Supply::new(Slow(&all));
        let mut seen = Vec::new();
        for words in (1..).map(|i| i * 37 % 256) {
            let ready = supply.ready(words);
            let tape = supply.tape();
            assert_eq!(ready.is_ok(), tape.left() >= words);
            let taken = words.min(tape.left());
            seen.extend_from_slice(&tape.rest()[..2 * taken]);
            supply.take(taken);
            if taken < words {
                break;
            }
        }
        assert_eq!(seen, all[..3 * AHEAD + 4]);
    }

    #[test]
    fn an_open_of_the_largest_store_is_lent_its_words() {
        let mut supply = Supply::new(io::repeat(1));
        supply.ready(4096).unwrap();
        assert!(supply.tape().left() >= 4096);
    }

    #[test]
    fn an_error_is_told_only_for_want_of_words() {
        struct Fails;
        impl Read for Fails {
            fn read(&mut self, _: &mut [u8]) -> io::Result<usize> {
                Err(io::Error::other("no more"))
            }
        }
        let mut supply = Supply::new([7; 9].chain(Fails));
        for words in [1, 4, 4] {
            supply.ready(words).unwrap();
        }
        assert_eq!(supply.ready(5).unwrap_err().to_string(), "no more");
        supply.take(1);
        supply.ready(3).unwrap();
        let mut supply = Supply::new(&[7; 9][..]);
        let ended = supply.ready(5).unwrap_err();
        assert_eq!(ended.kind(), io::ErrorKind::UnexpectedEof);
        assert_eq!(ended.to_string(), "the words end: 4 are left of 5");
    }

    #[test]
    fn a_printed_tape_has_no_words() {
        let mut tape = Tape::new(&[201, 202, 203, 204]);
        tape.take(1);
        assert_eq!(format!("{tape:?}"), "Tape { taken: 1, left: 1, .. }");
    }
}
