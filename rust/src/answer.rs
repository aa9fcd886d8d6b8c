//! What a call reports.

use crate::command::{Command, Kind};
use crate::found::Found;
use crate::refusal::Refusal;
use std::fmt;

/// What a call reports, in the 64 bits that the library answers.
#[derive(Clone, Copy, PartialEq, Eq)]
#[must_use = "the call may have been refused"]
pub struct Answer(u64);

impl Answer {
    #[inline]
    pub(crate) const fn new(bits: u64) -> Answer {
        Answer(bits)
    }

    /// So many bits, from bit `low` on.
    #[inline]
    const fn part(self, low: u32, bits: u32) -> u16 {
        (self.0 >> low) as u16 & ((1 << bits) - 1)
    }

    /// The number answered: 0, or that of a [`Refusal`].
    #[inline]
    #[must_use]
    pub const fn number(self) -> u8 {
        self.part(0, 5) as u8
    }

    /// The command that a turn sent.
    #[inline]
    #[must_use]
    pub fn command(self) -> Option<Command> {
        let kind = Kind::try_from(self.part(5, 2) as u8).ok()?;
        Some(Command {
            kind,
            partition: self.part(7, 6) as u8,
            level: self.part(13, 4) as u8,
            slot: self.part(17, 11),
        })
    }

    /// Where a collect found the block; [`Found::Nowhere`] for every other call
    /// and for a refusal.
    ///
    /// **It is for the owner of the store, not for its host**, as [`Found`]
    /// says.
    ///
    /// # Panics
    ///
    /// If the bits name no place that a store can have, which the proved
    /// library never answers (theorem `found-below`): another library is linked.
    #[inline]
    #[must_use]
    pub fn found(self) -> Found {
        Found::try_from(self.part(28, 4) as u8).expect("the library is the proved one")
    }

    /// The words taken from the tape. A save and a page take none, and have
    /// their [length](Answer::length) here.
    #[inline]
    #[must_use]
    pub const fn taken(self) -> usize {
        (self.0 >> 32) as usize
    }

    /// The bytes of a saved form or of a page, which lie at the start of the
    /// buffer; 0 if it was refused. They stand in the same bits as the words
    /// that a call took.
    #[inline]
    #[must_use]
    pub const fn length(self) -> usize {
        self.taken()
    }

    /// All of it. What does not apply is 0.
    ///
    /// | bits, from the lowest | what |
    /// |---|---|
    /// | 0 to 4 | the number |
    /// | 5 and 6 | the command's kind |
    /// | 7 to 12 | its partition |
    /// | 13 to 16 | its level |
    /// | 17 to 27 | its slot |
    /// | 28 to 31 | where a collect [found](Found::number) the block |
    /// | 32 to 63 | the words taken, or the length of a saved form or a page |
    #[inline]
    #[must_use]
    pub const fn bits(self) -> u64 {
        self.0
    }

    /// The number by its name.
    ///
    /// # Errors
    ///
    /// The [`Refusal`] with the number, unless it is 0.
    ///
    /// # Panics
    ///
    /// If the number is above 18, which neither a call of the proved library
    /// nor its page ever answers (theorems `number-le`, `page-numbers`):
    /// another library is linked.
    #[inline]
    pub fn accepted(self) -> Result<(), Refusal> {
        match self.number() {
            0 => Ok(()),
            number => Err(Refusal::try_from(number).expect("the library is the proved one")),
        }
    }
}

/// Not where a block was found, so that no log has it.
impl fmt::Debug for Answer {
    fn fmt(&self, f: &mut fmt::Formatter<'_>) -> fmt::Result {
        f.debug_struct("Answer")
            .field("number", &self.number())
            .field("taken", &self.taken())
            .field("command", &self.command())
            .finish_non_exhaustive()
    }
}

#[cfg(test)]
mod tests {
    use super::Answer;
    use crate::command::{Command, Kind};
    use crate::found::Found;
    use crate::refusal::Refusal;

    /// An answer of the parts in their order, from the lowest on.
    const fn answer(parts: [u64; 7]) -> Answer {
        let [number, kind, partition, level, slot, found, taken] = parts;
        let command = kind << 5 | partition << 7 | level << 13 | slot << 17;
        Answer(number | command | found << 28 | taken << 32)
    }

    #[test]
    fn an_answer_is_taken_apart() {
        let sent = answer([0, 2, 4, 3, 258, 0, 255]);
        let command = Command {
            kind: Kind::Write,
            partition: 4,
            level: 3,
            slot: 258,
        };
        assert_eq!((sent.number(), sent.taken()), (0, 255));
        assert_eq!((sent.command(), sent.accepted()), (Some(command), Ok(())));
        assert_eq!(sent.found(), Found::Nowhere);
        let text = format!("{sent:?}");
        assert!(text.starts_with("Answer { number: 0, taken: 255, command: Some(Command {"));
    }

    /// Each part has all its bits, and none of another's.
    #[test]
    fn each_part_has_bits_of_its_own() {
        let most = [31, 2, 63, 15, 2047, 9, u64::from(u32::MAX)];
        for place in 0..7 {
            let mut parts = [0, 2, 0, 0, 0, 0, 0];
            parts[place] = most[place];
            let part = answer(parts);
            let sent = part.command().unwrap();
            let seen = [
                part.number().into(),
                sent.kind.number().into(),
                sent.partition.into(),
                sent.level.into(),
                sent.slot.into(),
                part.found().number().into(),
                part.taken() as u64,
            ];
            assert_eq!(seen, parts);
        }
        assert_eq!(answer([31, 3, 63, 15, 2047, 15, 0]).bits(), u32::MAX.into());
    }

    #[test]
    fn a_collect_tells_where_the_block_was_found() {
        for number in 0..10 {
            let collected = answer([0, 0, 0, 0, 0, number, 0]);
            assert_eq!(u64::from(collected.found().number()), number);
            assert_eq!((collected.number(), collected.taken()), (0, 0));
            assert_eq!(collected.command(), None);
            let text = "Answer { number: 0, taken: 0, command: None, .. }";
            assert_eq!(format!("{collected:?}"), text, "no log has it");
        }
    }

    #[test]
    fn a_length_stands_where_words_do() {
        let page = answer([0, 0, 0, 0, 0, 0, 1885]);
        assert_eq!((page.number(), page.length()), (0, crate::calls::PAGE));
        assert_eq!((page.taken(), page.command()), (1885, None));
        let saved = answer([0, 0, 0, 0, 0, 0, 2_208_768]);
        assert_eq!((saved.number(), saved.length()), (0, 2_208_768));
        for refused in [2, 15, 16] {
            assert_eq!(Answer(refused).length(), 0);
            assert_eq!(u64::from(Answer(refused).number()), refused);
        }
    }

    #[test]
    fn a_refused_answer_names_its_number() {
        assert_eq!(Answer(8).accepted(), Err(Refusal::CacheFull));
        assert_eq!(Answer(15).accepted(), Err(Refusal::BufferLength));
        assert_eq!(Answer(18).accepted(), Err(Refusal::NotAForm));
        assert_eq!((Answer(8).taken(), Answer(8).command()), (0, None));
        assert_eq!(Answer(14).found(), Found::Nowhere);
    }

    #[test]
    #[should_panic(expected = "the library is the proved one: UnknownNumber(19)")]
    fn a_number_that_no_call_answers_is_not_lost() {
        let _ = Answer(19).accepted();
    }

    #[test]
    #[should_panic(expected = "the library is the proved one: UnknownNumber(10)")]
    fn a_place_that_no_call_answers_is_not_lost() {
        let _ = answer([0, 0, 0, 0, 0, 10, 0]).found();
    }
}
