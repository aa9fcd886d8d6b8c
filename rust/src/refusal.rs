//! Why a call was refused.

use std::fmt;

/// The question to which the reply was no. Its number is that of the document
/// that sets the rules; 0 is no refusal. A refused call changes no byte that it
/// was lent, but a refused open or load leaves zeros in the state: it is closed.
#[derive(Clone, Copy, Debug, PartialEq, Eq, Hash)]
#[non_exhaustive]
#[repr(u8)]
pub enum Refusal {
    /// Open: is the shape within bounds?
    ShapeOutOfBounds = 1,
    /// Is the memory long enough, is each number of the state, and the kind, in
    /// its range? In a closed state they are not. Save: is the buffer as long as
    /// the shape's longest form?
    NotReady = 2,
    /// Do the words that are left of the tape settle the call's draws?
    TooFewWords = 3,
    /// Request: is no request in hand?
    RequestInHand = 4,
    /// Request: is the block below N?
    NoSuchBlock = 5,
    /// Request: has a write contents of B bytes, and a read none?
    ContentsLength = 6,
    /// Request: are at most 62 jobs queued?
    QueueFull = 7,
    /// Request: has the eviction cache a place for the block, or does the block
    /// wait there?
    CacheFull = 8,
    /// Turn: are fewer than W commands outstanding?
    WindowFull = 9,
    /// Turn: is there a command to send?
    NothingToSend = 10,
    /// Completion: is the command outstanding?
    NotOutstanding = 11,
    /// Completion: has a read B bytes, and a write none?
    CompletionLength = 12,
    /// Collect: is a request in hand?
    NoRequest = 13,
    /// Collect: is the request finished?
    NotFinished = 14,
    /// Turn that writes, collect: has the buffer B bytes? Page: is it as long
    /// as the page, or longer?
    BufferLength = 15,
    /// Save: is no request in hand, no command outstanding and no job begun?
    NotAtRest = 16,
    /// Load: is the length a positive multiple of 512, and has each block its
    /// sum?
    FormDamaged = 17,
    /// Load: is it a form, with each number in its range?
    NotAForm = 18,
}

impl Refusal {
    /// All refusals, number 1 first.
    pub const ALL: &[Refusal] = &[
        Refusal::ShapeOutOfBounds,
        Refusal::NotReady,
        Refusal::TooFewWords,
        Refusal::RequestInHand,
        Refusal::NoSuchBlock,
        Refusal::ContentsLength,
        Refusal::QueueFull,
        Refusal::CacheFull,
        Refusal::WindowFull,
        Refusal::NothingToSend,
        Refusal::NotOutstanding,
        Refusal::CompletionLength,
        Refusal::NoRequest,
        Refusal::NotFinished,
        Refusal::BufferLength,
        Refusal::NotAtRest,
        Refusal::FormDamaged,
        Refusal::NotAForm,
    ];

    /// The document's number, 1 to 18.
    #[must_use]
    pub const fn number(self) -> u8 {
        self as u8
    }

    fn text(self) -> &'static str {
        match self {
            Refusal::ShapeOutOfBounds => "the shape is out of bounds",
            Refusal::NotReady => {
                "the memory or a form's buffer is too short, or a number of the state or the kind \
                 is out of its range"
            }
            Refusal::TooFewWords => "too few random words are left",
            Refusal::RequestInHand => "a request is in hand",
            Refusal::NoSuchBlock => "there is no such block",
            Refusal::ContentsLength => "a write has a block's bytes for contents, a read none",
            Refusal::QueueFull => "the queue of jobs is full",
            Refusal::CacheFull => "the eviction cache is full",
            Refusal::WindowFull => "as many commands are outstanding as may be",
            Refusal::NothingToSend => "there is no command to send",
            Refusal::NotOutstanding => "no such command is outstanding",
            Refusal::CompletionLength => "a read completes with a block's bytes, a write with none",
            Refusal::NoRequest => "no request is in hand",
            Refusal::NotFinished => "the request is not finished",
            Refusal::BufferLength => {
                "the buffer is not as long as a block, or too short for a page"
            }
            Refusal::NotAtRest => "a request is in hand, a command outstanding or a job begun",
            Refusal::FormDamaged => "the saved form is cut, or a sum of it is wrong",
            Refusal::NotAForm => "these bytes are no form of a client",
        }
    }
}

impl fmt::Display for Refusal {
    fn fmt(&self, f: &mut fmt::Formatter<'_>) -> fmt::Result {
        write!(f, "refusal {}: {}", self.number(), self.text())
    }
}

impl std::error::Error for Refusal {}

impl TryFrom<u8> for Refusal {
    type Error = UnknownNumber;

    /// The refusal with this number, 1 to 18.
    fn try_from(number: u8) -> Result<Refusal, UnknownNumber> {
        let index = usize::from(number).wrapping_sub(1);
        let refusal = Refusal::ALL.get(index).copied();
        refusal.ok_or(UnknownNumber::new(number))
    }
}

/// A number that is none of those asked for: of no [`Refusal`], of no
/// [`Kind`](crate::Kind), or of no [`Found`](crate::Found).
#[derive(Clone, Copy, Debug, PartialEq, Eq, Hash)]
pub struct UnknownNumber(u8);

impl UnknownNumber {
    pub(crate) const fn new(number: u8) -> UnknownNumber {
        UnknownNumber(number)
    }

    /// The number.
    #[must_use]
    pub const fn number(self) -> u8 {
        self.0
    }
}

impl fmt::Display for UnknownNumber {
    fn fmt(&self, f: &mut fmt::Formatter<'_>) -> fmt::Result {
        write!(f, "nothing has the number {}", self.0)
    }
}

impl std::error::Error for UnknownNumber {}

#[cfg(test)]
mod tests {
    use super::Refusal;

    #[test]
    fn numbers_and_refusals_are_one_to_one() {
        for number in 0..=255 {
            match Refusal::try_from(number) {
                Ok(refusal) => assert_eq!(refusal.number(), number),
                Err(other) => {
                    assert!(other.number() == number && !(1..=18).contains(&number));
                    assert_eq!(
                        other.to_string(),
                        format!("nothing has the number {number}")
                    );
                }
            }
        }
        assert_eq!(Refusal::try_from(8), Ok(Refusal::CacheFull));
        assert_eq!(Refusal::try_from(18), Ok(Refusal::NotAForm));
    }

    #[test]
    fn a_refusal_says_its_number() {
        for refusal in Refusal::ALL {
            let (text, number) = (refusal.to_string(), refusal.number());
            let said = text.strip_prefix(&format!("refusal {number}: "));
            assert!(said.is_some_and(|said| !said.is_empty()), "{text}");
        }
        let text = Refusal::NoSuchBlock.to_string();
        assert_eq!(text, "refusal 5: there is no such block");
        let text = Refusal::CompletionLength.to_string();
        assert!(text.ends_with("a read completes with a block's bytes, a write with none"));
    }
}
