//! Draws from the words lent with a call (document 01, "Draws", with document
//! 02, P3): a draw below m passes over the words at or above a limit and takes
//! the first word below it.

use crate::mistakes::Mistake;

/// The bits of a word. The model can be run with fewer, so that all words of
/// a tape can be gone over.
pub const WIDTH: u32 = 16;

/// The largest multiple of m that is at most 2^width: below it are equally
/// many words for each number below m.
pub fn limit(m: usize, width: u32) -> usize {
    let all = 1 << width;
    all - all % m
}

/// The words lent with a call. The bound of each draw is noted, so that all
/// tapes of a list can be enumerated.
pub struct Draws<'a> {
    words: &'a [u16],
    bounds: &'a mut Vec<usize>,
    /// The words passed over or drawn from so far.
    seen: usize,
    width: u32,
    mistake: Mistake,
}

impl<'a> Draws<'a> {
    /// Draws from words of 16 bits by the right rules.
    pub fn new(words: &'a [u16], bounds: &'a mut Vec<usize>) -> Draws<'a> {
        Draws::of_width(WIDTH, Mistake::None, words, bounds)
    }

    pub fn of_width(
        width: u32,
        mistake: Mistake,
        words: &'a [u16],
        bounds: &'a mut Vec<usize>,
    ) -> Draws<'a> {
        Draws {
            words,
            bounds,
            seen: 0,
            width,
            mistake,
        }
    }

    pub fn left(&self) -> usize {
        self.words.len() - self.seen
    }

    /// Words passed over count as taken.
    pub fn taken(&self) -> usize {
        match self.mistake {
            Mistake::PassedNotCounted => self.bounds.len(),
            _ => self.seen,
        }
    }

    /// Whether the words left settle draws below these bounds, in turn. This
    /// takes none, so that a call can be refused.
    pub fn settle(&self, bounds: impl IntoIterator<Item = usize>) -> bool {
        let mut from = self.seen;
        bounds.into_iter().all(|m| match self.settling(from, m) {
            Some(at) => {
                from = at + 1;
                true
            }
            None => false,
        })
    }

    /// Draws a number below m. The words left have to settle it.
    pub fn below(&mut self, m: usize) -> usize {
        let settling = self.settling(self.seen, m);
        let at = settling.expect("the words lent settle a draw that is made");
        self.bounds.push(m);
        self.seen = at + 1;
        usize::from(self.words[at]) % m
    }

    /// Where the first word is, from there on, that a draw below m takes.
    fn settling(&self, from: usize, m: usize) -> Option<usize> {
        (from..self.words.len()).find(|at| self.takes(self.words[*at], m))
    }

    fn takes(&self, word: u16, m: usize) -> bool {
        let (word, limit) = (usize::from(word), limit(m, self.width));
        match self.mistake {
            Mistake::NothingPassed => true,
            Mistake::LimitTaken => word <= limit,
            _ => word < limit,
        }
    }
}
