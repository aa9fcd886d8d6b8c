//! The words that a call may be lent, all of them for small words: which of
//! them settle its draws, with which numbers.

use crate::draws::Draws;
use crate::mistakes::Mistake;
use crate::rng::Rng;
use std::collections::HashMap;
use std::rc::Rc;

/// What becomes of the words lent to a turn that is answered 3. Words taken
/// are lent no more.
#[derive(Clone, Copy, Debug, PartialEq, Eq)]
pub enum Caller {
    /// They are lent no more, as document 02, P3, wants it.
    MovesOn,
    /// They are lent again with the next call, first of all.
    LendsAgain,
}

/// Words with which a call does the same.
#[derive(Clone, Debug)]
pub struct Way {
    /// Some such words, as many as are lent. Those after the ones seen may be
    /// any.
    pub words: Vec<u16>,
    pub seen: usize,
    /// Whether they settle all draws.
    pub settles: bool,
    /// The words seen already that are lent with the next call.
    pub again: Vec<u16>,
    /// How many there are, each cut off after the words seen.
    pub tapes: u128,
}

/// The bounds of a call's draws, the words that are lent again, and how many
/// it is lent.
type Lent = (Vec<usize>, Vec<u16>, usize);
/// The numbers drawn, or none if the words don't settle the draws; the words
/// seen, and those lent again.
type Does = (Option<Vec<usize>>, usize, Vec<u16>);

/// The ways of all calls met so far.
pub struct Words {
    width: u32,
    mistake: Mistake,
    caller: Caller,
    ways: HashMap<Lent, Rc<[Way]>>,
    rng: Rng,
}

impl Words {
    pub fn new(width: u32, mistake: Mistake, caller: Caller) -> Words {
        Words {
            width,
            mistake,
            caller,
            ways: HashMap::new(),
            rng: Rng::new(width.into()),
        }
    }

    pub fn width(&self) -> u32 {
        self.width
    }

    pub fn mistake(&self) -> Mistake {
        self.mistake
    }

    pub fn caller(&self) -> Caller {
        self.caller
    }

    /// The ways of a call that draws below these bounds, of whose words the
    /// first are known.
    pub fn ways(&mut self, bounds: &[usize], known: &[u16], lent: usize) -> Rc<[Way]> {
        let key = (bounds.to_vec(), known.to_vec(), lent);
        if let Some(ways) = self.ways.get(&key) {
            return ways.clone();
        }
        let mut found = HashMap::new();
        self.extend(&mut Vec::new(), &key, &mut found);
        let ways: Rc<[Way]> = found.into_values().collect();
        self.ways.insert(key, ways.clone());
        ways
    }

    /// Goes over all words that begin so, each up to the word that settles the
    /// last draw or to the last word lent.
    fn extend(&mut self, words: &mut Vec<u16>, call: &Lent, found: &mut HashMap<Does, Way>) {
        let (bounds, known, lent) = call;
        let mut noted = Vec::new();
        let mut draws = Draws::of_width(self.width, self.mistake, words, &mut noted);
        if draws.settle(bounds.iter().copied()) {
            let numbers = bounds.iter().map(|m| draws.below(*m)).collect();
            let taken = draws.taken();
            let again = rest(&words[taken..], known, words.len());
            self.note((Some(numbers), words.len(), again), words, *lent, found);
        } else if words.len() == *lent {
            let again = match self.caller {
                Caller::MovesOn => rest(&[], known, *lent),
                Caller::LendsAgain => rest(words, known, *lent),
            };
            self.note((None, *lent, again), words, *lent, found);
        } else {
            let all = 0..=u16::MAX >> (16 - self.width);
            let next = known.get(words.len()).map_or(all, |word| *word..=*word);
            for word in next {
                words.push(word);
                self.extend(words, call, found);
                words.pop();
            }
        }
    }

    fn note(&mut self, does: Does, words: &[u16], lent: usize, found: &mut HashMap<Does, Way>) {
        let (numbers, seen, again) = &does;
        let way = Way {
            words: self.padded(words, lent),
            seen: *seen,
            settles: numbers.is_some(),
            again: again.clone(),
            tapes: 0,
        };
        found.entry(does).or_insert(way).tapes += 1;
    }

    /// The words with any others after them.
    fn padded(&mut self, words: &[u16], lent: usize) -> Vec<u16> {
        let others = (words.len()..lent).map(|_| self.rng.below(1 << self.width) as u16);
        words.iter().copied().chain(others).collect()
    }
}

/// These words and, of the known ones, those from there on.
fn rest(words: &[u16], known: &[u16], from: usize) -> Vec<u16> {
    let unseen = known.get(from..).unwrap_or_default();
    [words, unseen].concat()
}
