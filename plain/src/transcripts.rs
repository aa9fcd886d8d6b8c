//! What two lists tell with all their tapes, and whether it is the same
//! equally often.

use crate::calls::Outcome;
use crate::mixer::Mixer;
use crate::situations::Situation;
use crate::state::Command;
use std::collections::{BTreeSet, HashMap};
use std::hash::BuildHasherDefault;

/// What is compared at each place: number, count of words, command. Where a
/// block was found is not told to the host, and may differ between the lists.
pub type Event = (u8, usize, Command);

/// The transcripts met, as a tree: a transcript is a node, and so is each of
/// its beginnings.
pub struct Transcripts {
    width: u32,
    nodes: HashMap<(usize, Event), usize, BuildHasherDefault<Mixer>>,
    /// By node and by how many words were gone over: how many different ones
    /// of them in each list lead there.
    ends: HashMap<(usize, usize), [u128; 2]>,
    /// By node, the words of its tapes.
    lengths: HashMap<usize, usize>,
    /// Whether there is one length of tapes at each node.
    pub equally_long: bool,
    /// The calls made of each list.
    pub places: usize,
    /// Whether with some tape words were passed over in a call that was not
    /// refused.
    pub passed: bool,
    /// Whether with some tape a turn was answered 3 though it was lent as many
    /// words as it makes draws.
    pub unsettled: bool,
    /// What was met with some tape when a request was released while its
    /// partition is rebuilt, and when jobs ran together.
    pub met: BTreeSet<Situation>,
    /// Whether with some tape such a request was collected.
    pub collected: bool,
    /// Whether with some tape the client was loaded from its own form, and
    /// whether a read was sent after that.
    pub reloaded: bool,
    pub read_after: bool,
}

impl Transcripts {
    /// None so far, of tapes of words of so many bits.
    pub fn new(width: u32) -> Transcripts {
        Transcripts {
            width,
            nodes: HashMap::default(),
            ends: HashMap::new(),
            lengths: HashMap::new(),
            equally_long: true,
            places: 0,
            passed: false,
            unsettled: false,
            met: BTreeSet::new(),
            collected: false,
            reloaded: false,
            read_after: false,
        }
    }

    /// The node that follows when this is told.
    pub fn after(&mut self, node: usize, outcome: &Outcome) -> usize {
        let event = (outcome.number, outcome.taken, outcome.command);
        let new = self.nodes.len() + 1;
        *self.nodes.entry((node, event)).or_insert(new)
    }

    /// A call was made in both lists; with some tape it passed words over, or
    /// was not settled.
    pub fn place(&mut self, passed: bool, unsettled: bool) {
        self.places += 1;
        self.passed |= passed;
        self.unsettled |= unsettled;
    }

    /// Counts tapes with which a list ends at a node. Of their words so many
    /// were gone over; each of the tapes counted stands for all that differ
    /// from it in others.
    pub fn end(&mut self, side: usize, node: usize, length: usize, asked: usize, tapes: u128) {
        self.ends.entry((node, asked)).or_default()[side] += tapes;
        let other = *self.lengths.entry(node).or_insert(length);
        self.equally_long &= other == length;
    }

    /// Whether each transcript occurs with equally many tapes in both lists,
    /// where its tapes are equally long, as they are by the right rules. Where
    /// they are not, a shorter one stands for all that begin so and are as long
    /// as the longest.
    pub fn equal(&self) -> bool {
        let mut most: HashMap<usize, usize> = HashMap::new();
        for (node, asked) in self.ends.keys() {
            let most = most.entry(*node).or_default();
            *most = (*most).max(*asked);
        }
        let mut sums: HashMap<usize, [u128; 2]> = HashMap::new();
        for ((node, asked), tapes) in &self.ends {
            let each = 1 << self.bits(most[node] - asked);
            for (sum, tapes) in sums.entry(*node).or_default().iter_mut().zip(tapes) {
                *sum += tapes * each;
            }
        }
        sums.values().all(|[left, right]| left == right)
    }

    fn bits(&self, words: usize) -> usize {
        self.width as usize * words
    }

    /// How many transcripts there are.
    pub fn count(&self) -> usize {
        self.lengths.len()
    }

    /// The tapes of both lists, and the words of the longest.
    pub fn tapes(&self) -> (f64, usize) {
        let tapes = self.ends.iter().map(|((node, asked), tapes)| {
            let others = self.bits(self.lengths[node] - asked);
            (tapes[0] + tapes[1]) as f64 * 2_f64.powi(others as i32)
        });
        let longest = self.lengths.values().max();
        (tapes.sum(), longest.copied().unwrap_or(0))
    }

    /// Each transcript with how many tapes of each list tell it. The tapes have
    /// to be short, so that there are not too many.
    pub fn all(&self) -> HashMap<Vec<Event>, [u128; 2]> {
        let before: HashMap<usize, (usize, Event)> =
            self.nodes.iter().map(|(from, to)| (*to, *from)).collect();
        let events = |end: &usize| {
            let nodes = std::iter::successors(before.get(end), |(node, _)| before.get(node));
            let mut events: Vec<Event> = nodes.map(|(_, event)| *event).collect();
            events.reverse();
            events
        };
        let mut all: HashMap<Vec<Event>, [u128; 2]> = HashMap::new();
        for ((end, asked), tapes) in &self.ends {
            let others = self.bits(self.lengths[end] - asked);
            for (sum, tapes) in all.entry(events(end)).or_default().iter_mut().zip(tapes) {
                *sum += tapes << others;
            }
        }
        all
    }
}
