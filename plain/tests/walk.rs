//! The walk over all tapes of words: it counts what goes over them one after
//! the other, and the pairs made for it tell what they are made for.

use plain::calls::{Ask, Call, Store};
use plain::lists::{Pair, pair};
use plain::lists::{above_sources, source_read, source_spent, source_unread};
use plain::lists::{drawn_again, layered, lent_again, two_stored};
use plain::lists::{released_by_run, several_levels, waiting_or_not};
use plain::mistakes::Mistake;
use plain::shape::Shape;
use plain::situations::Situation;
use plain::transcripts::{Event, Transcripts};
use plain::walk::transcripts;
use plain::words::{Caller, Words};
use std::collections::HashMap;

/// The tapes of a list, one after the other.
struct Direct<'a> {
    calls: &'a [Call],
    width: u32,
    events: Vec<Event>,
    tapes: HashMap<Vec<Event>, u128>,
}

/// Each tape of a list of calls counts once, by what it tells.
fn direct(calls: &[Call], width: u32, mistake: Mistake) -> HashMap<Vec<Event>, u128> {
    let mut direct = Direct {
        calls,
        width,
        events: Vec::new(),
        tapes: HashMap::new(),
    };
    direct.go(&Store::of_width(width, mistake));
    direct.tapes
}

impl Direct<'_> {
    fn go(&mut self, store: &Store) {
        let Some(call) = self.calls.get(self.events.len()) else {
            *self.tapes.entry(self.events.clone()).or_default() += 1;
            return;
        };
        let mut words = Some(vec![0; call.words.len()]);
        while let Some(lent) = words {
            let mut next = store.clone();
            let call = Call {
                words: lent,
                ..call.clone()
            };
            let outcome = next.call(&call);
            self.events
                .push((outcome.number, outcome.taken, outcome.command));
            self.go(&next);
            self.events.pop();
            let on_tape = match outcome.number {
                3 if call.ask == Ask::Turn => call.words.len(),
                _ => outcome.taken,
            };
            words = self.next_words(call.words, on_tape);
        }
    }

    /// The words that come next, if of these only so many are on the tape.
    fn next_words(&self, mut words: Vec<u16>, on_tape: usize) -> Option<Vec<u16>> {
        let most = u16::MAX >> (16 - self.width);
        let last = words[..on_tape].iter().rposition(|word| *word < most)?;
        words[last] += 1;
        words[last + 1..].fill(0);
        Some(words)
    }
}

fn walked(pair: &Pair, mistake: Mistake, caller: Caller) -> Transcripts {
    let mut words = Words::new(pair.width, mistake, caller);
    transcripts(pair, &mut words, usize::MAX)
}

/// The pair's first calls.
fn cut(mut pair: Pair, calls: usize) -> Pair {
    for side in &mut pair.sides {
        side.truncate(calls);
    }
    pair
}

/// Hands back how many transcripts there are.
fn compare(pair: &Pair, mistake: Mistake) -> usize {
    let all = walked(pair, mistake, Caller::MovesOn).all();
    let sides = [0, 1].map(|side| direct(&pair.sides[side], pair.width, mistake));
    for (events, tapes) in &all {
        let of = |side: usize| sides[side].get(events).copied().unwrap_or(0);
        assert_eq!([of(0), of(1)], *tapes, "{events:?}");
    }
    let told = |side: &HashMap<_, _>| side.keys().all(|events| all.contains_key(events));
    assert!(sides.iter().all(told));
    all.len()
}

/// Up to the turn that draws an order of four slots, and a little further.
#[test]
fn made_pairs_have_the_tapes_that_are_counted() {
    assert_eq!(lent_again().sides[0][3].words.len(), 4);
    assert_eq!(layered(2).sides[0][3].words.len(), 3);
    for mistake in [Mistake::None, Mistake::NothingPassed] {
        assert!(compare(&cut(lent_again(), 5), mistake) > 1);
        assert!(compare(&cut(layered(2), 7), mistake) > 1);
    }
}

/// Up to the second collect.
#[test]
fn tapes_are_counted_beside_a_rebuild() {
    for mistake in [Mistake::None, Mistake::OwnJobReadAwaited] {
        assert!(compare(&cut(source_read(2), 15), mistake) > 1);
        assert!(compare(&cut(source_spent(2), 15), mistake) > 1);
    }
}

/// Up to the first writes: four draws of two levels, or fewer.
#[test]
fn tapes_are_counted_when_jobs_run_together() {
    assert_eq!(waiting_or_not(2).sides[0][5].words.len(), 4);
    for mistake in [Mistake::None, Mistake::JoinsIfWaiting] {
        assert!(compare(&cut(waiting_or_not(2), 6), mistake) > 1);
    }
}

#[test]
fn random_pairs_have_the_tapes_that_are_counted() {
    let shapes = [
        Shape::new(1, 1, 1, 1, 1, 1),
        Shape::new(2, 2, 1, 1, 2, 1),
        Shape::new(2, 2, 2, 1, 2, 1),
        Shape::new(1, 1, 2, 1, 1, 2),
    ];
    let mut most = 0;
    for seed in 0..16 {
        let shape = shapes[seed % shapes.len()];
        let some = |calls: usize| cut(pair(shape, shape.levels as u32, seed as u64), calls);
        // As long as there are few enough tapes to go over.
        let fits = |calls: &usize| {
            let found = walked(&some(*calls), Mistake::None, Caller::MovesOn);
            found.tapes().0 < 20_000.0
        };
        let lengths: Vec<usize> = (0..=some(usize::MAX).sides[0].len()).collect();
        let calls = lengths.partition_point(fits) - 1;
        most = most.max(compare(&some(calls), Mistake::None));
    }
    assert!(most > 20, "{most}");
}

/// Whether the pair is told apart with each wrong rule of draws.
fn told(pair: &Pair) -> [bool; 3] {
    Mistake::DRAWS.map(|mistake| !walked(pair, mistake, Caller::MovesOn).equal())
}

/// With the right rules none is told apart; that a draw is uneven shows in the
/// slots of an order, and that words are drawn from twice in partitions. The
/// last look-up of the last pair may be made while its partition is rebuilt,
/// and then an uneven order shows there, too.
#[test]
fn made_pairs_tell_what_they_are_made_for() {
    let all = [two_stored(2), two_stored(3), lent_again(), drawn_again()];
    for pair in &all {
        let found = walked(pair, Mistake::None, Caller::MovesOn);
        assert!(pair.is_compared() && found.equal() && found.equally_long);
        assert!(found.passed && found.unsettled);
        assert_eq!(found.places, pair.sides[0].len());
    }
    let wanted = [[true, false, true], [true, false, true], [false; 3]];
    assert_eq!([&all[0], &all[1], &all[2]].map(told), wanted);
    assert_eq!(told(&all[3]), [true; 3]);
}

/// The wrong rules of look-ups while a partition is rebuilt that each of these
/// pairs tells, and what is met there.
#[test]
fn made_pairs_tell_wrong_look_ups_beside_a_rebuild() {
    use Mistake::{FinishedByOwnRead, LowestUnreadSlot, OwnJobReadAwaited};
    use Mistake::{SlotReadTwice, SourceReadsDummy, WaitingSkipsRebuild};
    use Situation::{Higher, OwnOutstanding, OwnUnread, SpentSource};
    let read = [
        SourceReadsDummy,
        SlotReadTwice,
        FinishedByOwnRead,
        OwnJobReadAwaited,
    ];
    let all: [(Pair, &[Mistake], Situation); 4] = [
        (source_unread(2), &[LowestUnreadSlot], OwnUnread),
        (source_read(2), &read, OwnOutstanding),
        (source_spent(2), &read[2..], SpentSource),
        (above_sources(2), &[WaitingSkipsRebuild], Higher),
    ];
    for (pair, wanted, situation) in &all {
        let found = walked(pair, Mistake::None, Caller::MovesOn);
        assert!(pair.is_compared() && found.equal() && found.equally_long);
        assert!(found.met.contains(situation) && found.collected);
        assert_eq!(found.places, pair.sides[0].len());
        let told = |mistake: &Mistake| !walked(pair, *mistake, Caller::MovesOn).equal();
        let told: Vec<Mistake> = Mistake::BESIDE.into_iter().filter(told).collect();
        assert_eq!(told, *wanted);
    }
}

/// The wrong rules of jobs that run together that each of these pairs tells, and
/// what is met there.
#[test]
fn made_pairs_tell_wrong_runs() {
    use Mistake::{JoinsIfWaiting, LowestFilledFirst, OrderShared, TakesOne};
    use Situation::{Apart, ReleasedByRun, SeveralWritten, Two};
    let all: [(Pair, &[Mistake], &[Situation]); 3] = [
        (
            several_levels(2),
            &[JoinsIfWaiting, OrderShared],
            &[SeveralWritten, Apart],
        ),
        (waiting_or_not(2), &[JoinsIfWaiting], &[Two]),
        (released_by_run(2), &[], &[ReleasedByRun]),
    ];
    for (pair, wanted, met) in &all {
        let found = walked(pair, Mistake::None, Caller::MovesOn);
        assert!(pair.is_compared() && found.equal() && found.equally_long);
        assert!(met.iter().all(|situation| found.met.contains(situation)));
        assert_eq!(found.places, pair.sides[0].len());
        let told = |mistake: &Mistake| !walked(pair, *mistake, Caller::MovesOn).equal();
        // Two that show in nothing that the host must not learn are among them.
        let some = [JoinsIfWaiting, OrderShared, LowestFilledFirst, TakesOne];
        let told: Vec<Mistake> = some.into_iter().filter(told).collect();
        assert_eq!(told, *wanted);
    }
}

/// A caller who lends words again that were lent to a turn answered 3.
#[test]
fn words_lent_again_are_told() {
    let again = |pair: &Pair| !walked(pair, Mistake::None, Caller::LendsAgain).equal();
    assert!(again(&lent_again()));
    assert!(!again(&two_stored(2)) && !again(&drawn_again()));
}
