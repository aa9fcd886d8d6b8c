//! Random calls and sessions with look-ups while a partition is rebuilt
//! (document 02, P4): how often each situation is met, which wrong rules are
//! told, and what holds of all of them.

use plain::array;
use plain::calls::{Ask, Call, Store};
use plain::mistakes::Mistake;
use plain::random_session;
use plain::script::{Script, replay};
use plain::session::{self, Session};
use plain::shape::Shape;
use plain::situations::{Situation, Watch, is_released};
use plain::state::{Command, Place, READ, Request, State};
use std::collections::{BTreeMap, HashSet};
use std::io::sink;
use std::panic::catch_unwind;

const SHAPES: [Shape; 8] = [
    Shape::new(2, 1, 2, 1, 2, 2),
    Shape::new(2, 2, 2, 1, 2, 2),
    Shape::new(4, 1, 3, 1, 4, 3),
    Shape::new(4, 2, 3, 1, 3, 3),
    Shape::new(8, 2, 4, 1, 8, 4),
    Shape::new(8, 4, 2, 1, 8, 3),
    Shape::new(4, 2, 2, 1, 4, 2),
    Shape::new(8, 2, 3, 1, 8, 3),
];

/// Half of them are steered towards look-ups beside rebuilds, a quarter towards
/// jobs that run together.
fn scripts() -> impl Iterator<Item = Script> {
    SHAPES.into_iter().flat_map(|shape| {
        (0..100).flat_map(move |seed| {
            [
                Script::new(shape, None, seed, 300),
                Script::beside(shape, seed, 300),
                Script::amid(shape, seed, 300),
                Script::together(shape, seed, 300),
            ]
        })
    })
}

type Times = BTreeMap<Situation, usize>;

fn count(times: &mut Times, met: &[Situation]) {
    for situation in met {
        *times.entry(*situation).or_default() += 1;
    }
}

fn seldom(times: &Times, fewest: usize) -> Vec<Situation> {
    let of = |situation: &Situation| times.get(situation).copied().unwrap_or(0);
    let all = Situation::ALL.into_iter();
    all.filter(|situation| of(situation) < fewest).collect()
}

#[test]
fn random_calls_meet_every_situation() {
    let mut times = Times::new();
    for script in scripts() {
        let mut watch = Watch::default();
        let mut store = Store::new(Mistake::None);
        for (call, outcome) in script.calls.iter().zip(&script.outcomes) {
            assert_eq!(watch.call(&mut store, call), *outcome);
        }
        count(&mut times, &watch.met);
    }
    println!("random calls: {times:?}");
    assert_eq!(seldom(&times, 50), []);
}

#[test]
fn random_calls_tell_every_mistake() {
    let mut told = Mistake::BESIDE.map(|mistake| (mistake, 0));
    let mut all = 0;
    for script in scripts() {
        for (mistake, times) in &mut told {
            *times += usize::from(replay(&script.calls, *mistake) != script.outcomes);
        }
        all += 1;
    }
    println!("of {all} random sessions of calls: {told:?}");
    assert!(told.iter().all(|(_, times)| *times >= 15), "{told:?}");
}

fn texts() -> impl Iterator<Item = Vec<u8>> {
    let short = (1..=100).map(|seed| random_session::text(seed, 100));
    short.chain((201..=220).map(|seed| random_session::text(seed, 2000)))
}

/// All but those with commands that stay outstanding, as none does in a
/// session.
#[test]
fn random_sessions_meet_every_situation() {
    let mut times = Times::new();
    for text in texts() {
        let mut session = Session::new(Mistake::None);
        session.watch = Some(Watch::default());
        session::run(&mut session, text.as_slice(), sink()).unwrap();
        count(&mut times, &session.watch.unwrap().met);
    }
    println!("random sessions: {times:?}");
    // As a run begins, its first read is outstanding until the turn's end.
    let seldom = |fewest| seldom(&times, fewest);
    let outstanding = [Situation::AwaitsJob, Situation::CollectedFirst];
    let rare = [Situation::SeveralStored, Situation::RoomEnds];
    let few = [&[Situation::OwnOutstanding], &outstanding[..], &rare].concat();
    assert_eq!((seldom(1), seldom(20)), (outstanding.to_vec(), few));
}

#[test]
fn random_sessions_tell_mistakes() {
    let printed = |text: &[u8], mistake| {
        let text = text.to_vec();
        // A wrong rule may read a slot that was never written.
        catch_unwind(move || {
            let mut output = Vec::new();
            session::run(&mut Session::new(mistake), text.as_slice(), &mut output).unwrap();
            output
        })
    };
    let hidden = [&Mistake::UNPRINTED[..], &Mistake::OUTSTANDING].concat();
    let shown = |mistake: &Mistake| !hidden.contains(mistake);
    let mut told: Vec<_> = { Mistake::BESIDE.into_iter().filter(shown) }
        .map(|mistake| (mistake, 0))
        .collect();
    for text in texts() {
        let right = printed(&text, Mistake::None).unwrap();
        for (mistake, times) in &mut told {
            *times += usize::from(printed(&text, *mistake).ok().as_ref() != Some(&right));
        }
    }
    println!("of 120 random sessions: {told:?}");
    assert!(told.iter().all(|(_, times)| *times >= 3), "{told:?}");
}

/// What is followed from call to call.
#[derive(Default)]
struct Follow {
    /// Where the block of the released request was found.
    place: Option<Place>,
    /// The slots that were read since they were written.
    read: HashSet<[usize; 3]>,
    beside: usize,
}

impl Follow {
    fn call(&mut self, store: &mut Store, call: &Call) {
        let released = is_released(store);
        let outcome = store.call(call);
        let Some(state) = store.state.as_ref().filter(|_| outcome.number == 0) else {
            return;
        };
        match call.ask {
            Ask::Open(_) => *self = Follow::default(),
            Ask::Turn => self.sent(outcome.command),
            Ask::Collect => self.place = None,
            _ => {}
        }
        let releases = is_released(store) && !released;
        self.beside += usize::from(releases && state.is_beside());
        self.stays(state);
    }

    /// A slot is read once, and a level written anew is unread.
    fn sent(&mut self, command: Command) {
        let slot = [command.partition, command.level, command.slot];
        if command.kind == READ {
            assert!(self.read.insert(slot), "{command:?} is sent twice");
        } else {
            self.read.remove(&slot);
        }
    }

    /// Where the block was found, it stays.
    fn stays(&mut self, state: &State) {
        if let Some(request) = state.request.as_ref().filter(|r| !r.is_held()) {
            let place = state.place[request.block];
            assert_eq!(*self.place.get_or_insert(place), place);
            assert_eq!(request.found, Some(state.look_up(request.block)));
        }
    }
}

/// A level that the front job does not read is read at most once for each job
/// done since it was written, once for each job queued, and once by the request
/// in hand: never 2^l times before a request passes it.
fn is_spared(state: &State, p: usize, level: usize) -> bool {
    let done = state.counter[p] % (1 << level);
    let queued = state.jobs(p);
    let passed = |r: &Request| state.partition[r.block] == p && r.level > level;
    let in_hand = state.request.as_ref().is_some_and(passed);
    state.levels[p][level].reads() <= done + queued + usize::from(in_hand)
}

#[test]
fn no_level_is_read_too_often() {
    for script in scripts() {
        let mut store = Store::new(Mistake::None);
        for call in &script.calls {
            store.call(call);
            let Some(state) = &store.state else {
                continue;
            };
            for p in 0..state.shape.partitions {
                let filled = (0..state.shape.levels).filter(|level| state.filled(p, *level));
                let mut others = filled.filter(|level| !state.is_source(p, *level));
                assert!(others.all(|level| is_spared(state, p, level)));
            }
        }
    }
}

#[test]
fn no_slot_is_read_twice_and_a_found_block_stays() {
    let mut beside = 0;
    for script in scripts() {
        let mut follow = Follow::default();
        let mut store = Store::new(Mistake::None);
        for call in &script.calls {
            follow.call(&mut store, call);
        }
        beside += follow.beside;
    }
    println!("{beside} releases beside a rebuild");
    assert!(beside > 2000, "{beside}");
}

/// The contents handed out, or what is said to be found, differ from the
/// array's with these mistakes.
#[test]
fn the_array_tells_wrong_contents() {
    for (seed, shape) in SHAPES.into_iter().enumerate() {
        let check = |mistake, calls| array::check(shape, mistake, seed as u64, calls);
        assert!(check(Mistake::None, 200_000).is_ok());
        for mistake in [Mistake::JobReadsNotAwaited, Mistake::ReadCountsAsCache] {
            assert!(check(mistake, 2_000_000).is_err(), "{shape:?}: {mistake:?}");
        }
    }
}
